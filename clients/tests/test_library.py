"""The library: places, batches, answers, sessions and what can go wrong with them."""
import json
import re
import time
import unittest
from itertools import islice
from typing import Any

from support import GREETING, InFolder, answering, free_port, hosting, serving, workbench

from bench61499 import (
    CHANGES_LIMIT, LINE_LIMIT, TEXT_LIMIT, BadReply, Blocked, Block, Border, Change, ConnectionEnded, Fault, Faulty, Flat, HistoryFull, Link,
    Misplaced, NoAnswer, NoSeat, NoSecret, NoSuchKey, NoSuchUnit, NotLetIn, NotYourHost, NoWorkbench, Places, Plan, Put, Recursive, Refused, Remove, RequestTooLong,
    Resource, Session, StaleBase, Stopped, TooLarge, batches, pauses,
)
from bench61499.secret import secret_file

A = "FUNCTION_BLOCK A EVENT_INPUT E WITH X; END_EVENT END_FUNCTION_BLOCK"


class PlacesTest(unittest.TestCase):
    def test_characters_of_many_bytes(self):
        text = "größe\n𝄞 x\n"
        places = Places(text)
        self.assertEqual(places.line_column(text.encode().index("ß".encode())), (1, 4))
        self.assertEqual(places.line_column(text.encode().index(b"x")), (2, 3))
        self.assertEqual(places.line(2), "𝄞 x")

    def test_a_place_inside_a_character_is_that_character(self):
        self.assertEqual([Places("aß𝄞b").line_column(byte)[1] for byte in range(9)], [1, 2, 2, 3, 3, 3, 3, 4, 5])

    def test_line_ends(self):
        places = Places("a\r\nb\nc\rd")
        self.assertEqual([places.line(number) for number in (1, 2, 3, 4)], list("abcd"))
        self.assertEqual([places.line_column(byte) for byte in (0, 3, 5, 7, 8)], [(1, 1), (2, 1), (3, 1), (4, 1), (4, 2)])

    def test_the_end_of_a_text(self):
        self.assertEqual(Places("").line_column(0), (1, 1))
        self.assertEqual(Places("a\n").line_column(2), (2, 1))
        self.assertEqual(Places("a\n").line_count(), 2)

    def test_there_and_back(self):
        text = "α\tβ\r\n\n𝄞𝄞\nend"
        places = Places(text)
        at = 0
        for character in text:
            if character not in "\r\n":
                self.assertEqual(places.place(*places.line_column(at)), at)
            at += len(character.encode())
        self.assertEqual(places.place(*places.line_column(at)), at)

    def test_what_is_no_place(self):
        places = Places("ab\nc")
        for line, column in ((0, 1), (3, 1), (1, 0), (1, 4)):
            self.assertRaises(ValueError, places.place, line, column)
        for byte in (-1, 5):
            self.assertRaises(ValueError, places.line_column, byte)

    def test_words(self):
        self.assertEqual(Places("a größe b").words(2, 9), "größe")


class BatchesTest(unittest.TestCase):
    def check(self, changes, sizes):
        made = list(batches(changes))
        self.assertEqual([len(batch) for batch in made], sizes)
        self.assertEqual([change for batch in made for change in batch], changes)
        for batch in made:
            line = json.dumps({"op": "commit", "changes": [it.request() for it in batch]}, ensure_ascii=False, separators=(",", ":"))
            self.assertLessEqual(len(line.encode()), LINE_LIMIT)

    def test_by_number(self):
        self.check([], [])
        self.check([Put(f"U{number}", 0, "") for number in range(CHANGES_LIMIT)], [16])
        self.check([Remove(f"U{number}", 1) for number in range(40)], [16, 16, 8])

    def test_by_bytes(self):
        self.check([Put(f"U{number}", 0, "x" * TEXT_LIMIT) for number in range(20)], [15, 5])
        self.check([Put(f"U{number}", 0, "\x01" * TEXT_LIMIT) for number in range(5)], [2, 2, 1])
        self.check([Put(f"U{number}", 0, "ä" * (TEXT_LIMIT // 2)) for number in range(16)], [15, 1])

    def test_one_that_is_too_long(self):
        self.assertRaises(RequestTooLong, list, batches([Put("A", 0, "x" * LINE_LIMIT)]))

    def test_the_workbench_takes_them(self):
        texts = ["x" * TEXT_LIMIT, "\x01" * TEXT_LIMIT, '"' * TEXT_LIMIT, "𝄞" * (TEXT_LIMIT // 4)]
        with Session.script(workbench()) as session:
            for batch in batches(Put(f"U{number}", 0, text) for number, text in enumerate(texts * 6)):
                session.commit(batch)
            self.assertEqual(len(session.settle()), 24)


class SessionTest(unittest.TestCase):
    def setUp(self):
        self.session = Session.script(workbench())
        self.addCleanup(self.session.close)

    def test_faults(self):
        self.assertEqual(self.session.commit([Put("a", 0, A)]), 1)
        self.assertIsNone(self.session.faults("A"))
        results: list[int] = []
        self.assertEqual(self.session.settle(results.append), {"A": (Fault("WITH_UNKNOWN", 36, 37),)})
        self.assertEqual(results, [1])
        self.assertEqual(self.session.revisions, {"A": 1})

    def test_stale_bases(self):
        self.session.commit([Put("A", 0, A)])
        with self.assertRaises(StaleBase) as caught:
            self.session.commit([Put("B", 0, A), Put("A", 7, A)])
        self.assertEqual((caught.exception.unit, caught.exception.current), ("A", 1))
        self.assertRaises(NoSuchKey, self.session.faults, "B")
        self.session.commit([Remove("A", 1)])
        self.assertEqual(self.session.revisions, {})
        self.assertEqual(self.session.settle(), {})

    def test_revision(self):
        self.assertEqual(self.session.revision("A"), 0)
        self.session.commit([Put("A", 0, A)])
        self.session.commit([Put("A", 1, A)])
        self.assertEqual(self.session.revision("A"), 2)
        self.assertEqual(self.session.faults("A"), None)

    def test_changed(self):
        with Session.script(workbench()) as session, Session.script(workbench(), history=6) as short:
            texts = [Put(f"U{at}", 0, "") for at in range(40)]
            for batch in batches(texts):
                session.commit(batch)
            known = {**session.revisions, "ABSENT": 0}
            self.assertEqual(session.changed(known), {})
            session.commit([Put("U0", 1, "x"), Put("U20", 2, "x"), Remove("U39", 3)])
            session.commit([Put("ABSENT", 0, ""), Put("U16", 2, "y")])
            self.assertEqual(session.changed(known), {"U0": 4, "U20": 4, "U39": 0, "ABSENT": 5, "U16": 5})
            self.assertEqual(known["U0"], 1)
            self.assertEqual(session.changed({}), {})
            self.assertEqual(session.commit([Put("U1", 1, "")]), 6)  # It has changed nothing.
            # One call for each 16 units, and one more for each that has changed.
            self.assertEqual(short.changed(dict.fromkeys(("A", "B", "C"), 7) | {f"U{at}": 0 for at in range(14)}), {"A": 0, "B": 0, "C": 0})
            short.revision("A")
            self.assertRaisesRegex(Refused, "history of the workbench is full", short.revision, "A")

    def test_changed_in_other_cases(self):
        self.session.commit([Put("a", 0, A), Put("b", 0, A)])
        self.assertEqual(self.session.changed({"a": 1, "b": 0, "c": 4}), {"B": 1, "C": 0})
        self.assertEqual(self.session.changed({"c": 4, "b": 0, "a": 0}), {"A": 1, "B": 1, "C": 0})

    def test_a_session_that_was_ended(self):
        self.session.close()
        self.assertRaises(ConnectionEnded, self.session.work, 1)
        self.assertRaises(ConnectionEnded, self.session.commit, [Put("A", 0, A)])

    def test_jobs(self):
        self.assertIsNone(self.session.take())
        self.session.commit([Put("A", 0, A)])
        job = self.session.take()
        self.assertEqual((job.number, job.kind, job.unit), (1, "faults", "A"))
        self.assertTrue(self.session.give_back("faults", "A"))
        self.assertFalse(self.session.give_back("faults", "A"))
        self.session.deliver(job)
        with self.assertRaisesRegex(Refused, "NotPending"):
            self.session.deliver(job)

    def test_checkpoint(self):
        with Session.script(workbench(), history=3) as session:
            session.commit([Put("A", 0, A)])
            job = session.take()
            self.assertEqual(session.checkpoint(1, 3), 2)
            session.deliver(job)
            self.assertEqual(session.faults("A"), (Fault("WITH_UNKNOWN", 36, 37),))
            self.assertEqual(session.commit([Put("A", 1, A)]), 2)
            with self.assertRaisesRegex(Refused, "--history"):
                session.faults("A")
            self.assertEqual(session.checkpoint(2, 9), 5)
            self.assertEqual(session.commit([Put("B", 0, A)]), 3)
            with self.assertRaisesRegex(Refused, "UnitsOver"):
                session.checkpoint(1, 9)

    def test_refusals(self):
        cases: list[tuple[list[Change], str]] = [
            ([], "NoChange"),
            ([Put("A", 0, "")] * 2, "SameUnitTwice"),
            ([Put("9A", 0, "")], "BadName"),
            ([Put("A", 0, "x" * (TEXT_LIMIT + 1))], "TextTooLong"),
            ([Remove("A", 0)], "NoSuchUnit"),
        ]
        for changes, refusal in cases:
            with self.assertRaises(Refused) as caught:
                self.session.commit(changes)
            self.assertEqual(caught.exception.refusal, refusal)
        self.assertRaises(NoSuchUnit, self.session.commit, [Remove("A", 0)])
        self.assertRaises(RequestTooLong, self.session.commit, [Put("A", 0, "x" * LINE_LIMIT)])
        self.assertEqual(self.session.commit([Put("A", 0, A)]), 1)

    def test_what_is_wrong_with_a_request(self):
        ask: dict[str, Any] = {"op": "ask", "kind": "faults"}
        put: dict[str, Any] = {"put": "A", "base": 0, "text": ""}
        checkpoint: dict[str, Any] = {"op": "checkpoint", "units": 1}
        cases: list[tuple[dict[str, Any], str]] = [
            ({}, "`op` has to be one of commit, ask, work, take, deliver, give_back, checkpoint"),
            ({"op": ["take"]}, "`op` has to be one of commit,"),
            (ask, "`unit` has to be a text"),
            ({**ask, "kind": "plan", "unit": "A"}, "`kind` has to be faults, net or deploy"),
            ({"op": "give_back", "unit": "A"}, "`kind` has to be faults, net or deploy"),
            ({"op": "work", "turns": 1_001}, "`turns` has to be a whole number from 1 to 1,000"),
            ({"op": "work", "turns": True}, "`turns` has to be a whole number"),
            ({"op": "deliver", "job": 1.0}, "`job` has to be a whole number from 0 to 18,446,744,073,709,551,615"),
            ({**checkpoint, "history": 10_000_001}, "`history` has to be a whole number from 1 to 10,000,000"),
            ({**checkpoint, "history": 1, "units": 0}, "`units` has to be a whole number from 1 to 16,384"),
            ({"op": "commit", "changes": [7]}, "`changes` has to be a list of objects"),
            ({"op": "commit", "changes": [put, {**put, "remove": None}]}, "change 2: it needs one of `put` and `remove`"),
            ({"op": "commit", "changes": [put, {}]}, "change 2: it needs one of `put` and `remove`"),
            ({"op": "commit", "changes": [{**put, "base": -1}]}, "change 1: `base` has to be a whole number"),
            ({"op": "commit", "changes": [{"remove": None, "base": 0}]}, "change 1: `remove` has to be a text"),
        ]
        for request, wrong in cases:
            with self.assertRaisesRegex(Refused, f"^the workbench refused the request: {re.escape(wrong)}") as caught:
                self.session.request(request)
            self.assertEqual(caught.exception.refusal, "BadRequest")
        self.assertEqual(self.session.request({"op": "commit", "changes": [{**put, "more": 7}]}), {"commit": 1})

    def test_full_history(self):
        with Session.script(workbench(), history=1) as session:
            session.commit([Put("A", 0, A)])
            with self.assertRaisesRegex(Refused, "--history"):
                session.work(1)


class AnswersTest(unittest.TestCase):
    """Nets and plans, as a workbench that computes them answers."""

    def answer(self, kind, reply):
        with answering(GREETING, json.dumps(reply).encode() + b"\n") as port, Session.connect("127.0.0.1", port) as session:
            return session.ask(kind, "A")

    def test_nets(self):
        net = {"blocks": [["X.Y", "T"]], "links": [["event", "X.Y.O", "X.Y.I"]], "borders": [["adapter", "K", "X.Y.P"]]}
        flat = Flat((Block("X.Y", "T"),), (Link("event", "X.Y.O", "X.Y.I"),), (Border("adapter", "K", "X.Y.P"),))
        self.assertEqual(self.answer("net", {"net": net}), flat)
        self.assertEqual(self.answer("net", {"net": {"blocked": ["B", "C"]}}), Blocked(("B", "C")))
        self.assertEqual(self.answer("net", {"net": {"recursive": ["B"]}}), Recursive(("B",)))
        self.assertEqual(self.answer("net", {"net": "too_large"}), TooLarge())
        self.assertIsNone(self.answer("net", {"answer": "pending"}))

    def test_plans(self):
        plan = {"cuts": [["data", "A.O", "B.I"]], "resources": [["D.R", ["START D.R"]]]}
        self.assertEqual(self.answer("deploy", {"deploy": plan}), Plan((Link("data", "A.O", "B.I"),), (Resource("D.R", ("START D.R",)),)))
        self.assertEqual(self.answer("deploy", {"deploy": {"faulty": [["UNMAPPED", "A"]]}}), Faulty((Misplaced("UNMAPPED", "A"),)))
        self.assertEqual(self.answer("deploy", {"deploy": {"stopped": "too_large"}}), Stopped(TooLarge()))

    def test_answers_of_the_wrong_form(self):
        for reply in ({"net": {"blocks": []}}, {"net": 7}, {"faults": []}, {}, [], 7, None):
            self.assertRaises(BadReply, self.answer, "net", reply)
        self.assertRaises(BadReply, self.answer, "faults", {"faults": [["CLASS", 1]]})


class TroubleTest(InFolder):
    def test_no_program(self):
        with self.assertRaisesRegex(NoWorkbench, "can't start the workbench .*nowhere: No such file or directory"):
            Session.script(self.folder / "nowhere")

    def test_a_program_that_dies(self):
        with Session.script(self.program("sys.stdin.readline(); sys.exit(3)")) as session:
            with self.assertRaisesRegex(ConnectionEnded, r"status 3"):
                session.work(1)

    def test_a_program_that_dies_before_it_reads(self):
        with Session.script(self.program("sys.exit(4)")) as session:
            with self.assertRaisesRegex(ConnectionEnded, r"status 4"):
                session.commit([Put("A", 0, "x" * 1_000_000)])

    def test_a_reply_that_is_cut_off(self):
        with Session.script(self.program("""sys.stdin.readline(); sys.stdout.write('{"accep')""")) as session:
            self.assertRaises(ConnectionEnded, session.work, 1)

    def test_no_server(self):
        with self.assertRaisesRegex(NoWorkbench, "no workbench at 127.0.0.1:"):
            Session.connect("127.0.0.1", free_port())

    def test_words_that_are_no_host(self):
        for host in ("a..b", "x" * 70):
            with self.assertRaisesRegex(NoWorkbench, f"^no workbench at {host}:9: there is no such host$"):
                Session.connect(host, 9)

    def test_a_server_that_hangs_up(self):
        with answering(GREETING, b'{"accepted":1}\n') as port, Session.connect("127.0.0.1", port) as session:
            self.assertEqual(session.work(1), 1)
            with self.assertRaisesRegex(ConnectionEnded, "closed the connection"):
                session.work(1)

    def test_replies_that_are_no_json(self):
        for reply in (b"Hello!\n", b"\xff\n", b"\n", b'{"accepted":1}{}\n'):
            with answering(GREETING, reply) as port, Session.connect("127.0.0.1", port) as session:
                with self.assertRaises(BadReply) as caught:
                    session.work(1)
                self.assertEqual(caught.exception.line, reply)

    def test_a_server_that_does_not_answer(self):
        with answering(b"") as port, self.assertRaisesRegex(NoAnswer, "within 0.1 seconds: it is busy, or all sessions"):
            Session.connect("127.0.0.1", port, timeout=0.1)
        with answering(GREETING, b"") as port, Session.connect("127.0.0.1", port, timeout=2) as session:
            self.assertRaises(NoAnswer, session.work, 1)

    def test_a_server_that_is_no_workbench(self):
        with answering(b"HTTP/1.1 400 Bad Request\r\n") as port, self.assertRaisesRegex(BadReply, "no sense: HTTP/1.1 400"):
            Session.connect("127.0.0.1", port)


class HostTest(InFolder):
    """Sessions of a host, which come and go."""

    def test_a_secret(self):
        secret = self.write("secret", "open sesame, please\nthis is not it\n")
        secret.chmod(0o600)
        with hosting("--secret", str(secret)) as port:
            with Session.connect("127.0.0.1", port, secret="open sesame, please") as session:
                self.assertEqual(session.commit([Put("A", 0, A)]), 1)
            with self.assertRaisesRegex(NotLetIn, f"the workbench at 127.0.0.1:{port} closed the connection before it answered: the secret may be wrong$"):
                Session.connect("127.0.0.1", port, secret="sesame, open, please")
            self.assertRaisesRegex(NoSecret, "^the host lets in only who has its secret, and there is none in .*: name its file with --secret$", Session.connect, "127.0.0.1", port)

    def test_a_secret_that_the_host_makes(self):
        with hosting() as port:
            file = secret_file(port)
            self.assertEqual((file.stat().st_mode & 0o777, file.parent.stat().st_mode & 0o777), (0o600, 0o700))
            self.assertRegex(file.read_text(), r"\A[0-9a-f]{64}\n\Z")
            with Session.connect("127.0.0.1", port) as session:
                self.assertEqual(session.commit([Put("A", 0, A)]), 1)
            for stranger in "", "another secret, of 27 bytes":
                self.assertRaises((NoSecret, NotLetIn), Session.connect, "127.0.0.1", port, secret=stranger)

    def test_a_secret_that_nobody_asks_for(self):
        with hosting("--open") as port:
            self.assertFalse(secret_file(port).exists())
            with self.assertRaisesRegex(NotYourHost, "^the program at 127.0.0.1:[0-9]+ sends no challenge: it is busy, it is not your host, or it was started without a secret$"):
                Session.connect("127.0.0.1", port, secret="open sesame, please", timeout=0.5)
            with Session.connect("127.0.0.1", port) as session:
                self.assertEqual(session.commit([Put("A", 0, A)]), 1)

    def test_all_sessions_are_in_use(self):
        for words in (), ("--open",):
            with hosting("--sessions", "1", *words) as port:
                with Session.connect("127.0.0.1", port):
                    self.assertRaisesRegex(NoSeat, "^all sessions of the workbench are in use$", Session.connect, "127.0.0.1", port)
                with self.once_free(port) as session:
                    self.assertEqual(session.revision("A"), 0)

    def once_free(self, port: int) -> Session:
        """The seat is free a moment after its session has ended."""
        for _ in range(200):
            try:
                return Session.connect("127.0.0.1", port)
            except NoSeat:
                time.sleep(0.05)
        raise AssertionError("the seat stays taken")

    def test_pauses(self):
        ours, theirs = ([*islice(pauses(), 6)] for _ in range(2))
        self.assertTrue(all(most / 2 <= it <= most for its in (ours, theirs) for it, most in zip(its, [1, 2, 4, 8, 15, 15], strict=True)))
        self.assertNotEqual(ours, theirs)


class PresentTest(unittest.TestCase):
    """What a workbench has, of which nothing is known, in few recorded calls."""

    def test_units_that_came_by_one_commit(self):
        units = [f"U{at}" for at in range(15)]
        with Session.script(workbench(), history=9) as session:
            session.commit([Put(unit, 0, "") for unit in units])
            session.commit([Put("U3", 1, "x"), Put("U9", 1, "x")])
            session.checkpoint(99, 6)
            self.assertEqual(session.present(["u99", *units]), {"U99": 0, **dict.fromkeys(units, 1), "U3": 2, "U9": 2})
            with self.assertRaises(HistoryFull):
                session.revision("U1")

    def test_units_that_are_not_there(self):
        with Session.script(workbench(), history=2) as session:
            self.assertEqual(session.present([f"U{at}" for at in range(32)]), dict.fromkeys((f"U{at}" for at in range(32)), 0))
            with self.assertRaises(HistoryFull):
                session.revision("U1")


class ServerTest(unittest.TestCase):
    def test_two_sessions(self):
        with serving(sessions=2) as port, Session.connect("127.0.0.1", port) as one, Session.connect("127.0.0.1", port) as other:
            with self.assertRaisesRegex((NoWorkbench, NoAnswer), "sessions"):
                Session.connect("127.0.0.1", port, timeout=0.2)
            one.commit([Put("A", 0, A)])
            self.assertEqual(other.revision("A"), 1)
            self.assertEqual(other.wait("faults", "A"), (Fault("WITH_UNKNOWN", 36, 37),))
            self.assertRaises(StaleBase, other.commit, [Put("A", 0, A)])
            other.commit([Remove("A", 1)])
            self.assertEqual(one.settle(), {})


if __name__ == "__main__":
    unittest.main()
