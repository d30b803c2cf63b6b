"""Peers that are not what they seem: servers that answer forever, or are where a host was, and editors that send what is no message."""
from __future__ import annotations

import json
import socket
import subprocess
import threading
import unittest
from collections.abc import Callable, Iterable, Iterator
from contextlib import contextmanager, suppress
from itertools import count, islice, repeat
from pathlib import Path
from tempfile import TemporaryDirectory
from typing import Any
from unittest.mock import patch

from support import CLIENTS, GREETING, answering, forget_secret, hosting, run, serving, workbench
from tapping import false_host

from bench61499 import BadReply, Change, ConnectionEnded, NoAnswer, NoResult, Put, Session, StaleBase
from bench61499.language.units import Misuse, Unit, commit_units
from bench61499.session import REPLY_LIMIT, TEXT_LIMIT
from bench61499.snapshot import ROUNDS

GOOD = "FUNCTION_BLOCK A END_FUNCTION_BLOCK"
WAIT = 20
"""Seconds after which a program that has to end has not done so."""


@contextmanager
def sending(pieces: Callable[[], Iterator[bytes]], each: float = 0) -> Iterator[int]:
    """A server that greets, and then sends these pieces for as long as its peer stays, with this pause in seconds before each; gives its port."""
    is_over = threading.Event()

    def serve(listener: socket.socket) -> None:
        connection, _ = listener.accept()
        with connection, suppress(OSError):
            connection.recv(1_000)
            connection.sendall(GREETING)
            for piece in pieces():
                if is_over.wait(each):
                    return
                connection.sendall(piece)

    with socket.create_server(("127.0.0.1", 0)) as listener:
        thread = threading.Thread(target=serve, args=(listener,))
        thread.start()
        try:
            yield listener.getsockname()[1]
        finally:
            is_over.set()
            thread.join()


class ServerTest(unittest.TestCase):
    def test_a_reply_without_end_is_not_kept(self) -> None:
        with patch("bench61499.session.REPLY_LIMIT", 1 << 20), sending(lambda: repeat(b" " * 65_536)) as port:
            with Session.connect("127.0.0.1", port) as session, self.assertRaisesRegex(ConnectionEnded, "sent a reply of more than 1,048,576 bytes$"):
                session.status()
        self.assertGreater(REPLY_LIMIT, 100_000_000)

    def test_a_reply_that_comes_byte_by_byte_is_not_waited_for(self) -> None:
        with sending(lambda: repeat(b" "), each=0.1) as port, Session.connect("127.0.0.1", port, timeout=2) as session:
            self.assertRaises(NoAnswer, session.status)

    def test_replies_of_deep_or_huge_things_make_no_sense(self) -> None:
        for reply in (b"[" * 100_000, b'{"commit":1e999}', b'{"refused":"StaleBase","current":1e999,"unit":"A"}', b'{"commit":%b}' % (b"9" * 5_000), b"7", b"null"):
            with answering(GREETING, reply + b"\n") as port, Session.connect("127.0.0.1", port) as session:
                self.assertRaises(BadReply, session.commit, [])

    def test_names_that_no_workbench_has(self) -> None:
        """By names files are written and pictures are drawn."""
        evil = '"];x[image=\\"/etc/passwd\\"'
        asked: list[tuple[Callable[[Session], object], str]] = [
            (lambda it: it.units(), '{"at":1,"units":[["../A",1]]}'),
            (lambda it: it.watch(0), '{"at":1,"events":[["commit",1,1,["../A"],[]]]}'),
            (lambda it: it.watch(0), '{"at":1,"events":[["value","net","A\\n"]]}'),
            (lambda it: it.peek("net", "A"), f'{{"net":{{"blocks":[["A.B","{evil}"]],"links":[],"borders":[]}}}}'),
            (lambda it: it.peek("net", "A"), f'{{"net":{{"blocks":[],"links":[["event","A.B","{evil}"]],"borders":[]}}}}'),
            (lambda it: it.peek("net", "A"), f'{{"net":{{"blocked":["{evil}"]}}}}'),
            (lambda it: it.peek("deploy", "A"), f'{{"deploy":{{"cuts":[],"resources":[["{evil}",[]]]}}}}'),
            (lambda it: it.peek("deploy", "A"), '{"deploy":{"faulty":[["UNMAPPED",1]]}}'),
        ]
        for ask, reply in asked:
            with answering(GREETING, f"{reply}\n".encode()) as port, Session.connect("127.0.0.1", port) as session:
                self.assertRaises(BadReply, ask, session)

    def test_numbers_that_no_workbench_comes_to(self) -> None:
        """They are kept, and point into texts."""
        asked: list[tuple[Callable[[Session], object], str]] = [
            (lambda it: it.units(), '{"at":1,"units":[["A",%s]]}'),
            (lambda it: it.text("A"), '{"at":1,"base":%s,"text":""}'),
            (lambda it: it.commit([]), '{"commit":%s}'),
            (lambda it: it.commit([]), '{"refused":"StaleBase","unit":"A","current":%s}'),
            (lambda it: it.peek("faults", "A"), '{"faults":[["SYNTAX",%s,7]]}'),
            (lambda it: it.watch(0), '{"at":1,"events":[["commit",%s,1,["A"],[]]]}'),
        ]
        for ask, reply in asked:
            for number in ("9223372036854775808", "-1", "1.5", '"1"'):
                with answering(GREETING, f"{reply % number}\n".encode()) as port, Session.connect("127.0.0.1", port) as session:
                    self.assertRaises(BadReply, ask, session)
        with answering(GREETING, b'{"at":2,"events":[]}\n') as port, Session.connect("127.0.0.1", port) as session:
            self.assertRaises(BadReply, session.watch, 3)

    def test_texts_and_lists_that_no_workbench_has(self) -> None:
        """What can be gone through like a list, or made a text, would pass for a unit without faults."""
        asked: list[tuple[Callable[[Session], object], str, tuple[str, ...]]] = [
            (lambda it: it.text("A"), '{"at":1,"base":1,"text":%s}', ("5", "null", "[]", "{}", r'"\ud800"', f'"{"x" * (TEXT_LIMIT + 1)}"', f'"{"ä" * (TEXT_LIMIT // 2 + 1)}"')),
            (lambda it: it.peek("faults", "A"), '{"faults":%s}', ("{}", '""', "null", "[[]]", '["abc"]', '[["A",1]]')),
            (lambda it: it.units(), '{"at":1,"units":%s}', ("{}", '""')),
            (lambda it: it.watch(0), '{"at":1,"events":%s}', ("{}", '""', '[["commit",1,1,"A",[]]]', '[["commit",1,1,["A"],{}]]')),
            (lambda it: it.peek("net", "A"), '{"net":%s}', ('{"blocks":{},"links":[],"borders":[]}', '{"blocks":[],"links":"","borders":[]}', '{"blocked":{"A":1}}')),
            (lambda it: it.peek("deploy", "A"), '{"deploy":{"cuts":[],"resources":%s}}', ("{}", '[["A.B",{}]]', '[["A.B",[5]]]', r'[["A.B",["\ud800"]]]')),
        ]
        for ask, reply, falses in asked:
            for false in falses:
                with self.subTest(false=false[:40]), answering(GREETING, f"{reply % false}\n".encode()) as port, Session.connect("127.0.0.1", port) as session:
                    self.assertRaises(BadReply, ask, session)

    def test_a_unit_without_a_sensible_text_or_faults_is_not_checked(self) -> None:
        text = f'"text":"{GOOD}"'.encode()
        for words, false in (text, b'"text":5'), (text, rb'"text":"\ud800"'), (b'{"faults":[]}', b'{"faults":{}}'):
            with hosting("--open") as host, TemporaryDirectory() as folder, false_host(host, {words: false}) as port, Session.connect("127.0.0.1", host) as session:
                session.commit([Put("A", 0, GOOD)])
                Path(folder, "a.fb").write_text(GOOD, "utf-8")
                for path in list[str](), [folder]:
                    ran = run("check", *path, "--connect", f":{port}")
                    self.assertEqual((ran.returncode, ran.stdout), (2, ""))
                    self.assertRegex(ran.stderr, r"\Acheck: the workbench sent a reply that makes no sense: .*\n\Z")

    def test_faults_that_are_not_in_a_text(self) -> None:
        with hosting("--open") as host, false_host(host, {b'["SYNTAX",0,1]': b'["SYNTAX",0,9]'}) as port:
            with Session.connect("127.0.0.1", host) as session:
                session.commit([Put("A", 0, "X")])
            ran = run("check", "--connect", f":{port}")
            self.assertEqual((ran.returncode, ran.stderr), (2, "check: the workbench sent a reply that makes no sense: faults of A that are not in its text\n"))

    def test_a_unit_that_is_there_without_faults_is_not_checked(self) -> None:
        with hosting("--open") as host, TemporaryDirectory() as folder, false_host(host, {b'{"faults":[]}': b'{"refused":"NoSuchKey"}'}) as port:
            Path(folder, "a.fb").write_text(GOOD, "utf-8")
            for words in [folder, "--replace"], [folder], list[str]():
                ran = run("check", *words, "--connect", f":{port}")
                self.assertEqual((ran.returncode, ran.stdout), (2, ""))
                self.assertEqual(ran.stderr.splitlines()[-1], "check: A was changed by somebody else while it was checked; check again")
        with serving(9) as server, TemporaryDirectory() as folder, false_host(server, {b'{"faults":[]}': b'{"refused":"NoSuchKey"}'}) as port:
            Path(folder, "a.fb").write_text(GOOD, "utf-8")
            ran = run("check", folder, "--connect", f":{port}", "--replace")
            self.assertEqual((ran.returncode, ran.stderr), (2, "check: A was changed by somebody else while it was checked; check again\n"))

    def test_a_list_of_units_that_goes_round_ends(self) -> None:
        page = b'{"at":1,"units":[["A",1]]}\n'
        with answering(GREETING, page, page, page) as port, Session.connect("127.0.0.1", port) as session:
            self.assertRaises(BadReply, session.units)

    def test_a_server_that_always_has_more_to_tell_is_given_up(self) -> None:
        status = {"workbench": "F" * 32, "session": 1, "calls": 1, "commits": 0, "units": 0, "keys": 0, "pending": 0}
        told = count(2)

        def answer(asked: dict[str, Any]) -> dict[str, Any]:
            replies: dict[str, dict[str, Any]] = {"deliver": {"refused": "NoSuchJob"}, "status": {"status": status}, "units": {"at": 1, "units": []}}
            return replies.get(asked["op"]) or {"at": next(told), "events": []}

        def serve(listener: socket.socket) -> None:
            connection, _ = listener.accept()
            with connection, connection.makefile("rb") as lines, suppress(OSError):
                for line in islice(lines, 5 * ROUNDS):
                    connection.sendall(json.dumps(answer(json.loads(line))).encode() + b"\n")

        with socket.create_server(("127.0.0.1", 0)) as listener:
            port = listener.getsockname()[1]
            forget_secret(port)
            thread = threading.Thread(target=serve, args=(listener,))
            thread.start()
            ran = run("check", "--connect", f":{port}", "--patience", 2)
            thread.join()
        self.assertEqual((ran.returncode, ran.stdout), (2, ""))
        self.assertRegex(ran.stderr, "^check: the workbench reports further calls without end: neither 10,000 replies nor 2 seconds suffice to catch up with it\n$")

    def test_who_is_refused_again_and_again_gives_up(self) -> None:
        """Two that put one folder over another each, or a server that always refuses."""
        numbers = count(1)

        class Refusing(Session):
            def commit(self, changes: Iterable[Change]) -> int:
                raise StaleBase({"refused": "StaleBase", "unit": "A", "current": next(numbers)})

        with Refusing.script(workbench()) as session:
            self.assertRaisesRegex(Misuse, "^A was changed by somebody else meanwhile$", commit_units, session, [Unit("A", Path("a.fb"), "")])
            self.assertRaisesRegex(NoResult, "^others have changed A, B again and again$", session.present, ["A", "B"])

    def test_localhost_is_the_address_at_which_a_host_listens(self) -> None:
        """Another one, to which the name leads first, may be taken by any user of the machine; it would get the texts."""
        asked: list[object] = []
        look_up = socket.getaddrinfo

        def looking_up(host: Any, *more: Any) -> Any:
            asked.append(host)
            return look_up(host, *more)

        with hosting() as port, patch("socket.getaddrinfo", looking_up):
            for host in ("localhost", "", "LOCALHOST", "localhost."):
                Session.connect(host, port).close()
        self.assertEqual(set(asked), {"127.0.0.1"})


class EditorTest(unittest.TestCase):
    def ended(self, sent: bytes) -> tuple[int, bytes]:
        """The status of a language server to which this was sent, and what it has sent, once the editor has closed its pipe."""
        words = [str(CLIENTS / "lsp"), "--program", workbench()]
        with subprocess.Popen(words, stdin=subprocess.PIPE, stdout=subprocess.PIPE) as server:
            try:
                out, _ = server.communicate(sent, timeout=WAIT)
            finally:
                server.kill()
        return server.returncode, out

    def test_what_is_no_message_does_not_keep_the_server_from_ending(self) -> None:
        asked = json.dumps({"id": 1, "method": "initialize", "params": {}}).encode()
        for body in (b"[" * 100_000, b"{", b"[]"):
            status, out = self.ended(b"Content-Length: %d\r\n\r\n%bContent-Length: %d\r\n\r\n%b" % (len(body), body, len(asked), asked))
            self.assertEqual((status, out.count(b'"code":-32700'), out.count(b'"capabilities"')), (1, 1, 1))

    def test_lengths_that_no_message_has(self) -> None:
        for length in (b"9" * 5_000, b"1000000000000", b"x" * 100_000):
            self.assertEqual(self.ended(b"Content-Length: %b\r\n\r\n{}" % length), (1, b""))


if __name__ == "__main__":
    unittest.main()
