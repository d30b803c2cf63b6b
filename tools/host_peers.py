"""The peers of a host's soak beside its engineers: those who use each seat, bad ones that come and go, and bad ones that stay.

tools/host_peers.py PORT VISIT     is one of those that stay (or `comes_and_goes`), for benchmarks/team, until it is ended"""
import contextlib
import json
import random
import socket
import sys
import threading
import time
from collections import deque

from soaking import LONG_LINE, connected, wrong

from bench61499.secret import exchange_for
from measuring import SECRET

# How many bytes the first and the second line of a host have.
CHALLENGE_LINE, PROOF_LINE = 81, 77
# How many silent connections there are at once, for how many seconds, and how many come in each second of them.
SILENT, SILENCE, NEWCOMERS = 40, 5, 20
# How many keys one session keeps, and for how many seconds: longer than a key may be out, than a session may be idle, and than a reply may make no headway.
KEPT, TOO_LONG = 5, 70
# After how many seconds the host has ended a session that takes its replies too slowly.
MOST_REPLY = 600
# For how many seconds one commits without end, at least, and then makes a pause.
STORM, PAUSE = 2, 20
# A structure, units that mention it, and one whose name comes after all others.
STORMED = {"A": "TYPE A : STRUCT F : INT; END_STRUCT; END_TYPE"}
STORMED |= {f"A{at}": f"FUNCTION_BLOCK A{at} VAR V : A; END_VAR END_FUNCTION_BLOCK" for at in range(15)}
LATE = {"Z": "FUNCTION_BLOCK Z END_FUNCTION_BLOCK"}
# A text that nests nearly as deep as one may: who reads or checks it uses more of the stack than for any other text of the soak.
DEEP_PARTS = "IF V THEN " * 58, "END_IF; " * 58
DEEP_ALGORITHM = f"ALGORITHM X IN ST: {DEEP_PARTS[0]} V := NOT (V); {DEEP_PARTS[1]} END_ALGORITHM"
DEEP = {"DEEP": f"FUNCTION_BLOCK DEEP VAR V : BOOL; END_VAR {DEEP_ALGORITHM} END_FUNCTION_BLOCK"}
# The option of Linux with which a socket ends without a word to its peer.
TCP_REPAIR = 19
TAKE = b'{"op":"take"}\n'
ASK = b'{"op":"ask","kind":"faults","unit":"U0"}\n'
LIST = b'{"op":"units"}\n'


def is_proved(peer):
    """Proves over a new connection that its peer has the secret, and checks that the host proves it too. False if the connection was closed: it gave way to later ones."""
    try:
        challenge = peer.recv(CHALLENGE_LINE, socket.MSG_WAITALL)
        if not challenge:
            return False
        exchange = exchange_for(SECRET, challenge)
        peer.sendall(exchange.answer)
        proof = peer.recv(PROOF_LINE, socket.MSG_WAITALL)
    except ConnectionError:
        return False
    if proof and not exchange.is_proof(proof):
        wrong("the host has not proved that it has the secret")
    return bool(proof)


def has_seat(peer, lines):
    """Whether a new connection, whose replies are read from `lines`, has proved that it has the secret, and got a seat."""
    if not is_proved(peer):
        return False
    peer.sendall(ASK)
    return json.loads(lines.readline()) != {"refused": "NoSeat"}


def goes(port, *pieces, proves=True, reads=True):
    """A peer that sends this and goes; what it was answered, if it reads it."""
    with connected(port) as peer:
        if proves and not is_proved(peer):
            return b""
        for it in pieces:
            peer.sendall(it)
        if not reads:
            return b""
        peer.shutdown(socket.SHUT_WR)
        return b"".join(iter(lambda: peer.recv(4096), b""))


def resets(port):
    """A peer that asks, and goes without its replies: the host prints a line for each."""
    with connected(port) as peer:
        if is_proved(peer):
            peer.setsockopt(socket.SOL_SOCKET, socket.SO_LINGER, (1).to_bytes(4, sys.byteorder) + bytes(4))
            peer.sendall(ASK * 100)


def passes_by(port, chance, is_rough):
    """A bad peer that comes and goes."""
    sort = chance.randrange(7 if is_rough else 5)
    try:
        if sort < 2 and len(goes(port, TAKE if sort else b"POST / HTTP/1.1\r\nHost: x\r\n\r\n" + TAKE, proves=False)) > CHALLENGE_LINE:
            wrong("a peer without the secret was answered")
        elif sort == 2:
            goes(port, b'{"op":"commit","changes":[{"put":"U0",', reads=False)
        elif sort == 3:
            goes(port, TAKE * 5)
        elif sort == 4:
            resets(port)
        elif sort == 5:
            goes(port, LONG_LINE)
        elif sort == 6:
            goes(port, ASK * 2000, reads=False)
    except OSError:
        pass


def unread(peer):
    """What has come over a connection and was not taken: None if nothing has, no bytes if the host has ended it."""
    peer.setblocking(False)
    try:
        return peer.recv(2 * CHALLENGE_LINE, socket.MSG_PEEK)
    except BlockingIOError:
        return None
    except ConnectionError:
        return b""


def leave_silently(peer):
    """Closes the connection of a peer that has said nothing, and so has got a challenge at most."""
    with peer:
        if len(unread(peer) or b"") > CHALLENGE_LINE:
            wrong("a silent peer was answered")


def fill(peer, is_over):
    """Asks for what has a long reply and takes none, until the host takes nothing for a second."""
    peer.settimeout(1)
    with contextlib.suppress(TimeoutError):
        while not is_over.is_set():
            peer.sendall(LIST * 100)


class Guest:
    """A session that sends one request after another."""

    def __init__(self, peer, commits):
        self.peer, self.lines, self.commits = peer, peer.makefile("rb"), commits
        self.has_seat = has_seat(peer, self.lines)

    def ask(self, request):
        self.peer.sendall(json.dumps(request).encode() + b"\n")
        return json.loads(self.lines.readline())

    def put(self, texts, revisions):
        """Commits texts, which nobody else changes, over these revisions."""
        changes = [{"put": unit, "base": revisions.get(unit, 0), "text": text} for unit, text in texts.items()]
        reply = self.ask({"op": "commit", "changes": changes})
        if "commit" not in reply:
            wrong(f"a commit was answered {reply}")
        self.commits.append((reply["commit"], changes))
        revisions.update(dict.fromkeys(texts, reply["commit"]))

    def leave(self):
        """Ends the session. Its seat is free then."""
        self.peer.shutdown(socket.SHUT_WR)
        self.lines.read()


def use_all_seats(port, seats, commits):
    """As many sessions as there are seats, at once: each commits a text that nests deep. What a thread has once used of its stack stays in its memory."""
    revisions = {}
    with contextlib.ExitStack() as all_peers:
        guests = [Guest(all_peers.enter_context(connected(port)), commits) for _ in range(seats)]
        for guest in guests:
            if not guest.has_seat:
                wrong("not all seats are free at the beginning")
            all_peers.callback(guest.leave)
            guest.put(DEEP, revisions)
            guest.ask({"op": "work", "turns": 10})


class Stayers:
    """Bad peers that stay: each visit is that of one of them, and is made again and again until the run is over. What they commit is kept, as pairs of a number and changes."""

    def __init__(self, port, is_over):
        self.port, self.is_over, self.commits, self.revisions = port, is_over, [], {}
        self.visits = (self.says_nothing, self.keeps_keys, self.takes_no_reply, self.takes_bytes, self.is_gone, self.commits_without_end)

    def says_nothing(self, first):
        """Says nothing, and neither do many more beside it, of which one goes and one comes all the time."""
        peers = deque([first, *[connected(self.port) for _ in range(SILENT - 1)]])
        for _ in range(SILENCE * NEWCOMERS):
            self.is_over.wait(1 / NEWCOMERS)
            peers.append(connected(self.port))
            leave_silently(peers.popleft())
        for peer in peers:
            leave_silently(peer)

    def keeps_keys(self, peer):
        """Takes keys, stays, and delivers what it kept."""
        guest = Guest(peer, self.commits)
        if not guest.has_seat:
            return
        jobs = [guest.ask({"op": "take"})["job"] for _ in range(KEPT)]
        for _ in range(TOO_LONG):
            if self.is_over.wait(1):
                break
            peer.sendall(ASK)
            guest.lines.readline()
        for job in filter(None, jobs):
            reply = guest.ask({"op": "deliver", "job": job})
            if "delivered" not in reply and reply.get("refused") not in {"NotPending", "Stale"}:
                wrong(f"a late result was answered {reply}")
        guest.leave()

    def takes_no_reply(self, peer):
        """Takes no reply, and stays for some time after the host has ended it."""
        with contextlib.suppress(ConnectionError):
            if is_proved(peer):
                fill(peer, self.is_over)
                self.is_over.wait(TOO_LONG)

    def takes_bytes(self, peer):
        """Takes a byte of the replies each second and asks for more, until the host ends it."""
        with contextlib.suppress(ConnectionError):
            if not is_proved(peer):
                return
            for _ in range(MOST_REPLY + TOO_LONG):
                fill(peer, self.is_over)
                if self.is_over.is_set():
                    return
                with contextlib.suppress(TimeoutError):
                    peer.recv(1)
            wrong("a peer that takes a byte each second has kept its seat")

    def is_gone(self, peer):
        """Takes a seat and is silent, until the host ends it; another one is gone without a word, if the rights allow that."""
        if not is_proved(peer):
            return
        with connected(self.port) as other, contextlib.suppress(PermissionError):
            # (a second later, when it has acknowledged what it has got: else that comes again, and is answered by a reset)
            if is_proved(other) and not self.is_over.wait(1):
                other.setsockopt(socket.IPPROTO_TCP, TCP_REPAIR, 1)
        for _ in range(2 * TOO_LONG):
            if self.is_over.wait(1) or unread(peer) is not None:
                return
        wrong("a silent peer has kept its seat")

    def commits_without_end(self, peer):
        """Commits a structure that many units mention, until another's unit with a later name has its faults."""
        with connected(self.port) as other:
            guest, late = Guest(peer, self.commits), Guest(other, self.commits)
            if not (guest.has_seat and late.has_seat):
                return
            guest.put(STORMED, self.revisions)
            late.put(LATE, self.revisions)
            begun, pending = time.monotonic(), True
            while pending or time.monotonic() < begun + STORM:
                guest.put({"A": STORMED["A"]}, self.revisions)
                pending = late.ask({"op": "ask", "kind": "faults", "unit": "Z"}) == {"answer": "pending"}
                if time.monotonic() > begun + TOO_LONG:
                    wrong("a unit has no faults while another one commits without end")
        self.is_over.wait(PAUSE)


def main(port, visit):
    chance, stayers = random.Random(visit), Stayers(port, threading.Event())
    while visit == "comes_and_goes":
        passes_by(port, chance, True)
    while True:
        with connected(port) as peer:
            getattr(stayers, visit)(peer)


if __name__ == "__main__":
    main(int(sys.argv[1]), sys.argv[2])
