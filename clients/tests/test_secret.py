"""The first contact with a host that has a secret: right hosts, programs in the place of one, and the files of secrets."""
from __future__ import annotations

import hmac
import os
import socket
import subprocess
import threading
from collections.abc import Callable, Iterator
from contextlib import contextmanager, suppress
from pathlib import Path
from shlex import quote
from unittest.mock import patch

from support import CONVEYOR, GREETING, InFolder, run, workbench

from bench61499 import NoAnswer, NoSecret, NotLetIn, NotYourHost, Session
from bench61499.secret import UnfitSecret, exchange_for, read_secret, secret_at, secret_file

SECRET = "correct horse battery staple"
CHALLENGE = "0123456789abcdef" * 4
CLIENT_PROOF = "35ba471e2e34158312badf60e827ffb2549df7070a02bb423e867e6a38ea4845"
HOST_PROOF = "caf44998fa45d977e42e6e412512fd4a75f6a2ffebd89a79c798f193a089145d"

Answer = Callable[[bytes], bytes]


def proof(role: str, client: str, secret: str = SECRET) -> str:
    return hmac.digest(secret.encode(), f"{role}{CHALLENGE}{client}".encode(), "sha256").hex()


def challenge_in(line: bytes) -> str:
    """The client's challenge."""
    return line[-67:-3].decode()


class Peer:
    """Listens at a port, sends `first` to who connects, answers its first line by `answer`, and greets it on each further line. `lines` has what came."""

    def __init__(self, first: bytes, answer: Answer) -> None:
        self.lines: list[bytes] = []
        self._first, self._answer = first, answer
        self._listener = socket.create_server(("127.0.0.1", 0))
        self.port = self._listener.getsockname()[1]
        self._thread = threading.Thread(target=self._serve)
        self._thread.start()

    def _serve(self) -> None:
        with suppress(OSError):
            while True:
                connection, _ = self._listener.accept()
                with connection, suppress(OSError):
                    self._talk(connection)

    def _talk(self, connection: socket.socket) -> None:
        answer = self._answer
        connection.sendall(self._first)
        with connection.makefile("rb") as lines:
            for line in lines:
                self.lines.append(line)
                said = answer(line)
                if not said:
                    return
                connection.sendall(said)
                answer = _greet

    def close(self) -> None:
        self._listener.shutdown(socket.SHUT_RDWR)
        self._listener.close()
        self._thread.join()


def _greet(_line: bytes) -> bytes:
    return GREETING


def prove(line: bytes) -> bytes:
    return f'{{"proof":"{proof("host", challenge_in(line))}"}}\n'.encode()


@contextmanager
def listening(answer: Answer = prove, first: bytes = f'{{"challenge":"{CHALLENGE}"}}\n'.encode()) -> Iterator[Peer]:
    peer = Peer(first, answer)
    try:
        yield peer
    finally:
        peer.close()


@contextmanager
def started(command: str, port: int) -> Iterator[int]:
    """A server at a port, any for 0, that is killed at the end."""
    with subprocess.Popen([workbench(), command, "--port", str(port), "--sessions", "4"], stdout=subprocess.PIPE, stderr=subprocess.DEVNULL, text=True) as server:
        try:
            yield int(server.stdout.readline().rpartition(":")[2])
        finally:
            server.kill()


class FirstContactTest(InFolder):
    def test_both_prove_it_and_it_is_not_sent(self) -> None:
        with listening() as peer, Session.connect("127.0.0.1", peer.port, secret=SECRET):
            first, greeting = peer.lines
        client = challenge_in(first)
        self.assertEqual(first.decode(), f'{{"proof":"{proof("client", client)}","challenge":"{client}"}}\n')
        self.assertIn(b'"deliver"', greeting)
        self.assertNotIn(SECRET.encode(), first + greeting)

    def test_each_connection_has_another_challenge(self) -> None:
        with listening() as peer:
            for _ in range(2):
                Session.connect("127.0.0.1", peer.port, secret=SECRET).close()
            first, _, second, _ = peer.lines
        self.assertNotEqual(challenge_in(first), challenge_in(second))

    def test_the_lines_are_those_of_other_programs(self) -> None:
        """As `openssl dgst -sha256 -hmac` computes them."""
        with patch("bench61499.secret.token_hex", return_value="fedcba9876543210" * 4):
            exchange = exchange_for("0123456789abcdef", f'{{"challenge":"{CHALLENGE}"}}\n'.encode())
        assert exchange
        self.assertEqual(exchange.answer.decode(), f'{{"proof":"{CLIENT_PROOF}","challenge":"{"fedcba9876543210" * 4}"}}\n')
        self.assertEqual(exchange.wanted.decode(), f'{{"proof":"{HOST_PROOF}"}}\n')

    def assert_stranger(self, peer: Peer, seconds: float = 60) -> str:
        with self.assertRaises(NotYourHost) as failed:
            Session.connect("127.0.0.1", peer.port, secret=SECRET, timeout=seconds)
        self.assertLessEqual(len(peer.lines), 1)
        self.assertNotIn(b'"op"', b"".join(peer.lines))
        return str(failed.exception)

    def test_another_secret(self) -> None:
        with listening(lambda line: f'{{"proof":"{proof("host", challenge_in(line), "another secret")}"}}\n'.encode()) as peer:
            self.assertEqual(self.assert_stranger(peer), f"the program at 127.0.0.1:{peer.port} does not have the secret: it is not your host")

    def test_the_clients_own_proof_sent_back(self) -> None:
        with listening(lambda line: line[:75] + b'"}\n') as peer:
            self.assertIn("does not have the secret", self.assert_stranger(peer))
        with listening(lambda line: line) as peer:
            self.assertIn("does not have the secret", self.assert_stranger(peer))

    def test_what_a_host_has_sent_before(self) -> None:
        sent: list[bytes] = []

        def prove_again(line: bytes) -> bytes:
            sent.append(prove(line))
            return sent[0]

        with listening(prove_again) as peer:
            Session.connect("127.0.0.1", peer.port, secret=SECRET).close()
            peer.lines.clear()
            self.assertIn("does not have the secret", self.assert_stranger(peer))

    def test_who_says_nothing_or_something_else(self) -> None:
        """As a `serve`, a host without a secret and an older host do."""
        for first in (b"", b'{"refused":"NoSeat"}\n', b'{"challenge":"12"}\n', b"SSH-2.0\r\n", b'{"challenge":["' + b"a" * 64 + b'"]}\n'):
            with listening(first=first) as peer:
                told = self.assert_stranger(peer, 0.2)
                words = f"{'' if first else 'it is busy, '}it is not your host, or it was started without a secret"
                self.assertEqual(told, f"the program at 127.0.0.1:{peer.port} sends no challenge: {words}")

    def test_who_hangs_up(self) -> None:
        """As a tunnel does whose host does not run."""
        with socket.create_server(("127.0.0.1", 0)) as listener:
            thread = threading.Thread(target=lambda: listener.accept()[0].close())
            thread.start()
            with self.assertRaisesRegex(NotYourHost, " closes the connection without a challenge: it is a tunnel to a host that does not run, it is not your host, or "):
                Session.connect("127.0.0.1", listener.getsockname()[1], secret=SECRET)
            thread.join()

    def test_who_is_silent_after_the_challenge(self) -> None:
        waiting = threading.Event()
        with listening(lambda _: b"" if waiting.wait(20) else b"") as peer:
            self.assertRaises(NoAnswer, Session.connect, "127.0.0.1", peer.port, secret=SECRET, timeout=0.2)
            waiting.set()

    def test_a_host_that_does_not_take_the_proof(self) -> None:
        with listening(lambda _: b"") as peer, self.assertRaisesRegex(NotLetIn, ": the secret may be wrong$"):
            Session.connect("127.0.0.1", peer.port, secret=SECRET)

    def test_a_host_whose_secret_is_not_here(self) -> None:
        with patch.dict(os.environ, XDG_RUNTIME_DIR=str(self.folder)), listening() as peer:
            lack = f"^the host lets in only who has its secret, and there is none in {secret_file(peer.port)}: name its file with --secret$"
            with self.assertRaisesRegex(NoSecret, lack):
                Session.connect("localhost", peer.port)
            ran = run("log", "--connect", f":{peer.port}", XDG_RUNTIME_DIR=str(self.folder))
            self.assertIn("the host lets in only who has its secret", ran.stderr)


class FileTest(InFolder):
    def setUp(self) -> None:
        super().setUp()
        self.enterContext(patch.dict(os.environ, XDG_RUNTIME_DIR=str(self.folder)))

    def put(self, port: int, secret: str = SECRET, mode: int = 0o600) -> Path:
        file = self.write(f"bench61499/{port}.secret", f"{secret}\n")
        file.chmod(mode)
        return file

    def test_the_secret_of_a_port_is_found(self) -> None:
        with listening() as peer:
            self.put(peer.port)
            for host in ("127.0.0.1", "localhost", ""):
                Session.connect(host, peer.port).close()
            self.assertEqual(len(peer.lines), 6)

    def test_a_host_that_has_left_its_secret_is_not_taken_for_another(self) -> None:
        with listening(first=b"") as peer:
            file = self.put(peer.port)
            with self.assertRaises(NotYourHost) as failed:
                Session.connect("127.0.0.1", peer.port, timeout=0.2)
            self.assertTrue(str(failed.exception).endswith(f", or it was started without a secret{self.left(file)}"), failed.exception)
            self.assertEqual(peer.lines, [])

    def left(self, file: Path) -> str:
        return f"; {file} is from a host that was at this port: if that was killed and the server there now is yours, `rm {quote(str(file))}`"

    def test_a_host_that_has_left_its_secret_behind_another_one(self) -> None:
        """As if its port leads to another machine now."""
        for answer, kind, words in ((lambda _: b"", NotLetIn, "the secret may be wrong"), (lambda _: b'{"proof":""}\n', NotYourHost, "it is not your host")):
            with listening(answer) as peer, self.assertRaises(kind) as failed:
                file = self.put(peer.port)
                Session.connect("127.0.0.1", peer.port)
            self.assertTrue(str(failed.exception).endswith(words + self.left(file)), failed.exception)

    def test_a_server_at_the_port_of_a_host_that_was_killed(self) -> None:
        """Its user learns what to do. A program of somebody else at the port gets no request."""
        with started("host", 0) as port:
            file = self.folder / "bench61499" / f"{port}.secret"
        self.assertTrue(file.exists())
        with started("serve", port):
            ran = run("check", "--connect", f":{port}", CONVEYOR, "--replace", "--quiet")
            self.assertEqual((ran.returncode, ran.stdout), (2, ""))
            self.assertTrue(ran.stderr.startswith(f"check: the program at 127.0.0.1:{port} sends no challenge: "), ran.stderr)
            self.assertTrue(file.exists())
            subprocess.run(["sh", "-c", ran.stderr.split("`")[1]], check=True)
            ran = run("check", "--connect", f":{port}", CONVEYOR, "--replace", "--quiet")
            self.assertEqual((ran.returncode, ran.stdout, ran.stderr), (0, "", ""))

    def test_no_secret_is_wanted(self) -> None:
        with listening(first=b"", answer=_greet) as peer:
            self.put(peer.port)
            Session.connect("127.0.0.1", peer.port, secret="").close()

    def test_where_the_file_is(self) -> None:
        self.assertEqual(secret_file(6149), self.folder / "bench61499" / "6149.secret")
        with patch.dict(os.environ, XDG_RUNTIME_DIR="", HOME="/home/me"):
            self.assertEqual(secret_file(6149), Path("/home/me/.cache/bench61499/6149.secret"))
        with patch.dict(os.environ, clear=True):
            self.assertIsNone(secret_file(6149))
            self.assertIsNone(secret_at(6149))

    def test_a_file_that_others_can_read_or_have_made(self) -> None:
        for mode in (0o644, 0o604, 0o602):
            file = self.put(6149, mode=mode)
            self.assertRaisesRegex(UnfitSecret, f"^other users of this machine can read or write the secret in {file}; chmod 600 keeps it from them$", secret_at, 6149)
        self.put(6149, mode=0o640)
        self.assertEqual(secret_at(6149), SECRET)
        self.assertRaisesRegex(UnfitSecret, "belongs to another user$", read_secret, file, os.geteuid() + 1)

    def test_a_folder_of_which_others_could_have_taken_it_away(self) -> None:
        """Then a program of theirs at the port would be taken for a host without a secret."""
        folder = self.put(6149).parent
        for number in (6149, 6150):
            with patch("os.geteuid", return_value=os.geteuid() + 1):
                self.assertRaisesRegex(UnfitSecret, f"^the folder of secrets {folder} belongs to another user, or others can write it$", secret_at, number)
            folder.chmod(0o777)
            self.assertRaisesRegex(UnfitSecret, "or others can write it$", secret_at, number)
            folder.chmod(0o770)
        self.assertEqual((secret_at(6149), secret_at(6150)), (SECRET, None))

    def test_what_is_no_file_is_not_waited_for(self) -> None:
        os.mkfifo(self.put(6149).with_name("1.secret"), 0o600)
        self.assertRaisesRegex(UnfitSecret, "is in no file, but in a pipe or a device$", secret_at, 1)

    def test_first_lines_that_are_no_secret(self) -> None:
        for content, wrong in (("", "is empty"), ("\nmore", "is empty"), ("s" * 15, "has fewer than 16 bytes"), ("s" * 4_097, "has more than 4096 bytes")):
            self.assertRaisesRegex(UnfitSecret, f"^no secret in .*: its first line {wrong}$", read_secret, self.put(1, content))
        for content in ("s" * 16, "s" * 4_096):
            self.assertEqual(read_secret(self.put(1, content)), content)
        self.assertRaisesRegex(UnfitSecret, "^the secret can't be read from .*: No such file or directory$", read_secret, self.folder / "none")
        self.assertRaisesRegex(UnfitSecret, "it is not UTF-8$", read_secret, self.write("bytes", b"\xff" * 20))
        self.assertRaisesRegex(UnfitSecret, "has more than 4096 bytes$", read_secret, "/dev/zero")
