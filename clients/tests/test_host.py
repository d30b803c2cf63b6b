"""A host by its lines alone: first lines of any form, workers after the last connection, and what it prints of a session."""
from __future__ import annotations

import hmac
import json
import os
import socket
import struct
import subprocess
import time
import unittest
from pathlib import Path

from support import InFolder, free_port, workbench

TAKE = b'{"op":"take"}\n'
NO_JOB = b'{"job":0}\n'
BLOCK = "FUNCTION_BLOCK {name} END_FUNCTION_BLOCK"
# A host waits for the end of a first line of up to this number of bytes.
LONGEST_HEAD = 8_192
SECONDS = 60.0


class OneConnection(unittest.TestCase):
    """Each test starts a host that closes after one session."""

    more: tuple[str, ...] = ()

    def setUp(self) -> None:
        words = [workbench(), "host", "--port", "0", "--open", "--connections", "1", "--sessions", "1", *self.more]
        self.host = subprocess.Popen(words, stdin=subprocess.DEVNULL, stdout=subprocess.PIPE, stderr=subprocess.PIPE)
        self.addCleanup(self.host.communicate)
        self.addCleanup(self.host.kill)
        assert self.host.stdout is not None
        port = int(self.host.stdout.readline().rpartition(b":")[2])
        self.peer = socket.create_connection(("127.0.0.1", port), timeout=SECONDS)
        self.addCleanup(self.peer.close)
        self.lines = self.peer.makefile("rb")
        self.addCleanup(self.lines.close)

    def closed(self) -> tuple[int, bytes, bytes]:
        """The status of the host, and what it printed after its address."""
        out, errors = self.host.communicate(timeout=2 * SECONDS)
        return self.host.returncode, out, errors

    def asked(self, request: object) -> bytes:
        """The reply to a request, as a line."""
        self.peer.sendall(json.dumps(request).encode() + b"\n")
        return self.lines.readline()


class HostTest(OneConnection):
    def test_a_first_line_without_an_end_is_answered_at_the_end_of_the_stream(self) -> None:
        self.peer.sendall(TAKE.rstrip())
        self.peer.shutdown(socket.SHUT_WR)
        self.assertEqual(NO_JOB, self.lines.read())
        self.assertEqual((0, b"closed\n", b""), self.closed())

    def test_a_long_first_line_is_answered(self) -> None:
        for piece in (b"{" + b" " * LONGEST_HEAD, b" " * 1_000, TAKE[1:]):
            self.peer.sendall(piece)
        self.assertEqual(NO_JOB, self.lines.readline())

    def test_a_first_line_in_many_pieces_is_answered(self) -> None:
        self.peer.setsockopt(socket.IPPROTO_TCP, socket.TCP_NODELAY, 1)
        for byte in TAKE:
            self.peer.sendall(bytes([byte]))
            time.sleep(0.01)
        self.assertEqual(NO_JOB, self.lines.readline())

    def test_only_blanks_are_no_first_line(self) -> None:
        self.peer.sendall(b" " * LONGEST_HEAD)
        self.assertEqual(b"", self.lines.read())
        with socket.create_connection(self.peer.getpeername(), timeout=SECONDS) as peer, peer.makefile("rb") as lines:
            peer.sendall(TAKE)
            self.assertEqual(NO_JOB, lines.readline())
        self.assertEqual((0, b"closed\n", b"bench61499: connections turned away: 1, for a wrong secret: 0\n"), self.closed())

    def test_workers_go_on_after_the_last_session_has_begun(self) -> None:
        changes = [{"put": f"U{number}", "base": 0, "text": BLOCK.format(name=f"U{number}")} for number in range(16)]
        self.assertEqual(b'{"commit":1}\n', self.asked({"op": "commit", "changes": changes}))
        end = time.monotonic() + SECONDS
        ask = {"op": "ask", "kind": "faults", "unit": "U15"}
        while (reply := self.asked(ask)) == b'{"answer":"pending"}\n' and time.monotonic() < end:
            time.sleep(0.01)
        self.assertEqual(b'{"faults":[]}\n', reply)

    def test_a_connection_that_breaks_is_no_silence(self) -> None:
        self.assertEqual(b'{"refused":"NoSuchKey"}\n', self.asked({"op": "ask", "kind": "net", "unit": "U"}))
        self.peer.setsockopt(socket.SOL_SOCKET, socket.SO_LINGER, struct.pack("ii", 1, 0))
        self.lines.close()
        self.peer.close()
        self.assertEqual((0, b"closed\n", b"session 1: read failed\n"), self.closed())


class LackTest(unittest.TestCase):
    def test_a_host_without_all_its_threads_says_so(self) -> None:
        words = ["prlimit", f"--as={150 << 20}", workbench(), "host", "--port", "0", "--open", "--sessions", "64"]
        ran = subprocess.run(words, stdin=subprocess.DEVNULL, capture_output=True, timeout=SECONDS, check=False)
        self.assertEqual((1, b"bench61499: the host lacks memory or threads\n"), (ran.returncode, ran.stderr))
        self.assertTrue(ran.stdout.startswith(b"listening on "))


class IdleTest(OneConnection):
    more = ("--idle", "1")

    def test_a_silent_session_ends_after_a_minute(self) -> None:
        begun = time.monotonic()
        self.peer.sendall(TAKE)
        self.assertEqual((0, b"closed\n", b"session 1: idle\n"), self.closed())
        passed = time.monotonic() - begun
        self.assertLess(59, passed)
        self.assertLess(passed, 90)


def proof(line: bytes, secret: bytes, client: str) -> bytes:
    """What a client with this secret and this challenge answers to the first line of a host."""
    code = hmac.digest(secret, f"client{json.loads(line)['challenge']}{client}".encode(), "sha256")
    return f'{{"proof":"{code.hex()}","challenge":"{client}"}}\n'.encode()


class ChainTest(OneConnection):
    """A chain of structures, each of which has a field of the one before."""

    LENGTH = 1_200
    # Each structure keeps what it has read of all before it: 16 bytes a name. With their trees these would be 64, and 46 MB in all.
    MOST = 32_000_000

    def test_a_chain_keeps_16_bytes_for_each_name_that_was_read(self) -> None:
        types = ("INT", *(f"T{number}" for number in range(self.LENGTH)))
        texts = [f"TYPE T{number} : STRUCT F : {of}; END_STRUCT END_TYPE" for number, of in enumerate(types[:-1])]
        changes = [{"put": f"T{number}", "base": 0, "text": text} for number, text in enumerate(texts)]
        for first in range(0, self.LENGTH, 16):
            self.assertIn(b'"commit"', self.asked({"op": "commit", "changes": changes[first : first + 16]}))
        ends = time.monotonic() + 2 * SECONDS
        while b'"pending":0' not in self.asked({"op": "status"}) and time.monotonic() < ends:
            time.sleep(0.1)
        self.assertEqual(b'{"faults":[]}\n', self.asked({"op": "ask", "kind": "faults", "unit": f"T{self.LENGTH - 1}"}))
        pages = int(Path(f"/proc/{self.host.pid}/statm").read_text(encoding="utf-8").split()[1])
        self.assertLess(pages * os.sysconf("SC_PAGE_SIZE"), self.MOST)


class SecretTest(InFolder):
    def start(self, *words: str, port: int = 0, connections: int = 1) -> tuple[subprocess.Popen[bytes], int]:
        command = [workbench(), "host", "--port", str(port), "--connections", str(connections), *words]
        host = subprocess.Popen(command, stdin=subprocess.DEVNULL, stdout=subprocess.PIPE, stderr=subprocess.PIPE)
        self.addCleanup(host.communicate)
        self.addCleanup(host.kill)
        assert host.stdout
        return host, int(host.stdout.readline().rpartition(b":")[2])

    def test_a_secret_whose_line_ends_in_cr_lf_has_the_cr(self) -> None:
        file = self.write("secret", b"a secret in a file\r\n")
        file.chmod(0o600)
        host, port = self.start("--secret", str(file))
        for secret, lets_in in ((b"a secret in a file", False), (b"a secret in a file\r", True)):
            with socket.create_connection(("127.0.0.1", port), timeout=SECONDS) as peer, peer.makefile("rb") as lines:
                peer.sendall(proof(lines.readline(), secret, "0" * 64))
                self.assertEqual(bool(lines.readline()), lets_in)
                if lets_in:
                    peer.sendall(TAKE)
                    self.assertEqual(NO_JOB, lines.readline())
        self.assertEqual((b"closed\n", 0), (host.communicate(timeout=2 * SECONDS)[0], host.returncode))

    def test_no_challenge_comes_twice(self) -> None:
        """Neither in one host, nor in two of one secret."""
        file = self.write("secret", b"a secret in a file")
        file.chmod(0o600)
        seen = set()
        for _ in range(2):
            _, port = self.start("--secret", str(file), connections=9)
            for _ in range(9):
                with socket.create_connection(("127.0.0.1", port), timeout=SECONDS) as peer, peer.makefile("rb") as lines:
                    seen.add(lines.readline())
        self.assertEqual(len(seen), 18)

    def test_a_proof_of_another_connection_proves_nothing(self) -> None:
        host, port = self.start(connections=2)
        assert host.stderr
        secret = Path(host.stderr.readline().decode().removeprefix("bench61499: the secret is in ").strip()).read_bytes().strip()
        with socket.create_connection(("127.0.0.1", port), timeout=SECONDS) as peer, peer.makefile("rb") as lines:
            answer = proof(lines.readline(), secret, "0" * 64)
            peer.sendall(answer)
            self.assertIn(b'"proof"', lines.readline())
        with socket.create_connection(("127.0.0.1", port), timeout=SECONDS) as peer, peer.makefile("rb") as lines:
            lines.readline()
            peer.sendall(answer)
            self.assertEqual(b"", lines.readline())

    def test_the_file_of_the_secret_goes_with_the_host(self) -> None:
        host, port = self.start()
        assert host.stderr
        file = Path(os.environ["XDG_RUNTIME_DIR"], "bench61499", f"{port}.secret")
        self.assertEqual(f"bench61499: the secret is in {file}\n".encode(), host.stderr.readline())
        self.assertEqual(file.stat().st_mode & 0o777, 0o600)
        with socket.create_connection(("127.0.0.1", port), timeout=SECONDS) as peer, peer.makefile("rb") as lines:
            peer.sendall(proof(lines.readline(), file.read_bytes().strip(), "0" * 64))
            self.assertIn(b'"proof"', lines.readline())
        self.assertEqual(0, host.wait(timeout=2 * SECONDS))
        self.assertFalse(file.exists())

    def test_what_an_earlier_host_has_left(self) -> None:
        """A file of another mode, and a link to one that is not to be written to, are replaced or removed."""
        port = free_port()
        file = Path(os.environ["XDG_RUNTIME_DIR"], "bench61499", f"{port}.secret")
        file.parent.mkdir(mode=0o700, exist_ok=True)
        other = self.write("other", b"not a secret")
        for words, is_there in (((), True), (("--open",), False)):
            file.unlink(missing_ok=True)
            file.symlink_to(other)
            host, _ = self.start(*words, port=port)
            self.assertEqual((file.is_symlink(), file.exists()), (False, is_there))
            host.kill()
            host.wait()
        self.assertEqual(other.read_bytes(), b"not a secret")


if __name__ == "__main__":
    unittest.main()
