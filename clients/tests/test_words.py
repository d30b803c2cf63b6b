"""The words of the program: its help, its version, a port that is taken, and files without a secret."""
from __future__ import annotations

import errno
import os
import re
import socket
import subprocess
import tempfile
import tomllib
import unittest
from pathlib import Path

from support import CLIENTS, workbench

KIT = re.compile(r"rattle-kit-\w+")


def ran(*words: str, surroundings: dict[str, str] | None = None) -> tuple[int, str, str]:
    """The status of the program, and what it printed."""
    done = subprocess.run([workbench(), *words], stdin=subprocess.DEVNULL, env=surroundings, capture_output=True, text=True, timeout=60)
    return done.returncode, done.stdout, done.stderr


def in_std(error: OSError) -> str:
    """What the program prints of the error."""
    return f"{error.strerror} (os error {error.errno})"


class WordsTest(unittest.TestCase):
    def test_each_option_has_a_sentence(self) -> None:
        for command, count in (("script", 2), ("serve", 5), ("host", 9)):
            status, out, errors = ran(command, "--help")
            self.assertEqual((status, out), (2, ""), errors)
            options = re.findall(r"^ +--(\w+) <\w+> +(\w[\w ,]+)", errors, re.MULTILINE)
            self.assertEqual(len(options), count, errors)

    def test_the_version_is_that_of_the_clients_and_names_the_kit(self) -> None:
        version = tomllib.loads((CLIENTS / "pyproject.toml").read_text())["project"]["version"]
        status, out, errors = ran("--version")
        self.assertEqual((status, out), (2, ""), errors)
        self.assertRegex(errors, rf"^bench61499 {re.escape(version)} \({KIT.pattern}\)\n$")

    def test_a_host_says_why_it_cannot_listen_and_serve_has_status_1_alone(self) -> None:
        reason = OSError(errno.EADDRINUSE, os.strerror(errno.EADDRINUSE))
        with socket.socket() as taken:
            taken.bind(("127.0.0.1", 0))
            taken.listen()
            port = taken.getsockname()[1]
            told = f"bench61499: cannot listen on 127.0.0.1:{port}: {in_std(reason)}\n"
            self.assertEqual(ran("host", "--port", str(port)), (1, "", told))
            self.assertEqual(ran("serve", "--port", str(port)), (1, "", ""))

    def test_a_secret_that_cannot_be_read_admits_nobody(self) -> None:
        with tempfile.TemporaryDirectory() as folder:
            for path in (Path(folder, "absent"), Path(folder)):
                with self.assertRaises(OSError) as failed:
                    path.read_bytes()
                self.assert_no_secret(path, f"cannot read {path}: {in_std(failed.exception)}")

    def test_a_file_without_a_secret_admits_nobody(self) -> None:
        with tempfile.TemporaryDirectory() as folder:
            path = Path(folder, "secret")
            for content, reason in ((b"", "is empty"), (b"\nsecret\n", "is empty"), (b"s" * 15, "has fewer than 16 bytes"), (b"s" * 4097, "has more than 4096 bytes")):
                path.write_bytes(content)
                path.chmod(0o600)
                self.assert_no_secret(path, f"no secret in {path}: its first line {reason}")

    def test_a_secret_that_others_can_read_admits_nobody(self) -> None:
        with tempfile.NamedTemporaryFile() as secret:
            secret.write(b"s" * 16)
            secret.flush()
            os.chmod(secret.name, 0o644)
            self.assert_no_secret(Path(secret.name), f"other users of this machine can read or write the secret in {secret.name}; chmod 600 keeps it from them")

    def test_a_secret_and_none(self) -> None:
        self.assertEqual(ran("host", "--port", "0", "--open", "--secret", "s"), (2, "", "bench61499: --open and --secret exclude each other\n"))

    def test_no_folder_for_a_secret(self) -> None:
        lack = "bench61499: no folder for a secret: neither XDG_RUNTIME_DIR nor HOME is set; name a file with --secret, or give --open\n"
        self.assertEqual(ran("host", "--port", "0", surroundings={}), (1, "", lack))
        with tempfile.NamedTemporaryFile() as file:
            status, out, errors = ran("host", "--port", "0", surroundings={"HOME": file.name})
        self.assertEqual((status, out), (1, ""))
        self.assertRegex(errors, f"^bench61499: cannot put a secret into {file.name}/.cache/bench61499/[0-9]+.secret: Not a directory ")

    def assert_no_secret(self, path: Path, message: str) -> None:
        told = (1, "", f"bench61499: {message}\n")
        self.assertEqual(ran("host", "--port", "0", "--connections", "1", "--secret", str(path)), told)


if __name__ == "__main__":
    unittest.main()
