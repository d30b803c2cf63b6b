"""The secret of a host: the file that it is in, and how a client and a host prove to each other that both have it, without sending it.

A host that has a secret sends a challenge as soon as somebody connects. The client answers with a challenge of its own and its proof, and the host with its proof: an
HMAC-SHA256 of both challenges, under the secret. docs/WORKBENCH.md has the lines."""
from __future__ import annotations

import hmac
import os
import re
import stat
from pathlib import Path
from secrets import token_hex
from typing import NamedTuple

LEAST_SECRET = 16
"""Bytes of a secret, at least: who listens to a proof can try secrets against it for as long as they like."""
LONGEST_SECRET = 4_096
"""Bytes of a secret, at most."""

_CHALLENGE = re.compile(rb'\{"challenge":"([0-9a-f]{64})"\}\n')


class UnfitSecret(Exception):
    """A file whose first line is no secret, or that others can read. Its text can be shown to a user as it is."""


class Exchange(NamedTuple):
    """What a client answers to the challenge of a host, and what a host with its secret answers to that."""

    answer: bytes
    wanted: bytes

    def is_proof(self, line: bytes) -> bool:
        """Whether the line proves that the host has the secret."""
        return hmac.compare_digest(line, self.wanted)


def exchange_for(secret: str, line: bytes) -> Exchange | None:
    """The exchange that follows a host's first line; None if that is no challenge."""
    found = _CHALLENGE.fullmatch(line)
    if not found:
        return None
    host, client = found[1].decode(), token_hex(32)
    answer = f'{{"proof":"{_proof(secret, "client", host, client)}","challenge":"{client}"}}\n'
    return Exchange(answer.encode(), f'{{"proof":"{_proof(secret, "host", host, client)}"}}\n'.encode())


def _proof(secret: str, role: str, host: str, client: str) -> str:
    return hmac.new(secret.encode(), f"{role}{host}{client}".encode(), "sha256").hexdigest()


def secret_file(port: int) -> Path | None:
    """Where a host of this user puts the secret that it makes for a port; None if the user has no folder for it.

    It is PORT.secret in the folder `bench61499` of XDG_RUNTIME_DIR, or of `.cache` in HOME if the former is not set.
    """
    runtime, home = os.environ.get("XDG_RUNTIME_DIR"), os.environ.get("HOME")
    if not (runtime or home):
        return None
    folder = Path(runtime) if runtime else Path(home or "", ".cache")
    return folder / "bench61499" / f"{port}.secret"


def secret_at(port: int) -> str | None:
    """The secret that a host of this user has made for a port of this machine; None if there is none. Raises `UnfitSecret`, also if others could have taken it away."""
    file = secret_file(port)
    if not file or not file.parent.is_dir():
        return None
    folder = file.parent.stat()
    if folder.st_uid != os.geteuid() or folder.st_mode & stat.S_IWOTH:
        raise UnfitSecret(f"the folder of secrets {file.parent} belongs to another user, or others can write it")
    return read_secret(file, os.geteuid()) if os.path.lexists(file) else None


def read_secret(file: str | os.PathLike[str], owner: int | None = None) -> str:
    """The first line of a file, which may have to belong to a user. Raises `UnfitSecret` if it is no secret, or if others than the owner and the group of the file can read or write it."""
    waits = os.O_NONBLOCK if owner is not None else 0  # A file that was named may be a pipe.
    try:
        with open(os.open(file, os.O_RDONLY | os.O_CLOEXEC | waits), encoding="utf-8", newline="") as lines:
            status = os.fstat(lines.fileno())
            secret = lines.readline(LONGEST_SECRET + 1).removesuffix("\n")
    except (OSError, UnicodeDecodeError) as error:
        raise UnfitSecret(f"the secret can't be read from {file}: {getattr(error, 'strerror', None) or 'it is not UTF-8'}") from error
    if owner is not None and status.st_uid != owner:
        raise UnfitSecret(f"the secret in {file} belongs to another user")
    if owner is not None and not stat.S_ISREG(status.st_mode):
        raise UnfitSecret(f"the secret in {file} is in no file, but in a pipe or a device")
    if stat.S_ISREG(status.st_mode) and status.st_mode & stat.S_IRWXO:
        raise UnfitSecret(f"other users of this machine can read or write the secret in {file}; chmod 600 keeps it from them")
    if wrong := _wrong_with(secret):
        raise UnfitSecret(f"no secret in {file}: its first line {wrong}")
    return secret


def _wrong_with(secret: str) -> str:
    size = len(secret.encode())
    if not size:
        return "is empty"
    if size < LEAST_SECRET:
        return f"has fewer than {LEAST_SECRET} bytes"
    return f"has more than {LONGEST_SECRET} bytes" if size > LONGEST_SECRET else ""
