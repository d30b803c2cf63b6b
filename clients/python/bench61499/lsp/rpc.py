"""JSON-RPC messages with headers, as language servers and editors send them over pipes."""
from __future__ import annotations

import json
from typing import IO, Any

from bench61499.language.written import written

Message = dict[str, Any]

PARSE_ERROR = -32700
INVALID_REQUEST = -32600
METHOD_NOT_FOUND = -32601
INVALID_PARAMS = -32602
NOT_INITIALIZED = -32002
REQUEST_FAILED = -32803
REQUEST_CANCELLED = -32800

MOST = 64 * 1024 * 1024
"""Bytes of a message; after a longer one nothing is read."""
_LONGEST_HEADER, _DIGITS = 4_096, 20

ERROR, WARNING, INFO = 1, 2, 3
"""How bad it is what is told or shown."""


class BadMessage(Exception):
    """A message that is no JSON object."""


def read_content(stream: IO[bytes]) -> bytes | None:
    """The bytes of the next message; None at the end of the stream, or where what comes has no length and nothing more can be read."""
    length = None
    while (header := stream.readline(_LONGEST_HEADER).strip()) or length is None:
        name, colon, value = header.partition(b":")
        if not colon:
            return None
        if name.strip().lower() == b"content-length" and value.strip().isdigit():
            length = int(value.strip()[:_DIGITS])
            if length > MOST:
                return None
    content = stream.read(length)
    return content if len(content) == length else None


def read_message(stream: IO[bytes]) -> Message | None:
    """The next message; None where there is none any more. Raises `BadMessage`, after which the next message can be read."""
    content = read_content(stream)
    if content is None:
        return None
    try:
        message = json.loads(content)
    except (ValueError, RecursionError) as error:
        raise BadMessage(str(error)) from error
    if not isinstance(message, dict):
        raise BadMessage("a message has to be an object")
    return message


def write_message(stream: IO[bytes], message: Message) -> None:
    words = ",".join(f"{written(name)}:{written(value)}" for name, value in {"jsonrpc": "2.0", **message}.items())
    content = f"{{{words}}}".encode(errors="replace")
    stream.write(b"Content-Length: %d\r\n\r\n%b" % (len(content), content))
    stream.flush()


def tell(severity: int, words: str) -> Message:
    """The message that an editor shows to its user."""
    return {"method": "window/showMessage", "params": {"type": severity, "message": f"bench61499: {words}"}}


def log(words: str) -> Message:
    """The message that an editor adds to its log."""
    return {"method": "window/logMessage", "params": {"type": INFO, "message": f"bench61499: {words}"}}


def failure(code: int, message: str) -> Message:
    """The part of an answer that tells why there is none."""
    return {"error": {"code": code, "message": message}}
