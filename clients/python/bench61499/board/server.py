"""The board over HTTP, for browsers on this machine: one page, what it shows as JSON, and events as things change.

Who opens the page shows the token that stands in the board's address, and gets it as a cookie, which every other request needs: other users of this
machine can't read the board. It answers requests that name this machine as their host and come from the page itself, or from nobody's page, and
refuses all others: a page of another site can't read the board, not even where a name of that site leads to this machine.
"""
from __future__ import annotations

import hmac
import io
import json
import re
import secrets
import socket
import threading
import time
from http import HTTPStatus
from http.client import HTTPException
from http.server import BaseHTTPRequestHandler, ThreadingHTTPServer
from math import inf, nan
from pathlib import Path
from typing import Any
from urllib.parse import parse_qsl, urlsplit

from bench61499 import NAME_LIMIT
from bench61499.board.state import Board, News
from bench61499.board.systems import Systems
from bench61499.board.traced import trace_view
from bench61499.board.views import instance_view, net_view, plan_view, unit_view
from bench61499.language.levels import AUTO

HERE = Path(__file__).parent
BODY_LIMIT = 1_024
PATH_LIMIT = 32_768
HEAD_LIMIT = 131_072
"""Bytes of the head of a request, which anybody may send."""
NO_NAME = f"a name is a letter or _, then letters, digits and _, at most {NAME_LIMIT} of them"
GATHER = 0.03
"""Seconds in which news are gathered into one event."""
SIGN_OF_LIFE = 5.0
"""Seconds without news after which a browser is told that there are none."""
CHANGES_TOLD = 300
"""Changes that are told at once, at most: the last ones."""
CONNECTIONS = 64
"""Connections at once."""
ACCEPT_PAUSE = 0.1
"""Seconds before the next try where the system gives no connection."""
NO_TOKEN = "open the board by the address that it has printed: its token lets you in"


class BadRequest(Exception):
    """What is asked for makes no sense; the text tells why."""


class BoardServer(ThreadingHTTPServer):
    """Serves a board on 127.0.0.1; port 0 is any free one."""

    daemon_threads = True

    def __init__(self, board: Board, port: int):
        super().__init__(("127.0.0.1", port), _Handler)
        self.board = board
        self.run = secrets.token_hex(16)
        self._token = secrets.token_hex(16)
        self._cookie = f"bench61499_{self.server_port}"
        self.hosts = frozenset(f"{name}:{self.server_port}".removesuffix(":80") for name in ("127.0.0.1", "localhost"))
        self.page = read_page()
        self.connections = Connections(CONNECTIONS)
        self.systems = Systems()

    @property
    def address(self) -> str:
        return f"http://127.0.0.1:{self.server_port}/?token={self._token}"

    @property
    def cookie(self) -> str:
        """What a browser that has shown the token is told to keep. Its name has the port, as browsers send cookies to all ports of a host."""
        return f"{self._cookie}={self._token}; HttpOnly; SameSite=Strict; Path=/"

    def is_token(self, words: str) -> bool:
        return hmac.compare_digest(words.encode(errors="replace"), self._token.encode())

    def has_cookie(self, headers: list[str]) -> bool:
        """Whether headers `Cookie` have the token. Other servers of this machine may have set cookies of any form."""
        pairs = (pair.strip().partition("=") for header in headers for pair in header.split(";"))
        return any(name == self._cookie and self.is_token(value) for name, _, value in pairs)

    # Connections

    def get_request(self) -> tuple[socket.socket, Any]:
        try:
            return super().get_request()
        except OSError:
            time.sleep(ACCEPT_PAUSE)  # No descriptor is free: the server asks again and again.
            raise

    def process_request(self, request: Any, client_address: Any) -> None:
        if self.connections.enter(request):
            super().process_request(request, client_address)
        else:
            request.sendall(b"HTTP/1.1 503 Service Unavailable\r\nContent-Length: 0\r\nConnection: close\r\n\r\n")
            self.shutdown_request(request)

    def shutdown_request(self, request: Any) -> None:
        self.connections.leave(request)
        super().shutdown_request(request)

    def handle_error(self, request: Any, client_address: Any) -> None:
        """A browser that goes away is no error."""


class Connections:
    """The connections that are open, at most so many. Where there is no room, the oldest one that has not shown the token is closed for a new one."""

    def __init__(self, most: int):
        self._most = most
        self._lock = threading.Lock()
        self._waiting: dict[socket.socket, None] = {}
        self._let_in: set[socket.socket] = set()

    def enter(self, connection: socket.socket) -> bool:
        """Tells whether there is room for a connection."""
        with self._lock:
            is_full = len(self._waiting) + len(self._let_in) >= self._most
            if is_full and not self._waiting:
                return False
            if is_full:
                oldest = next(iter(self._waiting))
                del self._waiting[oldest]
                hang_up(oldest)
            self._waiting[connection] = None
            return True

    def let_in(self, connection: socket.socket) -> None:
        """Keeps a connection that has shown the token for as long as it stays."""
        with self._lock:
            if connection in self._waiting:
                del self._waiting[connection]
                self._let_in.add(connection)

    def leave(self, connection: socket.socket) -> None:
        with self._lock:
            self._waiting.pop(connection, None)
            self._let_in.discard(connection)


def hang_up(connection: socket.socket) -> None:
    """Ends a connection, and wakes the thread that reads from it."""
    try:
        connection.shutdown(socket.SHUT_RDWR)
    except OSError:
        pass  # The other side has hung up.


def read_page() -> str:
    """The page as it is served: `board.html` with its style and its script."""
    page = (HERE / "board.html").read_text(encoding="utf-8")
    parts = {f"{{{{{ending}}}}}": (HERE / f"board.{ending}").read_text(encoding="utf-8") for ending in ("css", "js")}
    return re.sub("|".join(parts), lambda found: parts[found[0]], page)


class Heads(io.BufferedReader):
    """What a connection sends, of which a head may have `left` bytes more."""

    left = 0

    def readline(self, most: int | None = -1) -> bytes:
        line = super().readline(most)
        self.left -= len(line)
        if self.left < 0:
            raise HTTPException("the head is too long")
        return line


class _Handler(BaseHTTPRequestHandler):
    server: BoardServer
    rfile: Heads
    protocol_version = "HTTP/1.1"
    server_version, sys_version = "bench61499", ""
    timeout = 60

    def setup(self) -> None:
        super().setup()
        self.rfile.close()
        self.rfile = Heads(self.connection.makefile("rb", 0))

    def handle_one_request(self) -> None:
        self.rfile.left = HEAD_LIMIT
        super().handle_one_request()

    def do_GET(self) -> None:
        self._answer({"/": self._page, "/events": self._events, "/unit": self._unit, "/net": self._net, "/plan": self._plan,
                      "/instance": self._instance, "/trace": self._trace, "/systems": self._systems})

    def do_POST(self) -> None:
        self._answer({"/look": self._look})

    def _answer(self, paths: dict[str, Any]) -> None:
        """Answers by the path, after the request is found to be of the page or of nobody's page."""
        parts = urlsplit(self.path)
        if refusal := self._refusal(parts.path) or self._stranger(parts.path, parts.query):
            self.send_error(HTTPStatus.FORBIDDEN, refusal)
        elif len(self.path) > PATH_LIMIT:
            self.send_error(HTTPStatus.REQUEST_URI_TOO_LONG)
        elif parts.path not in paths:
            self.send_error(HTTPStatus.NOT_FOUND, "there is no such page")
        else:
            try:
                paths[parts.path](self._query(parts.query))
            except BadRequest as error:
                self.send_error(HTTPStatus.BAD_REQUEST, str(error))

    def _refusal(self, path: str) -> str:
        hosts: list[str] = self.headers.get_all("Host", [])
        if len(hosts) != 1 or hosts[0] not in self.server.hosts:
            return "this board is for this machine alone, by its own address"
        origin = self.headers.get("Origin")
        if origin is not None and origin not in {f"http://{host}" for host in self.server.hosts}:
            return "this board answers its own page alone"
        site = self.headers.get("Sec-Fetch-Site", "none")
        is_link = path == "/" and self.headers.get("Sec-Fetch-Mode") == "navigate"
        if site not in ("none", "same-origin") and not is_link:
            return "this board answers its own page alone"
        return ""

    def _stranger(self, path: str, query: str) -> str:
        """Why this is nobody who was let in: the page needs the token or the cookie, all else the cookie."""
        shown = path == "/" and query.startswith("token=") and self.server.is_token(query.removeprefix("token="))
        if not shown and not self.server.has_cookie(self.headers.get_all("Cookie", [])):
            return NO_TOKEN
        self.server.connections.let_in(self.connection)
        return ""

    @staticmethod
    def _query(query: str) -> dict[str, str]:
        try:
            pairs = parse_qsl(query, keep_blank_values=True, strict_parsing=bool(query), errors="strict", max_num_fields=8)
        except ValueError:
            raise BadRequest("the query can't be read") from None
        if len(dict(pairs)) < len(pairs):
            raise BadRequest("the query has a name twice")
        return dict(pairs)

    # What is asked for

    def _page(self, query: dict[str, str]) -> None:
        """The page, allowed to run its own script and to speak with this server, and nothing else."""
        words({name: value for name, value in query.items() if name != "token"})
        nonce = secrets.token_hex(16)
        page = self.server.page.replace("{{nonce}}", nonce)
        policy = (
            f"default-src 'none'; script-src 'nonce-{nonce}'; style-src 'nonce-{nonce}'; connect-src 'self'; img-src data:; "
            "base-uri 'none'; form-action 'none'; frame-ancestors 'none'; require-trusted-types-for 'script'; trusted-types 'none'"
        )
        self._send(page.encode(), "text/html; charset=utf-8", {"Content-Security-Policy": policy, "Set-Cookie": self.server.cookie})

    def _unit(self, query: dict[str, str]) -> None:
        (name,) = words(query, "name")
        row = self.server.board.row(unit_named(name))
        if not row:
            self.send_error(HTTPStatus.NOT_FOUND, "the board has no such unit")
        else:
            self._send_json(unit_view(self.server.board, row))

    def _net(self, query: dict[str, str]) -> None:
        opened, board = query.pop("open", AUTO), self.server.board
        name, aspect = words(query, "name", "aspect")
        unit, wanted = unit_named(name), aspect_in(aspect)
        self._send_json(net_view(board, unit, board.wish(("net", unit)), board.wish(("deploy", unit)), wanted, opened))

    def _plan(self, query: dict[str, str]) -> None:
        unit, board = unit_named(words(query, "name")[0]), self.server.board
        self._send_json(plan_view(board, unit, board.wish(("deploy", unit))))

    def _instance(self, query: dict[str, str]) -> None:
        name, path = words(query, "name", "path")
        self._send_json(instance_view(self.server.board.texts(), unit_named(name), path.upper()))

    def _trace(self, query: dict[str, str]) -> None:
        """What feeds an end of a network, or what it feeds."""
        (name, end, way), board = words(query, "name", "end", "way"), self.server.board
        if way not in ("back", "forth"):
            raise BadRequest("a way is back or forth")
        unit = unit_named(name)
        self._send_json(trace_view(board, unit, board.wish(("net", unit)), board.wish(("deploy", unit)), end, way == "back"))

    def _systems(self, query: dict[str, str]) -> None:
        """The units that each system leads to."""
        words(query)
        self._send_json(self.server.systems.view(self.server.board))

    def _look(self, query: dict[str, str]) -> None:
        """Adds a unit that is to be looked at, in a workbench whose units nobody can list."""
        words(query)
        body = self._body()
        if not self.server.board.shared:
            raise BadRequest("this board has the units of its folder, and no others")
        unit = name_in(body)
        self._send_json({"unit": unit, "new": self.server.board.look_at(unit)})

    def _body(self) -> bytes:
        length = self.headers.get("Content-Length", "")
        if not length.isdecimal() or int(length) > BODY_LIMIT:
            self.close_connection = True
            raise BadRequest(f"a body has at most {BODY_LIMIT:,} bytes, and says how many")
        return self.rfile.read(int(length))

    def _events(self, query: dict[str, str]) -> None:
        """All that is known, and then what is new, as it comes, for as long as the browser stays."""
        change = number_in(query.get("change", "0"))
        words({name: value for name, value in query.items() if name != "change"})
        self.close_connection = True
        self._send_head("text/event-stream", {})
        board = self.server.board
        version, last = -1, change
        try:
            with board.viewer():
                while True:
                    news = board.news(version, last)
                    self._send_event(self._told(news, version < 0))
                    version, last = news.version, news.last
                    if board.wait_for_news(version, SIGN_OF_LIFE):
                        board.gather(GATHER)
        except OSError:
            return  # The browser went away.

    def _told(self, news: News, first: bool) -> dict[str, Any]:
        board = self.server.board
        told = {
            "units": [row.told for row in news.rows],
            "changes": [it.told() for it in news.changes[-CHANGES_TOLD:]],
            "last": news.last,
            "answers": [[*key, it.serial, it.current] for key, it in news.answers],
            "problems": news.problems,
            "calls": news.calls,
            "ended": news.ended,
            "session": news.session,
        }
        about = {"title": board.title, "shared": board.shared, "reads": board.reads, "run": self.server.run}
        return {**told, "about": about} if first else told

    # How it is sent

    def _send_event(self, told: dict[str, Any]) -> None:
        self.wfile.write(b"data: " + as_json(told) + b"\n\n")

    def _send_json(self, value: Any) -> None:
        self._send(as_json(value), "application/json", {})

    def _send(self, content: bytes, kind: str, headers: dict[str, str], status: HTTPStatus = HTTPStatus.OK) -> None:
        self._send_head(kind, {**headers, "Content-Length": str(len(content))}, status)
        if self.command != "HEAD":
            self.wfile.write(content)

    def _send_head(self, kind: str, headers: dict[str, str], status: HTTPStatus = HTTPStatus.OK) -> None:
        self.send_response(status)
        always = {
            "Content-Type": kind,
            "Cache-Control": "no-store",
            "X-Content-Type-Options": "nosniff",
            "Referrer-Policy": "no-referrer",
            "Cross-Origin-Resource-Policy": "same-origin",
            "Cross-Origin-Opener-Policy": "same-origin",
            "X-Frame-Options": "DENY",
        }
        closing = {"Connection": "close"} if self.close_connection else {}
        for name, value in {**always, **closing, **headers}.items():
            self.send_header(name, value)
        self.end_headers()

    def send_error(self, code: int, message: str | None = None, explain: str | None = None) -> None:
        """An error in plain words. What stands in a body that was not read is not taken for a request."""
        self.close_connection = True
        status = HTTPStatus(code)
        self._send(f"{message or status.phrase}\n".encode(), "text/plain; charset=utf-8", {}, status)

    def log_message(self, format: str, *args: Any) -> None:
        """Requests are not told to the user."""


def as_json(value: Any) -> bytes:
    """JSON on one line. Bytes of a file's name that are not UTF-8 become question marks."""
    return json.dumps(value, ensure_ascii=False, separators=(",", ":")).encode(errors="replace")


def words(query: dict[str, str], *names: str) -> list[str]:
    """The words of a query that has exactly these names. Raises `BadRequest`."""
    if query.keys() != set(names):
        raise BadRequest(f"the query has to be of {' and '.join(names)}" if names else "no query is known here")
    if any(not value or len(value) > PATH_LIMIT for value in query.values()):
        raise BadRequest("the query has an empty word")
    return [query[name] for name in names]


def number_in(word: str) -> int:
    if not (word.isascii() and word.isdecimal()) or len(word) > 16 or int(word) >= 2**53:
        raise BadRequest(f"{word!r} is no number of a change")
    return int(word)


def aspect_in(word: str) -> float:
    """How many times as wide as it is tall a window is, within reason. Raises `BadRequest`."""
    try:
        aspect = float(word)
    except ValueError:
        aspect = nan
    if not 0 < aspect < inf:
        raise BadRequest(f"{word!r} is no aspect of a window")
    return min(max(aspect, 0.2), 5.0)


def name_in(body: bytes) -> str:
    """The name in a request's body, `{"unit": NAME}`. Raises `BadRequest`."""
    try:
        name = json.loads(body)["unit"]
    except (ValueError, KeyError, TypeError):
        raise BadRequest('the body has to be {"unit": NAME}') from None
    return unit_named(name) if isinstance(name, str) else unit_named("")


def unit_named(name: str) -> str:
    """The name as the workbench spells it. Raises `BadRequest` where it can have no unit of this name."""
    if not is_name(name):
        raise BadRequest(NO_NAME)
    return name.upper()


def is_name(words: str) -> bool:
    """Whether a workbench can have a unit of this name."""
    return words.isascii() and words.replace("_", "A").isalnum() and not words[:1].isdigit() and len(words) <= NAME_LIMIT
