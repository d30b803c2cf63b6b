"""A real Chromium without a screen, driven over the WebDriver protocol."""
from __future__ import annotations

import base64
import json
import os
import shutil
import subprocess
import unittest
from http.client import HTTPConnection
from pathlib import Path
from typing import Any

_READY = "started successfully on port "
# Calls back when a condition holds: looked at now, at each change of the page, and at each picture.
_UNTIL = """
const [condition, done] = [new Function("return (" + arguments[0] + ")"), arguments[arguments.length - 1]];
let over = false;
const look = () => { if (!over && condition()) { over = true; watcher.disconnect(); done(condition()); } };
const watcher = new MutationObserver(look);
watcher.observe(document, { subtree: true, childList: true, attributes: true, characterData: true });
const turn = () => { look(); if (!over) requestAnimationFrame(turn); };
turn();
"""


class Browser:
    """One window. Ended by `close`."""

    def __init__(self, width: int = 1280, height: int = 800):
        driver, chromium = shutil.which("chromedriver"), shutil.which("chromium")
        if not driver or not chromium:
            raise unittest.SkipTest("there is no Chromium with its driver here")
        self._driver = subprocess.Popen([driver, "--port=0"], stdout=subprocess.PIPE, stderr=subprocess.DEVNULL, text=True)
        line = next(it for it in self._driver.stdout if _READY in it)
        self._connection = HTTPConnection("127.0.0.1", int(line.partition(_READY)[2].rstrip(".\n")), timeout=180)
        words = ["--headless=new", f"--window-size={width},{height}", "--disable-gpu", "--hide-scrollbars"]
        words += ["--no-sandbox"] if os.geteuid() == 0 else []
        options = {"args": words, "binary": chromium}
        wanted = {"capabilities": {"alwaysMatch": {"goog:chromeOptions": options, "goog:loggingPrefs": {"browser": "ALL"}}}}
        self._session = ""
        self._session = f"/session/{self._do('POST', '/session', wanted)['sessionId']}"
        self.patience(150)
        self.devtools("Emulation.setDeviceMetricsOverride", width=width, height=height, deviceScaleFactor=1, mobile=False)

    def close(self) -> None:
        self._do("DELETE", "")
        self._connection.close()
        self._driver.terminate()
        self._driver.wait()
        self._driver.stdout.close()

    def _do(self, method: str, path: str, body: dict[str, Any] | None = None) -> Any:
        content = None if body is None else json.dumps(body)
        self._connection.request(method, self._session + path, content, {"Content-Type": "application/json"})
        value = json.loads(self._connection.getresponse().read())["value"]
        if isinstance(value, dict) and "error" in value:
            raise AssertionError(f"{value['error']}: {value['message']}")
        return value

    def open(self, address: str) -> None:
        self._do("POST", "/url", {"url": address})

    def devtools(self, command: str, **words: Any) -> Any:
        return self._do("POST", "/goog/cdp/execute", {"cmd": command, "params": words})

    def patience(self, seconds: int) -> None:
        """How long `until` waits before it gives up."""
        self._do("POST", "/timeouts", {"script": 1000 * seconds})

    def value(self, expression: str) -> Any:
        return self._do("POST", "/execute/sync", {"script": f"return ({expression})", "args": []})

    def until(self, condition: str) -> Any:
        """Waits until a condition is true in the page, and gives its value."""
        return self._do("POST", "/execute/async", {"script": _UNTIL, "args": [condition]})

    def press(self, *keys: str) -> None:
        """Presses keys one after the other, by their characters or by their names in `KEYS`; with `+`, together."""
        for key in keys:
            parts = [KEYS.get(it, it) for it in (key.split("+") if len(key) > 1 else [key])]
            actions = [{"type": "keyDown", "value": it} for it in parts] + [{"type": "keyUp", "value": it} for it in reversed(parts)]
            self._do("POST", "/actions", {"actions": [{"type": "key", "id": "keys", "actions": actions}]})

    def click(self, x: float, y: float) -> None:
        self.drag((x, y))

    def drag(self, first: tuple[float, float], *more: tuple[float, float]) -> None:
        """Presses the mouse at a place, moves it to others, and lets it go at the last."""
        begin, *rest = ({"type": "pointerMove", "x": round(x), "y": round(y), "duration": 0} for x, y in (first, *more))
        actions = [begin, {"type": "pointerDown", "button": 0}, *rest, {"type": "pointerUp", "button": 0}]
        self._do("POST", "/actions", {"actions": [{"type": "pointer", "id": "mouse", "actions": actions}]})

    def wheel(self, x: float, y: float, down: int) -> None:
        actions = [{"type": "scroll", "x": round(x), "y": round(y), "deltaX": 0, "deltaY": down, "duration": 0}]
        self._do("POST", "/actions", {"actions": [{"type": "wheel", "id": "wheel", "actions": actions}]})

    def log(self) -> list[str]:
        """What the page has written to the console since the last call."""
        return [it["message"] for it in self._do("POST", "/se/log", {"type": "browser"})]

    def colours(self, scheme: str) -> None:
        self.devtools("Emulation.setEmulatedMedia", features=[{"name": "prefers-color-scheme", "value": scheme}])

    def picture(self, file: Path) -> None:
        file.write_bytes(base64.b64decode(self._do("GET", "/screenshot")))


KEYS = {
    "Enter": "\ue007", "Tab": "\ue004", "Escape": "\ue00c", "Shift": "\ue008",
    "Left": "\ue012", "Up": "\ue013", "Right": "\ue014", "Down": "\ue015", "Home": "\ue011", "End": "\ue010",
}
