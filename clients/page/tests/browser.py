"""Chromium without a screen, driven over its DevTools protocol: windows, what stands in them, keys."""
from __future__ import annotations

import base64
import json
import shutil
import subprocess
import tempfile
from pathlib import Path
from typing import Any, Dict, List, Optional

from page_support import SECONDS, Wire, until

NAMES = ("chromium", "chromium-browser", "google-chrome")
WORDS = ["--headless=new", "--remote-debugging-port=0", "--no-sandbox", "--disable-gpu", "--disable-dev-shm-usage", "--no-first-run",
         "--disable-extensions", "--disable-background-networking", "--disable-component-update", "--disable-sync", "--mute-audio",
         "--disable-features=Translate,OptimizationHints,MediaRouter", "--no-default-browser-check", "--renderer-process-limit=1", "--window-size=1280,860"]
# The code and the virtual key of keys that type no character.
KEYS = {"Tab": 9, "Enter": 13, "Escape": 27, " ": 32, "End": 35, "Home": 36, "ArrowLeft": 37, "ArrowUp": 38, "ArrowRight": 39,
        "ArrowDown": 40, "Backspace": 8}
ALT, CONTROL = 1, 2


def chromium() -> str:
    """The browser. Raises AssertionError with the package's name where there is none."""
    found = next((it for it in map(shutil.which, NAMES) if it), None)
    if found is None:
        raise AssertionError("there is no Chromium: install the package `chromium` (tools/editors.sh chromium)")
    return str(found)


class NoAnswer(AssertionError):
    """The browser can't do what it is asked: it isn't there, or is just about to load a page."""


class Browser:
    """A browser of its own, with a folder of its own."""

    def __init__(self) -> None:
        self._folder = tempfile.mkdtemp(prefix="attrd-chromium-")
        self.process = subprocess.Popen([chromium(), *WORDS, f"--user-data-dir={self._folder}", "about:blank"],
                                        stdout=subprocess.DEVNULL, stderr=subprocess.DEVNULL)
        file = Path(self._folder) / "DevToolsActivePort"
        port, path = until(lambda: self._told(file), "Chromium's port (is the package `chromium` whole?)")
        self.wire = Wire("127.0.0.1", int(port), path)
        self.count = 0

    def _told(self, file: Path) -> Optional[List[str]]:
        if self.process.poll() is not None:
            raise AssertionError(f"Chromium has ended with status {self.process.returncode}")
        lines = file.read_text("utf-8").split("\n") if file.exists() else []
        return lines if len(lines) == 2 and lines[1] else None

    def call(self, method: str, session: Optional[str] = None, **params: Any) -> Dict[str, Any]:
        """The result of a method. Raises NoAnswer where it fails."""
        self.count += 1
        message: Dict[str, Any] = {"id": self.count, "method": method, "params": params}
        self.wire.send(json.dumps(message if session is None else {**message, "sessionId": session}))
        while True:
            told = json.loads(self.wire.next())
            if told.get("id") == self.count:
                if "error" in told:
                    raise NoAnswer(f"{method}: {told['error']}")
                result: Dict[str, Any] = told["result"]
                return result

    def window(self, address: str) -> Tab:
        """A new window with this address."""
        target = self.call("Target.createTarget", url=address)["targetId"]
        session = self.call("Target.attachToTarget", targetId=target, flatten=True)["sessionId"]
        return Tab(self, session, target)

    def close(self) -> None:
        """Ends it."""
        try:
            self.call("Browser.close")
        except (OSError, EOFError, AssertionError):
            self.process.terminate()
        try:
            self.process.wait(timeout=SECONDS)
        except subprocess.TimeoutExpired:
            self.process.kill()
            self.process.wait()
        self.wire.close()
        shutil.rmtree(self._folder, ignore_errors=True)


class Tab:
    """A window of the browser."""

    def __init__(self, browser: Browser, session: str, target: str) -> None:
        self.browser, self.session, self.target = browser, session, target

    def call(self, method: str, **params: Any) -> Dict[str, Any]:
        """The result of a method for this window."""
        return self.browser.call(method, self.session, **params)

    def value(self, script: str) -> Any:
        """The value of an expression. Raises AssertionError where it throws."""
        result = self.call("Runtime.evaluate", expression=script, returnByValue=True, awaitPromise=True)
        if "exceptionDetails" in result:
            raise AssertionError(f"{script}: {result['exceptionDetails']}")
        return result["result"].get("value")

    def until(self, script: str, what: str = "", seconds: float = SECONDS) -> None:
        """Waits until an expression is true."""
        until(lambda: self.is_so(script), what or script, seconds)

    def is_so(self, script: str) -> bool:
        """Whether an expression is true; while a page is loaded none is."""
        try:
            return bool(self.value(f"!!({script})"))
        except NoAnswer:
            return False

    def text(self, selector: str) -> str:
        """What stands in the first element of a selector."""
        return str(self.value(f"document.querySelector({json.dumps(selector)})?.innerText ?? ''"))

    def key(self, key: str, modifiers: int = 0) -> None:
        """Presses a key, and lets it go."""
        code = {"key": key, "modifiers": modifiers, "windowsVirtualKeyCode": KEYS.get(key, ord(key[0].upper()))}
        text = {"Enter": "\r", " ": " "}.get(key, key if len(key) == 1 else "")
        self.call("Input.dispatchKeyEvent", type="keyDown", **({"text": text} if text and not modifiers else {}), **code)
        self.call("Input.dispatchKeyEvent", type="keyUp", **code)

    def type(self, text: str) -> None:
        """Types a text where the focus is."""
        self.call("Input.insertText", text=text)

    def picture(self) -> bytes:
        """The window as a PNG."""
        return base64.b64decode(self.call("Page.captureScreenshot", format="png")["data"])

    def close(self) -> None:
        """Closes the window."""
        self.browser.call("Target.closeTarget", targetId=self.target)
