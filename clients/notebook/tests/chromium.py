"""A headless Chromium, driven by its protocol for tools over a pipe."""

import base64
import itertools
import json
import os
import queue
import shutil
import signal
import subprocess
import sys
import tempfile
import threading
import time
from typing import Any, Callable, Dict, List, Optional, Union

Reported = Dict[str, Any]

WORDS = [
    "--headless", "--no-sandbox", "--disable-gpu", "--no-first-run", "--disable-background-networking", "--disable-component-update",
    "--disable-background-timer-throttling", "--disable-renderer-backgrounding", "--remote-debugging-pipe",
]
# It reads descriptor 3, and writes to 4.
START = """
import fcntl, os, sys
ours = [fcntl.fcntl(int(word), fcntl.F_DUPFD, 10) for word in sys.argv[1:3]]
os.dup2(ours[0], 3), os.dup2(ours[1], 4)
os.execv(sys.argv[3], sys.argv[3:])
"""
COMMANDS = {"c": "copy", "x": "cut", "v": "paste"}  # that a browser's window makes of keys
WITHIN = 240.0  # seconds for a reply
SLOW = 120.0  # seconds for what is waited for in a page, beside other work too

MODIFIERS = {"Alt": 1, "Control": 2, "Meta": 4, "Shift": 8}
CODES = {
    "Enter": 13, "Escape": 27, "Tab": 9, "Backspace": 8, "Delete": 46, "ArrowUp": 38, "ArrowDown": 40, "ArrowLeft": 37, "ArrowRight": 39,
    "Home": 36, "End": 35,
}


def find_chromium() -> Optional[str]:
    return os.environ.get("CHROMIUM") or shutil.which("chromium") or shutil.which("chromium-browser")


class Failed(Exception):
    """What was asked of the browser failed, or didn't come."""


class Browser:
    """`trouble` has what pages should never do: dialogs, errors of scripts, refusals of their policy. `requests` are their addresses."""

    def __init__(self) -> None:
        program = find_chromium()
        if program is None:
            raise Failed("there is no Chromium")
        self.folder = tempfile.mkdtemp(prefix="notebook-chromium-")
        self.trouble: List[str] = []
        self.requests: List[str] = []
        self._numbers = itertools.count(1)
        self._replies: Dict[int, "queue.Queue[Reported]"] = {}
        self._lock = threading.Lock()
        theirs_in, self._to = os.pipe()
        self._from, theirs_out = os.pipe()
        words = [program, *WORDS, f"--user-data-dir={self.folder}", "about:blank"]
        self.process = subprocess.Popen(
            [sys.executable, "-c", START, str(theirs_in), str(theirs_out), *words], pass_fds=[theirs_in, theirs_out],
            stdin=subprocess.DEVNULL, stdout=subprocess.DEVNULL, stderr=subprocess.DEVNULL, start_new_session=True
        )
        os.close(theirs_in)
        os.close(theirs_out)
        threading.Thread(target=self._read, daemon=True).start()

    def _read(self) -> None:
        rest = b""
        while data := os.read(self._from, 1 << 20):
            *messages, rest = (rest + data).split(b"\0")
            for message in messages:
                self._take(json.loads(message))
        with self._lock:
            for replies in self._replies.values():
                replies.put({"error": {"message": "the browser has ended"}})

    def _take(self, reported: Reported) -> None:
        replies = self._replies.get(reported.get("id", 0))
        if replies:
            replies.put(reported)
            return
        method, params = reported.get("method"), reported.get("params", {})
        if method == "Network.requestWillBeSent":
            self.requests.append(params["request"]["url"])
        elif method == "Page.javascriptDialogOpening":
            self.trouble.append(f"dialog: {params['message']}")
            threading.Thread(target=self._dismiss, args=(reported.get("sessionId"),), daemon=True).start()
        elif method == "Runtime.exceptionThrown":
            details = params["exceptionDetails"]
            self.trouble.append(f"error: {details.get('exception', {}).get('description', details['text'])}")
        elif method == "Log.entryAdded" and params["entry"]["level"] == "error":
            self.trouble.append(f"log: {params['entry']['text']}")

    def _dismiss(self, session: Optional[str]) -> None:
        self.ask("Page.handleJavaScriptDialog", {"accept": True}, session)

    def ask(self, method: str, params: Optional[Reported] = None, session: Optional[str] = None) -> Reported:
        number = next(self._numbers)
        replies: "queue.Queue[Reported]" = queue.Queue()
        with self._lock:
            self._replies[number] = replies
        message: Reported = {"id": number, "method": method, "params": params or {}}
        if session:
            message["sessionId"] = session
        data = json.dumps(message).encode() + b"\0"
        while data:
            data = data[os.write(self._to, data) :]
        try:
            reported = replies.get(timeout=WITHIN)
        except queue.Empty:
            raise Failed(f"{method}: no reply") from None
        finally:
            with self._lock:
                del self._replies[number]
        if "error" in reported:
            raise Failed(f"{method}: {reported['error']['message']}")
        result: Reported = reported["result"]
        return result

    def open(self, address: str, in_window: bool = False) -> "Tab":
        """A new tab, which takes the place of others, or a window beside them."""
        return Tab(self, address, in_window)

    def kill(self) -> None:
        """As by kill -9."""
        try:
            os.killpg(self.process.pid, signal.SIGKILL)
        except ProcessLookupError:
            pass
        self.process.wait()
        shutil.rmtree(self.folder, ignore_errors=True)


class Tab:
    """A page that is open."""

    def __init__(self, browser: Browser, address: str, in_window: bool) -> None:
        self.browser = browser
        self.target: str = browser.ask("Target.createTarget", {"url": "about:blank", "newWindow": in_window})["targetId"]
        self.session: str = browser.ask("Target.attachToTarget", {"targetId": self.target, "flatten": True})["sessionId"]
        for domain in ("Page", "Network", "Runtime", "Log"):
            self.ask(f"{domain}.enable")
        self.size(1000, 800)
        self.ask("Page.navigate", {"url": address})

    def ask(self, method: str, params: Optional[Reported] = None) -> Reported:
        return self.browser.ask(method, params, self.session)

    def size(self, width: int, height: int) -> None:
        self.ask("Emulation.setDeviceMetricsOverride", {"width": width, "height": height, "deviceScaleFactor": 1, "mobile": False})

    def value(self, expression: str) -> Any:
        """What a JavaScript expression has for value in the page; of a promise what it comes to."""
        reported = self.ask("Runtime.evaluate",
            {"expression": expression, "returnByValue": True, "awaitPromise": True, "allowUnsafeEvalBlockedByCSP": False})
        if "exceptionDetails" in reported:
            details = reported["exceptionDetails"]
            raise Failed(f"{expression}: {details.get('exception', {}).get('description', details['text'])}")
        return reported["result"].get("value")

    def until(self, expression: str, wanted: Union[Any, Callable[[Any], bool]] = True, seconds: float = SLOW) -> Any:
        """Waits until an expression has a value. One that fails has none yet: the page may be on its way."""
        end = time.monotonic() + seconds
        while True:
            try:
                found = self.value(expression)
            except Failed as failed:
                found = str(failed)
            if wanted(found) if callable(wanted) else found == wanted:
                return found
            if time.monotonic() > end:
                raise Failed(f"{expression} is {found!r}" + ("" if callable(wanted) else f", and not {wanted!r}"))
            time.sleep(0.03)

    def reload(self) -> None:
        """Loads the page again; what is asked after it is asked of the new one."""
        self.value("window.isOld = true")
        self.ask("Page.reload")
        self.until("window.isOld ?? false", False)

    def key(self, key: str, *modifiers: str, at: Optional[float] = None) -> None:
        """Presses a key as a user does, now or at a time."""
        bits = sum(MODIFIERS[one] for one in modifiers)
        code = CODES.get(key, ord(key.upper()) if len(key) == 1 else 0)
        event: Reported = {"key": key, "modifiers": bits, "windowsVirtualKeyCode": code, "code": key if len(key) > 1 else ""}
        text = "\r" if key == "Enter" else key if len(key) == 1 else ""
        if text and not {"Control", "Alt", "Meta"} & set(modifiers):
            event["text"] = text
        if bits == MODIFIERS["Control"] and key in COMMANDS:
            event["commands"] = [COMMANDS[key]]
        if at is not None:
            event["timestamp"] = at
        self.ask("Input.dispatchKeyEvent", {**event, "type": "keyDown"})
        self.ask("Input.dispatchKeyEvent", {**event, "type": "keyUp"})

    def twice(self, key: str) -> None:
        """Presses a key twice within a tenth of a second, however late a busy machine hears of it."""
        now = time.time()
        for at in (now - 0.1, now):
            self.key(key, at=at)

    def type(self, text: str) -> None:
        """Puts text at the cursor, as a user who types it."""
        self.ask("Input.insertText", {"text": text})

    def click(self, selector: str) -> None:
        """Clicks into the middle of an element."""
        place = self.until(
            f"(() => {{ const node = document.querySelector({json.dumps(selector)}); if (!node) return null; node.scrollIntoView({{block: 'nearest'}}); "
            "const box = node.getBoundingClientRect(); return box.width ? [box.x + box.width / 2, box.y + box.height / 2] : null })()",
            lambda found: found is not None,
        )
        where = {"x": place[0], "y": place[1], "button": "left", "clickCount": 1}
        for kind in ("mousePressed", "mouseReleased"):
            self.ask("Input.dispatchMouseEvent", {**where, "type": kind})

    def picture(self, width: int, height: int) -> bytes:
        clip = {"x": 0, "y": 0, "width": width, "height": height, "scale": 1}
        return base64.b64decode(self.ask("Page.captureScreenshot", {"format": "png", "clip": clip})["data"])

    def front(self) -> None:
        """Shows this tab in place of the others of its window."""
        self.ask("Page.bringToFront")

    def close(self) -> None:
        self.browser.ask("Target.closeTarget", {"targetId": self.target})
