"""A browser without a window, for checks: Chromium, spoken to by the DevTools protocol over a pipe.

It is the program that the variable CHROMIUM names, or the first of `chromium`, `chromium-browser`, `google-chrome` on the
path; on Debian `apt-get install chromium` brings it. Its profile is a new folder that is removed at the end, it may open
no network but what the check asks for, and it is ended by its own number.
"""
from __future__ import annotations

import base64
import contextlib
import json
import os
import pathlib
import select
import shutil
import subprocess
import tempfile
import time
from typing import Any, Iterator

WAIT = 300      # seconds for an answer: a busy machine takes long, and a check that gives up tells nothing
NAMES = "chromium", "chromium-browser", "google-chrome"
Json = dict[str, Any]


def found() -> str | None:
    """The program, if there is one."""
    named = os.environ.get("CHROMIUM")
    return shutil.which(named) if named else next(filter(None, map(shutil.which, NAMES)), None)


class Browser:
    """One page of a browser: what it is asked, and what it tells meanwhile."""

    def __init__(self, program: str, folder: str) -> None:
        down, self.asks = os.pipe()
        self.answers, up = os.pipe()
        room = f"--user-data-dir={folder}"
        words = [program, "--headless=new", "--no-sandbox", "--disable-gpu", "--remote-debugging-pipe", "--no-first-run",
                 "--hide-scrollbars", "--disable-background-networking", "--disable-component-update", "--force-color-profile=srgb", room, "about:blank"]
        script = 'down=$1 up=$2; shift 2; exec 3<&"$down" 4>&"$up" "$@"'
        self.process = subprocess.Popen(["bash", "-c", script, "bash", str(down), str(up), *words], pass_fds=(down, up),
                                        stdin=subprocess.DEVNULL, stdout=subprocess.DEVNULL, stderr=subprocess.DEVNULL)
        os.close(down)
        os.close(up)
        self.number, self.rest, self.session = 0, b"", ""
        self.told: list[Json] = []
        target = next(t for t in self.ask("Target.getTargets")["targetInfos"] if t["type"] == "page")
        self.session = self.ask("Target.attachToTarget", targetId=target["targetId"], flatten=True)["sessionId"]
        self.ask("Performance.enable", timeDomain="threadTicks")
        for domain in ("Page", "Runtime", "Log", "Network"):
            self.ask(f"{domain}.enable")

    def ask(self, method: str, **params: Any) -> Json:
        """Sends a command, and waits for its answer; what comes before is kept in `told`."""
        self.number += 1
        message: Json = {"id": self.number, "method": method, "params": params}
        if self.session:
            message["sessionId"] = self.session
        data = json.dumps(message).encode() + b"\0"
        while data:
            data = data[os.write(self.asks, data):]
        while True:
            line = self.next_line(WAIT)
            if line is None:
                raise RuntimeError(f"the browser does not answer {method}")
            if line.get("id") == self.number:
                if "error" in line:
                    raise RuntimeError(f"{method}: {line['error']}")
                return line["result"]
            self.told.append(line)

    def next_line(self, seconds: float) -> Json | None:
        """What the browser says next, if it does within that time."""
        end = time.monotonic() + seconds
        while b"\0" not in self.rest:
            if not select.select([self.answers], [], [], max(0, end - time.monotonic()))[0]:
                return None
            data = os.read(self.answers, 1 << 20)
            if not data:
                return None
            self.rest += data
        line, _, self.rest = self.rest.partition(b"\0")
        return json.loads(line)

    def open(self, path: pathlib.Path, width: int, theme: str) -> None:
        """Opens a file, as wide as that and in that theme, and waits until it is drawn."""
        self.size(width, 900)
        self.ask("Emulation.setEmulatedMedia", features=[{"name": "prefers-color-scheme", "value": theme}])
        self.ask("Page.navigate", url=path.resolve().as_uri())
        self.until("document.readyState === 'complete' && Boolean(document.documentElement.dataset.drawn)")

    def size(self, width: int, height: int) -> None:
        """Makes the window that wide and high; a narrow one is a phone's."""
        self.ask("Emulation.setDeviceMetricsOverride", width=width, height=height, deviceScaleFactor=1, mobile=width < 500)

    def until(self, what: str) -> None:
        """Waits until an expression holds."""
        end = time.monotonic() + WAIT
        while not self.value(what):
            if time.monotonic() > end:
                raise RuntimeError(f"this never came: {what}")
            time.sleep(0.05)

    def value(self, script: str) -> Any:
        """The value of an expression in the page."""
        found_ = self.ask("Runtime.evaluate", expression=script, returnByValue=True, awaitPromise=True)
        if "exceptionDetails" in found_:
            raise RuntimeError(f"{script[:200]}: {json.dumps(found_['exceptionDetails'])[:500]}")
        return found_["result"].get("value")

    def mouse(self, kind: str, x: float, y: float) -> None:
        """Moves the mouse, or presses and releases it."""
        if kind == "click":
            for part in ("mousePressed", "mouseReleased"):
                self.ask("Input.dispatchMouseEvent", type=part, x=x, y=y, button="left", clickCount=1)
        else:
            self.ask("Input.dispatchMouseEvent", type="mouseMoved", x=x, y=y)

    def key(self, name: str) -> None:
        """Presses a key."""
        text = {"Enter": "\r"}.get(name, "")
        self.ask("Input.dispatchKeyEvent", type="keyDown", key=name, code=name, text=text,
                 windowsVirtualKeyCode={"Enter": 13, "ArrowLeft": 37, "ArrowUp": 38, "ArrowRight": 39, "ArrowDown": 40, "Tab": 9}.get(name, 0))
        self.ask("Input.dispatchKeyEvent", type="keyUp", key=name, code=name)

    def picture(self, path: pathlib.Path, whole: bool = True, most: int = 12000) -> None:
        """Takes a picture: of the whole page up to a height, or of what is seen."""
        words: Json = {"format": "png"}
        if whole:
            size = self.ask("Page.getLayoutMetrics")["cssContentSize"]
            words |= {"captureBeyondViewport": True, "clip": {"x": 0, "y": 0, "width": size["width"],
                                                              "height": min(most, size["height"]), "scale": 1}}
        path.write_bytes(base64.b64decode(self.ask("Page.captureScreenshot", **words)["data"]))

    def requests(self) -> list[str]:
        """What was asked for since the last time, but for the files that were opened."""
        self.ask("Runtime.evaluate", expression="1")
        asked = [line["params"]["request"]["url"] for line in self.told if line.get("method") == "Network.requestWillBeSent"]
        return [url for url in asked if not url.startswith(("file:", "data:"))]

    def console(self) -> list[str]:
        """What stands on the console, and what was thrown."""
        kinds = "Runtime.consoleAPICalled", "Runtime.exceptionThrown", "Log.entryAdded"
        return [json.dumps(line["params"])[:400] for line in self.told if line.get("method") in kinds]

    def close(self) -> None:
        """Ends the browser."""
        with contextlib.suppress(RuntimeError, OSError):
            self.session = ""
            self.ask("Browser.close")
        try:
            self.process.wait(20)
        except subprocess.TimeoutExpired:
            self.process.kill()
            self.process.wait()
        os.close(self.asks)
        os.close(self.answers)


@contextlib.contextmanager
def browser() -> Iterator[Browser]:
    """A browser for as long as the block takes."""
    program = found()
    if not program:
        raise RuntimeError("there is no browser")
    with tempfile.TemporaryDirectory(ignore_cleanup_errors=True) as folder:
        made = Browser(program, folder)
        try:
            yield made
        finally:
            made.close()
