"""A headless Chromium, driven over its own pipe: pages are opened, read, clicked and typed at as a person would, and pictures taken."""
import base64
import fcntl
import json
import os
import shutil
import subprocess
import tempfile
import time

CHROMIUM = ("chromium", "chromium-headless-shell", "chromium-browser", "google-chrome")
KEYS = {"ArrowLeft": 37, "ArrowUp": 38, "ArrowRight": 39, "ArrowDown": 40, "PageUp": 33, "PageDown": 34, "End": 35, "Home": 36, "Tab": 9, " ": 32}


def chromium() -> str | None:
    """The browser's path, where it is installed."""
    return next(filter(None, map(shutil.which, CHROMIUM)), None)


def placed(to_read: int, from_write: int) -> None:
    """In the browser's process: it reads orders at 3 and answers at 4."""
    to_read, from_write = fcntl.fcntl(to_read, fcntl.F_DUPFD, 16), fcntl.fcntl(from_write, fcntl.F_DUPFD, 16)
    os.dup2(to_read, 3)
    os.dup2(from_write, 4)


class Browser:
    """One tab. Use it with `with`, so that the browser ends."""

    def __init__(self, width: int = 1360, height: int = 900, dark: bool = False) -> None:
        self.width, self.height, self.dark, self.number = width, height, dark, 0
        self.folder = tempfile.mkdtemp(prefix="view-browser-")

    def __enter__(self) -> "Browser":
        to_read, self.to = os.pipe()
        self.back, from_write = os.pipe()
        command = [chromium(), "--headless", "--no-sandbox", "--disable-gpu", "--disable-dev-shm-usage", "--hide-scrollbars", "--force-color-profile=srgb", "--no-first-run",
                   "--remote-debugging-pipe", f"--user-data-dir={self.folder}", "about:blank"]
        self.process = subprocess.Popen(command, pass_fds=(3, 4), preexec_fn=lambda: placed(to_read, from_write),
                                        stdin=subprocess.DEVNULL, stdout=subprocess.DEVNULL, stderr=subprocess.DEVNULL)
        os.close(to_read)
        os.close(from_write)
        self.rest, self.session = b"", None
        target = next(t for t in self.call("Target.getTargets")["targetInfos"] if t["type"] == "page")
        self.session = self.call("Target.attachToTarget", targetId=target["targetId"], flatten=True)["sessionId"]
        self.call("Page.enable")
        self.shape()
        return self

    def shape(self) -> None:
        """Sets the window's size and the reader's colours."""
        self.call("Emulation.setDeviceMetricsOverride", width=self.width, height=self.height, deviceScaleFactor=1, mobile=False)
        self.call("Emulation.setEmulatedMedia", features=[{"name": "prefers-color-scheme", "value": "dark" if self.dark else "light"}])

    def __exit__(self, *_: object) -> None:
        try:
            self.session = None
            self.call("Browser.close")
        except (OSError, EOFError):
            pass
        try:
            self.process.wait(10)
        except subprocess.TimeoutExpired:
            self.process.kill()
            self.process.wait()
        os.close(self.to)
        os.close(self.back)
        shutil.rmtree(self.folder, ignore_errors=True)

    def call(self, method: str, **params: object) -> dict:
        """One order, and its answer."""
        self.number += 1
        message = {"id": self.number, "method": method, "params": params} | ({"sessionId": self.session} if self.session else {})
        data = json.dumps(message).encode() + b"\0"
        while data:
            data = data[os.write(self.to, data):]
        while True:
            answer = json.loads(self.message())
            if answer.get("id") == self.number:
                if "error" in answer:
                    raise RuntimeError(f"{method}: {answer['error']['message']}")
                return answer["result"]

    def message(self) -> bytes:
        """The next message of the browser."""
        while b"\0" not in self.rest:
            data = os.read(self.back, 1 << 20)
            if not data:
                raise EOFError("the browser ended")
            self.rest += data
        message, _, self.rest = self.rest.partition(b"\0")
        return message

    def open(self, path: str, place: str = "") -> float:
        """Opens a page and waits until it is drawn; the seconds that took."""
        start = time.monotonic()
        self.call("Page.navigate", url="about:blank")
        start = time.monotonic()
        self.call("Page.navigate", url="file://" + os.path.abspath(path) + place)
        self.until("document.readyState === 'complete' && (document.documentElement.dataset.ready || !document.getElementById('data'))")
        return time.monotonic() - start

    def value(self, script: str) -> object:
        """What an expression gives in the page."""
        answer = self.call("Runtime.evaluate", expression=script, returnByValue=True, awaitPromise=True)
        if "exceptionDetails" in answer:
            raise RuntimeError(str(answer["exceptionDetails"].get("exception", answer["exceptionDetails"])))
        return answer["result"].get("value")

    def until(self, script: str, limit: float = 30) -> None:
        """Waits until an expression holds."""
        end = time.monotonic() + limit
        while not self.value(script):
            if time.monotonic() > end:
                raise TimeoutError(script)
            time.sleep(0.01)

    def press(self, key: str, times: int = 1, ctrl: bool = False) -> None:
        """A key, where the focus is."""
        for _ in range(times):
            shared = {"key": key, "windowsVirtualKeyCode": KEYS[key], "modifiers": 2 if ctrl else 0}
            self.call("Input.dispatchKeyEvent", type="keyDown", **shared, **({"text": " "} if key == " " else {}))
            self.call("Input.dispatchKeyEvent", type="keyUp", **shared)

    def click(self, script: str) -> None:
        """A click on the middle of the element that an expression names."""
        self.value(f"({script}).scrollIntoView({{block: 'nearest'}})")
        x, y = self.value(f"(r => [r.x + r.width / 2, r.y + r.height / 2])(({script}).getBoundingClientRect())")
        for kind in ("mousePressed", "mouseReleased"):
            self.call("Input.dispatchMouseEvent", type=kind, x=x, y=y, button="left", buttons=1, clickCount=1)

    def picture(self, path: str, part: str = "document.documentElement", edge: int = 16) -> None:
        """A picture of an element of the page, with an edge about it."""
        high = self.value("Math.ceil(document.documentElement.getBoundingClientRect().height + 32)")
        self.call("Emulation.setDeviceMetricsOverride", width=self.width, height=int(high), deviceScaleFactor=1, mobile=False)
        self.value("new Promise(done => requestAnimationFrame(() => requestAnimationFrame(() => done(1))))")
        x, y, width, height = self.value(f"(r => [r.x, r.y, r.width, r.height])(({part}).getBoundingClientRect())")
        clip = {"x": max(0, x - edge), "y": max(0, y - edge), "width": min(self.width, width + 2 * edge), "height": height + 2 * edge, "scale": 1}
        data = base64.b64decode(self.call("Page.captureScreenshot", format="png", clip=clip)["data"])
        self.shape()
        with open(path, "wb") as file:
            file.write(data)

    def paper(self, path: str) -> None:
        """The page as it is printed, as a PDF."""
        with open(path, "wb") as file:
            file.write(base64.b64decode(self.call("Page.printToPDF", landscape=True, printBackground=True)["data"]))
