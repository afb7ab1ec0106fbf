"""Chromium without a window, over the pipe of its DevTools protocol: a page is opened, files are dropped on it, and
what it shows is asked for."""
import base64
import itertools
import json
import os
import select
import subprocess
import tempfile
import time


class Page:
    """A page in a Chromium of its own. `scheme` is "light" or "dark", and `before` is run before the page's scripts."""

    def __init__(self, address, size=(1000, 900), scheme="light", is_phone=False, before=""):
        self.folder = tempfile.TemporaryDirectory()
        ours, theirs = os.pipe(), os.pipe()  # what it reads, what it writes
        words = ["chromium", "--headless", "--no-sandbox", "--disable-gpu", "--hide-scrollbars", "--no-first-run",
                 "--disable-dev-shm-usage", "--disable-background-networking",
                 f"--user-data-dir={self.folder.name}/profile", "--remote-debugging-pipe", "about:blank"]
        # the pipe's ends are 3 and 4 there
        shell = ["bash", "-c", f'exec 3<&{ours[0]} 4>&{theirs[1]}; exec "$@"', "chromium", *words]
        self.process = subprocess.Popen(shell, pass_fds=(ours[0], theirs[1]), stdin=subprocess.DEVNULL,
                                        stdout=subprocess.DEVNULL, stderr=subprocess.DEVNULL)
        os.close(ours[0])
        os.close(theirs[1])
        self.to, self.back = ours[1], theirs[0]
        self.numbers, self.rest, self.session = itertools.count(1), b"", None
        self.events = []
        try:
            self.open(address, size, scheme, is_phone, before)
        except BaseException:
            self.close()
            raise

    def open(self, address, size, scheme, is_phone, before):
        target = next(it for it in self.call("Target.getTargets")["targetInfos"] if it["type"] == "page")
        self.session = self.call("Target.attachToTarget", targetId=target["targetId"], flatten=True)["sessionId"]
        screen = {"width": size[0], "height": size[1], "deviceScaleFactor": 1, "mobile": is_phone}
        self.call("Emulation.setDeviceMetricsOverride", **screen)
        self.call("Emulation.setEmulatedMedia", features=[{"name": "prefers-color-scheme", "value": scheme}])
        for domain in ("Page", "Runtime", "Log", "Accessibility"):
            self.call(f"{domain}.enable")
        self.call("Page.addScriptToEvaluateOnNewDocument", source=before)
        self.call("Page.navigate", url=address)
        self.wait("document.body?.dataset.state === 'ready'")

    def __enter__(self):
        return self

    def __exit__(self, *_):
        self.close()

    def close(self):
        self.process.terminate()
        self.process.wait()
        os.close(self.to)
        os.close(self.back)
        time.sleep(0.2)
        self.folder.cleanup()

    def message(self, seconds):
        """The next message; an answer, or an event."""
        end = time.monotonic() + seconds
        while b"\0" not in self.rest:
            ready, _, _ = select.select([self.back], [], [], max(0, end - time.monotonic()))
            piece = os.read(self.back, 1 << 20) if ready else b""
            if not piece:
                raise TimeoutError("chromium doesn't answer")
            self.rest += piece
        text, _, self.rest = self.rest.partition(b"\0")
        return json.loads(text)

    def call(self, method, seconds=120, **words):
        number = next(self.numbers)
        message = {"id": number, "method": method, "params": words}
        if self.session is not None:
            message["sessionId"] = self.session
        data = json.dumps(message).encode() + b"\0"
        while data:
            data = data[os.write(self.to, data):]
        while True:
            said = self.message(seconds)
            if said.get("id") != number:
                self.events.append(said)
                continue
            if "error" in said:
                raise RuntimeError(f"{method}: {said['error']}")
            return said["result"]

    def evaluate(self, text, seconds=120):
        """What a piece of JavaScript gives, as JSON has it; promises are awaited."""
        said = self.call("Runtime.evaluate", seconds, expression=text, awaitPromise=True, returnByValue=True)
        if "exceptionDetails" in said:
            raise RuntimeError(json.dumps(said["exceptionDetails"])[:2000])
        return said["result"].get("value")

    def wait(self, text, seconds=120):
        """Waits until this is true in the page."""
        end = time.monotonic() + seconds
        while not self.evaluate(text):
            if time.monotonic() > end:
                raise TimeoutError(text)
            time.sleep(0.01)

    def drop(self, *paths, seconds=300):
        """Drops files on the page, and waits until the first is read. Gives the page's state then."""
        self.evaluate("setState('dropped')")
        data = {"items": [], "files": [os.path.abspath(path) for path in paths], "dragOperationsMask": 1}
        for kind in ("dragEnter", "dragOver", "drop"):
            self.call("Input.dispatchDragEvent", type=kind, x=200, y=120, data=data)
        return self.settled(seconds)

    def settled(self, seconds=300):
        self.wait("!['dropped', 'reading'].includes(document.body.dataset.state)", seconds)
        return self.evaluate("document.body.dataset.state")

    def press(self, key, code=None, text=""):
        for kind in ("keyDown", "keyUp"):
            words = {"type": kind, "key": key, "code": key, "windowsVirtualKeyCode": code}
            if text and kind == "keyDown":
                words["text"] = text
            self.call("Input.dispatchKeyEvent", **words)

    def picture(self, path, whole=False):
        data = self.call("Page.captureScreenshot", captureBeyondViewport=whole, **self.clip(whole))["data"]
        with open(path, "wb") as file:
            file.write(base64.b64decode(data))

    def clip(self, whole):
        if not whole:
            return {}
        size = self.call("Page.getLayoutMetrics")["cssContentSize"]
        return {"clip": {"x": 0, "y": 0, "width": size["width"], "height": min(size["height"], 3000), "scale": 1}}

    def complaints(self):
        """What the page, or Chromium about it, complained of so far."""
        return [it for it in self.events if it.get("method") == "Runtime.exceptionThrown" or
                it.get("method") == "Log.entryAdded" and it["params"]["entry"]["level"] == "error"]
