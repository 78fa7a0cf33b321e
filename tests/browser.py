"""A headless browser, chromium, by its DevTools protocol over a pipe: pages, what scripts answer, and pictures of the screen.

Source: https://chromedevtools.github.io/devtools-protocol. A message is JSON, and ends with a zero byte.
"""
import base64
import json
import os
import pathlib
import select
import subprocess
import tempfile
import time

NAME = "chromium"
FLAGS = ["--headless", "--disable-gpu", "--no-first-run", "--hide-scrollbars", "--remote-debugging-pipe"]
# As root it does not start in its sandbox.
FLAGS += ["--no-sandbox"] if os.geteuid() == 0 else []
SECONDS = 60


class Browser:
    """A browser with one page."""

    def __init__(self, size=(1600, 1000)):
        self.folder = tempfile.TemporaryDirectory()
        to_browser, ours_to = os.pipe()
        ours_from, from_browser = os.pipe()
        words = [NAME, *FLAGS, f"--user-data-dir={self.folder.name}", f"--window-size={size[0]},{size[1]}", "about:blank"]
        # The browser reads from descriptor 3 and writes to 4. Those of ours may be these very ones.
        os.set_inheritable(to_browser, True)
        os.set_inheritable(from_browser, True)
        shell = f'exec 9<&{to_browser} 8>&{from_browser} 3<&9 4>&8; exec "$@"'
        how = {"stdout": subprocess.DEVNULL, "stderr": subprocess.DEVNULL, "pass_fds": (to_browser, from_browser)}
        self.process = subprocess.Popen(["bash", "-c", shell, "browser", *words], **how)
        os.close(to_browser)
        os.close(from_browser)
        self.out, self.into = ours_to, ours_from
        self.unread, self.number, self.told = b"", 0, []
        self.size = size
        target = next(t for t in self.ask("Target.getTargets")["targetInfos"] if t["type"] == "page")
        self.session = None
        self.session = self.ask("Target.attachToTarget", targetId=target["targetId"], flatten=True)["sessionId"]
        for domain in ("Page", "Runtime", "Log"):
            self.ask(f"{domain}.enable")
        metrics = {"width": size[0], "height": size[1], "deviceScaleFactor": 1, "mobile": False}
        self.ask("Emulation.setDeviceMetricsOverride", **metrics)

    def __enter__(self):
        return self

    def __exit__(self, *_):
        self.session = None
        try:
            self.ask("Browser.close")
            self.process.wait(SECONDS)
        except (OSError, ValueError, subprocess.TimeoutExpired):
            self.process.kill()
        self.process.wait()
        os.close(self.out)
        os.close(self.into)
        self.folder.cleanup()

    def message(self, seconds=SECONDS):
        """The next message."""
        end = time.monotonic() + seconds
        while b"\0" not in self.unread:
            if not select.select([self.into], [], [], max(0, end - time.monotonic()))[0]:
                raise ValueError("the browser does not answer in time")
            read = os.read(self.into, 1 << 20)
            if not read:
                raise ValueError("the browser has ended")
            self.unread += read
        text, _, self.unread = self.unread.partition(b"\0")
        return json.loads(text)

    def ask(self, method, **words):
        """The answer of a method. What is told meanwhile is kept."""
        self.number += 1
        asked = {"id": self.number, "method": method, "params": words}
        asked |= {"sessionId": self.session} if getattr(self, "session", None) else {}
        os.write(self.out, json.dumps(asked).encode() + b"\0")
        while (answer := self.message()).get("id") != self.number:
            self.told.append(answer)
        if "error" in answer:
            raise ValueError(f"{method}: {answer['error']}")
        return answer["result"]

    def open(self, page, fragment=""):
        """Opens a file, and waits until its script has started."""
        self.told.clear()
        self.ask("Page.navigate", url="about:blank")
        self.ask("Page.navigate", url=pathlib.Path(page).resolve().as_uri() + (f"#{fragment}" if fragment else ""))
        end = time.monotonic() + SECONDS
        while self.value("typeof page !== 'object' || document.readyState !== 'complete'"):
            if time.monotonic() > end:
                raise ValueError(f"{page} does not start: {self.faults()}")
            time.sleep(0.02)
        return self.value("page.then(() => true)")

    def value(self, script):
        """What a script answers, once it has."""
        how = {"returnByValue": True, "awaitPromise": True, "userGesture": True}
        answer = self.ask("Runtime.evaluate", expression=script, **how)
        if "exceptionDetails" in answer:
            told = answer["exceptionDetails"]
            raise ValueError(told.get("exception", {}).get("description", told["text"]))
        return answer["result"].get("value")

    def faults(self):
        """What the page has said of faults."""
        found = []
        for told in self.told:
            params = told.get("params", {})
            if told.get("method") == "Runtime.exceptionThrown":
                found.append(params["exceptionDetails"].get("exception", {}).get("description", "exception"))
            if told.get("method") == "Log.entryAdded" and params["entry"]["level"] == "error":
                found.append(params["entry"]["text"])
            if told.get("method") == "Runtime.consoleAPICalled" and params["type"] in ("error", "assert"):
                found.append(str(params["args"]))
        return found

    def press(self, key):
        for kind in ("keyDown", "keyUp"):
            self.ask("Input.dispatchKeyEvent", type=kind, key=key)

    def click(self, x, y):
        for kind in ("mousePressed", "mouseReleased"):
            self.ask("Input.dispatchMouseEvent", type=kind, x=x, y=y, button="left", clickCount=1)

    def media(self, scheme="light", kind=""):
        """Shows the page in another scheme of colours, or as it is printed."""
        features = [{"name": "prefers-color-scheme", "value": scheme}]
        self.ask("Emulation.setEmulatedMedia", media=kind, features=features)

    def picture(self, file):
        """Saves what the screen shows."""
        data = self.ask("Page.captureScreenshot", format="png")["data"]
        pathlib.Path(file).write_bytes(base64.b64decode(data))
