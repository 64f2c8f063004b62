"""A headless Chromium that is driven over two pipes by the DevTools protocol: messages of JSON, each ended by a NUL."""
import base64
import fcntl
import json
import os
import select
import shutil
import signal
import subprocess
import tempfile
import time


def find():
    """The path of Chromium, or None where it isn't installed."""
    return shutil.which("chromium") or shutil.which("chromium-browser")


class Browser:
    """A browser with a profile of its own and one page. All events of the page are kept in `events`."""

    def __init__(self, patience):
        self.patience = patience
        self.profile = tempfile.TemporaryDirectory(prefix="viewer-profile.", ignore_cleanup_errors=True)
        told_in, told_out = (self.above(end) for end in os.pipe())
        heard_in, heard_out = (self.above(end) for end in os.pipe())

        def lay_pipes():
            os.dup2(told_in, 3)
            os.dup2(heard_out, 4)

        self.process = subprocess.Popen(
            [find(), "--headless", "--no-sandbox", "--disable-gpu", "--no-first-run", "--disable-extensions",
             "--disable-background-networking", "--disable-component-update", "--disable-dev-shm-usage",
             "--hide-scrollbars", "--remote-debugging-pipe", f"--user-data-dir={self.profile.name}", "about:blank"],
            stdin=subprocess.DEVNULL, stdout=subprocess.DEVNULL, stderr=subprocess.DEVNULL,
            # The pipes have to be the files 3 and 4 of the browser; all other files of Python close by themselves.
            close_fds=False, preexec_fn=lay_pipes, start_new_session=True,
        )
        os.close(told_in)
        os.close(heard_out)
        self.out, self.back = told_out, heard_in
        self.read = bytearray()
        self.number = 0
        self.events = []
        self.session = None
        target = self.call("Target.createTarget", url="about:blank")["targetId"]
        self.session = self.call("Target.attachToTarget", targetId=target, flatten=True)["sessionId"]
        for domain in ["Page", "Network", "Runtime", "Log"]:
            self.call(f"{domain}.enable")

    @staticmethod
    def above(end):
        """The same end of a pipe under a number that isn't needed for the browser's."""
        moved = fcntl.fcntl(end, fcntl.F_DUPFD_CLOEXEC, 10)
        os.close(end)
        return moved

    def message(self):
        """The next message, within the time that is left."""
        end = time.monotonic() + self.patience
        while (stop := self.read.find(b"\0")) < 0:
            ready, _, _ = select.select([self.back], [], [], max(0, end - time.monotonic()))
            if not ready:
                raise TimeoutError("the browser didn't answer")
            data = os.read(self.back, 1 << 20)
            if not data:
                raise ConnectionError("the browser ended")
            self.read += data
        text = bytes(self.read[:stop])
        del self.read[: stop + 1]
        return json.loads(text)

    def call(self, method, **words):
        self.number += 1
        wanted = self.number
        asked = {"id": wanted, "method": method, "params": words}
        if self.session:
            asked["sessionId"] = self.session
        left = json.dumps(asked).encode() + b"\0"
        while left:
            left = left[os.write(self.out, left):]
        while True:
            answer = self.message()
            if answer.get("id") == wanted:
                if "error" in answer:
                    raise RuntimeError(f"{method}: {answer['error']}")
                return answer["result"]
            if "method" in answer:
                self.events.append(answer)

    def open(self, address):
        """Opens a page, and waits until it is loaded."""
        self.events.clear()
        self.call("Page.navigate", url=address)
        self.wait(lambda: any(event["method"] == "Page.loadEventFired" for event in self.events))

    def value(self, text):
        """The value of an expression in the page; a promise is awaited."""
        answer = self.call("Runtime.evaluate", expression=text, returnByValue=True, awaitPromise=True)
        if "exceptionDetails" in answer:
            raise RuntimeError(f"{text}: {answer['exceptionDetails']}")
        return answer["result"].get("value")

    def wait(self, done):
        end = time.monotonic() + self.patience
        while not done():
            if time.monotonic() > end:
                raise TimeoutError("what was waited for didn't come")
            self.value("0")
            time.sleep(0.02)

    def texts(self, selector):
        """The texts of the elements that a selector finds."""
        return self.value(f"[...document.querySelectorAll({json.dumps(selector)})].map(one => one.textContent)")

    def number_of(self, selector):
        return self.value(f"document.querySelectorAll({json.dumps(selector)}).length")

    def click(self, selector, place=0):
        self.value(f"document.querySelectorAll({json.dumps(selector)})[{place}].click()")

    def pause(self, milliseconds):
        self.value(f"new Promise(done => setTimeout(done, {milliseconds}))")

    def press(self, key, text=""):
        for kind in ["keyDown", "keyUp"]:
            words = {"text": text} if text and kind == "keyDown" else {}
            code = {"Escape": 27, "Tab": 9, "Enter": 13, "End": 35}.get(key, ord(text) if text else 0)
            self.call("Input.dispatchKeyEvent", type=kind, key=key, windowsVirtualKeyCode=code, **words)

    def size(self, width, height, dark=False, mobile=False):
        self.call("Emulation.setDeviceMetricsOverride", width=width, height=height, deviceScaleFactor=1, mobile=mobile)
        scheme = {"name": "prefers-color-scheme", "value": "dark" if dark else "light"}
        self.call("Emulation.setEmulatedMedia", features=[scheme])

    def picture(self, path):
        path.write_bytes(base64.b64decode(self.call("Page.captureScreenshot", format="png")["data"]))

    def close(self):
        """Ends this browser with the processes that it started, which are a group of their own."""
        try:
            self.session = None
            self.call("Browser.close")
            self.process.wait(10)
        except (OSError, RuntimeError, TimeoutError, subprocess.TimeoutExpired):
            os.killpg(self.process.pid, signal.SIGKILL)
            self.process.wait()
        os.close(self.out)
        os.close(self.back)
        self.profile.cleanup()
