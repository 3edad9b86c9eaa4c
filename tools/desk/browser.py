"""A headless Chromium, spoken to through a pipe in the DevTools protocol; where none is installed, none."""
import base64
import json
import os
import select
import shutil
import subprocess
import tempfile
import time

NAMES = ("chromium", "chromium-browser", "google-chrome", "chrome")


def installed():
    return next(filter(None, map(shutil.which, NAMES)), None)


class Browser:
    """One page. `said` collects what the page complained of: exceptions, refused loads, breaches of its policy."""

    def __init__(self, width=1240, height=1400):
        self.profile = tempfile.mkdtemp()
        to_read, self.to = os.pipe()
        self.back, to_write = os.pipe()
        words = ["--headless=new", "--no-sandbox", "--disable-gpu", "--hide-scrollbars", "--remote-debugging-pipe"]
        words += [f"--user-data-dir={self.profile}", f"--window-size={width},{height}", "about:blank"]

        def place():  # the protocol's pipe is 3 and 4
            os.dup2(to_read, 103)
            os.dup2(to_write, 104)
            os.dup2(103, 3)
            os.dup2(104, 4)

        quiet = {"stdin": subprocess.DEVNULL, "stdout": subprocess.DEVNULL, "stderr": subprocess.DEVNULL}
        self.process = subprocess.Popen([installed(), *words], preexec_fn=place, close_fds=False, **quiet)
        os.close(to_read)
        os.close(to_write)
        self.number, self.read, self.said, self.session, self.loaded = 0, b"", [], None, False
        target = next(t for t in self.ask("Target.getTargets")["targetInfos"] if t["type"] == "page")
        self.session = self.ask("Target.attachToTarget", targetId=target["targetId"], flatten=True)["sessionId"]
        for domain in ("Page", "Runtime", "Log"):
            self.ask(domain + ".enable")

    def message(self, limit):
        end = time.monotonic() + limit
        while b"\0" not in self.read:
            if not select.select([self.back], [], [], max(0, end - time.monotonic()))[0]:
                raise TimeoutError(f"no answer of the browser in {limit} s")
            piece = os.read(self.back, 1 << 20)
            if not piece:
                raise EOFError("the browser ended")
            self.read += piece
        message, self.read = self.read.split(b"\0", 1)
        return json.loads(message)

    def note(self, message):
        what, how = message.get("method"), message.get("params", {})
        if what == "Page.loadEventFired":
            self.loaded = True
        elif what == "Runtime.exceptionThrown":
            self.said.append(how["exceptionDetails"].get("exception", {}).get("description", "an exception"))
        elif what == "Log.entryAdded":
            self.said.append(how["entry"]["text"])

    def ask(self, method, limit=120, **params):
        self.number += 1
        words = {"id": self.number, "method": method, "params": params}
        if self.session:
            words["sessionId"] = self.session
        os.write(self.to, json.dumps(words).encode() + b"\0")
        while True:
            message = self.message(limit)
            if message.get("id") == self.number:
                if "error" in message:
                    raise RuntimeError(f"{method}: {message['error']}")
                return message["result"]
            self.note(message)

    def open(self, path, asked=""):
        """Loads a file, and gives the seconds that it took."""
        start, self.loaded = time.monotonic(), False
        self.ask("Page.navigate", url="about:blank")
        self.settle(lambda: self.loaded)
        self.loaded, start = False, time.monotonic()
        self.ask("Page.navigate", url=f"file://{os.path.abspath(path)}{asked}")
        self.settle(lambda: self.loaded)
        return time.monotonic() - start

    def settle(self, done):
        while not done():
            self.note(self.message(120))

    def value(self, script):
        """What an expression is in the page, after the page had time to draw."""
        told = f"try {{ told({script}) }} catch (error) {{ failed(error) }}"
        drawn = f"new Promise((told, failed) => requestAnimationFrame(() => setTimeout(() => {{ {told} }})))"
        answer = self.ask("Runtime.evaluate", expression=drawn, awaitPromise=True, returnByValue=True)
        if "exceptionDetails" in answer:
            raise RuntimeError(answer["exceptionDetails"]["exception"]["description"])
        return answer["result"].get("value")

    def timed(self, script):
        """Runs a script, and gives the seconds until what it changed is drawn."""
        start = time.monotonic()
        self.value(f"(() => {{ {script} }})()")
        self.value("0")
        return time.monotonic() - start

    def picture(self, path):
        shot = self.ask("Page.captureScreenshot", format="png")
        with open(path, "wb") as file:
            file.write(base64.b64decode(shot["data"]))

    def close(self):
        try:
            self.ask("Browser.close", limit=20)
        except (EOFError, OSError, TimeoutError, RuntimeError):
            pass
        try:
            self.process.wait(20)
        except subprocess.TimeoutExpired:
            self.process.kill()
            self.process.wait()
        shutil.rmtree(self.profile, ignore_errors=True)
