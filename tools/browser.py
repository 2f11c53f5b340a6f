"""A headless Chromium that tools drive by its debugging protocol, over two pipes."""
import base64
import json
import os
import shutil
import signal
import subprocess
import tempfile
import time

# The names that Chromium has on Linux.
NAMES = ("chromium", "chromium-browser", "google-chrome", "google-chrome-stable")
MISSING = "a Chromium from version 133 on is not on PATH: on Debian and Ubuntu, `apt-get install chromium` installs it"
OPTIONS = ("--headless=new", "--no-sandbox", "--disable-gpu", "--no-first-run", "--disable-background-networking", "--disable-component-update",
           "--disable-sync", "--remote-debugging-pipe")


class Broken(Exception):
    """The browser did not do what it was asked to."""


def name():
    """The command of the browser, or None."""
    asked = os.environ.get("CHROMIUM")
    return next((found for found in ([asked] if asked else NAMES) if shutil.which(found)), None)


class Browser:
    """A browser with one page. `requests` are the addresses that it asked for, `errors` what was logged as an error or thrown."""

    def __init__(self, width=1400, height=1000):
        self.profile = tempfile.mkdtemp(prefix="a429-page-")
        self.requests, self.errors, self.answers, self.last, self.rest = [], [], {}, 0, b""
        to_read, self.to = os.pipe()
        self.at, from_write = os.pipe()

        def take_pipes():
            # the browser reads from 3 and writes to 4; the copies are out of the way of both
            read, write = os.dup(to_read), os.dup(from_write)
            os.dup2(read, 3)
            os.dup2(write, 4)

        words = [name(), *OPTIONS, f"--user-data-dir={self.profile}", f"--window-size={width},{height}", "about:blank"]
        self.running = subprocess.Popen(words, stdin=subprocess.DEVNULL, stdout=subprocess.DEVNULL, stderr=subprocess.DEVNULL, close_fds=False,
                                        preexec_fn=take_pipes, start_new_session=True)
        os.close(to_read)
        os.close(from_write)
        targets = self.ask("Target.getTargets")["targetInfos"]
        page = next(target["targetId"] for target in targets if target["type"] == "page")
        self.session = self.ask("Target.attachToTarget", targetId=page, flatten=True)["sessionId"]
        for domain in ("Page", "Runtime", "Log", "Network", "DOM"):
            self.do(domain + ".enable")

    # ---- Messages

    def send(self, method, session, values):
        self.last += 1
        message = {"id": self.last, "method": method, "params": values, **({"sessionId": session} if session else {})}
        data = json.dumps(message).encode() + b"\0"
        while data:
            data = data[os.write(self.to, data):]
        return self.last

    def receive(self):
        """Takes the next message: an answer is kept, an event is noted."""
        while b"\0" not in self.rest:
            piece = os.read(self.at, 1 << 20)
            if not piece:
                raise Broken("the browser ended")
            self.rest += piece
        data, _, self.rest = self.rest.partition(b"\0")
        message = json.loads(data)
        if "id" in message:
            self.answers[message["id"]] = message
        else:
            self.note(message["method"], message["params"])

    def note(self, method, values):
        if method == "Network.requestWillBeSent":
            self.requests.append(values["request"]["url"])
        elif method == "Runtime.exceptionThrown":
            details = values["exceptionDetails"]
            self.errors.append(details.get("exception", {}).get("description") or details["text"])
        elif method == "Log.entryAdded" and values["entry"]["level"] == "error":
            self.errors.append(values["entry"]["text"])
        elif method == "Runtime.consoleAPICalled" and values["type"] in ("error", "assert"):
            self.errors.append(" ".join(str(part.get("value", part.get("description"))) for part in values["args"]))

    def ask(self, method, session=None, **values):
        asked = self.send(method, session, values)
        while asked not in self.answers:
            self.receive()
        answer = self.answers.pop(asked)
        if "error" in answer:
            raise Broken(f"{method}: {answer['error']['message']}")
        return answer["result"]

    def do(self, method, **values):
        return self.ask(method, self.session, **values)

    # ---- What tools do with it

    def open(self, file):
        self.do("Page.navigate", url="file://" + os.path.abspath(file))

    def value(self, expression):
        """The value of an expression in the page; of a promise, what it gives."""
        said = self.do("Runtime.evaluate", expression=expression, awaitPromise=True, returnByValue=True)
        if "exceptionDetails" in said:
            raise Broken(said["exceptionDetails"].get("exception", {}).get("description") or said["exceptionDetails"]["text"])
        return said["result"].get("value")

    def wait_until(self, expression, seconds=120):
        end = time.monotonic() + seconds
        while not self.value(expression):
            if time.monotonic() > end:
                raise Broken(f"after {seconds} seconds this is not so: {expression}")
            time.sleep(0.05)

    def choose(self, selector, files):
        """Chooses files in an input of the page."""
        root = self.do("DOM.getDocument")["root"]["nodeId"]
        found = self.do("DOM.querySelector", nodeId=root, selector=selector)["nodeId"]
        self.do("DOM.setFileInputFiles", nodeId=found, files=[os.path.abspath(file) for file in files])

    def drop(self, paths):
        """Drops files or folders on the page."""
        data = {"items": [], "files": [os.path.abspath(path) for path in paths], "dragOperationsMask": 1}
        for kind in ("dragEnter", "dragOver", "drop"):
            self.do("Input.dispatchDragEvent", type=kind, x=100, y=120, data=data)

    def use_dark(self, is_dark):
        self.do("Emulation.setEmulatedMedia", features=[{"name": "prefers-color-scheme", "value": "dark" if is_dark else "light"}])

    def picture(self, file, height=None):
        """Writes what the page shows as a PNG."""
        clip = {}
        if height:
            width = self.value("innerWidth")
            clip = {"clip": {"x": 0, "y": 0, "width": width, "height": height, "scale": 1}}
        data = self.do("Page.captureScreenshot", format="png", **clip)["data"]
        with open(file, "wb") as opened:
            opened.write(base64.b64decode(data))

    def end(self):
        try:
            self.send("Browser.close", None, {})
            self.running.wait(10)
        except (OSError, subprocess.TimeoutExpired):
            os.killpg(self.running.pid, signal.SIGKILL)
            self.running.wait()
        os.close(self.to)
        os.close(self.at)
        shutil.rmtree(self.profile, ignore_errors=True)

    def __enter__(self):
        return self

    def __exit__(self, *_):
        self.end()
