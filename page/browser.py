"""A headless Chromium that is told what to do by messages over two pipes, so that no library is needed."""

import base64
import json
import os
import select
import shutil
import subprocess
import tempfile
import time


class Browser:
    """A browser with one page open."""

    def __init__(self, width=1400, height=1000):
        self.profile = tempfile.mkdtemp(prefix="chi-page-")
        read_in, self.write_to = os.pipe()
        self.read_from, write_out = os.pipe()
        command = ["chromium", "--headless=new", "--no-sandbox", "--remote-debugging-pipe", "--disable-gpu", "--no-first-run",
                   "--disable-dev-shm-usage", f"--user-data-dir={self.profile}", f"--window-size={width},{height}", "about:blank"]
        # Chromium reads messages from descriptor 3 and writes them to descriptor 4.
        shell = ["sh", "-c", f'exec "$@" 3<&{read_in} 4>&{write_out}', "sh", *command]
        self.process = subprocess.Popen(shell, pass_fds=(read_in, write_out), stdin=subprocess.DEVNULL, stdout=subprocess.DEVNULL, stderr=subprocess.DEVNULL)
        os.close(read_in)
        os.close(write_out)
        self.count, self.left, self.events, self.session = 0, b"", [], None
        target = next(it for it in self.send("Target.getTargets")["targetInfos"] if it["type"] == "page")
        self.session = self.send("Target.attachToTarget", targetId=target["targetId"], flatten=True)["sessionId"]
        for domain in ("Page", "Runtime", "Log", "Network"):
            self.send(f"{domain}.enable")

    def message(self, seconds):
        """The next message of the browser."""
        limit = time.monotonic() + seconds
        while b"\0" not in self.left:
            if not select.select([self.read_from], [], [], max(limit - time.monotonic(), 0))[0]:
                raise TimeoutError("the browser does not answer")
            part = os.read(self.read_from, 1 << 20)
            if not part:
                raise EOFError("the browser has ended")
            self.left += part
        text, _, self.left = self.left.partition(b"\0")
        return json.loads(text)

    def send(self, method, **params):
        """What the browser answers to a command; what it tells meanwhile is kept."""
        self.count += 1
        command = {"id": self.count, "method": method, "params": params}
        if self.session:
            command["sessionId"] = self.session
        os.write(self.write_to, json.dumps(command).encode() + b"\0")
        while True:
            message = self.message(60)
            if message.get("id") == self.count:
                if "error" in message:
                    raise RuntimeError(f"{method}: {message['error']}")
                return message["result"]
            self.events.append(message)

    def open(self, path):
        """Opens a page, and answers after how many seconds it was drawn."""
        self.events, began = [], time.monotonic()
        self.send("Page.navigate", url=f"file://{os.path.abspath(path)}")
        while not any(it.get("method") == "Page.loadEventFired" for it in self.events):
            self.events.append(self.message(60))
        self.value("new Promise((done) => requestAnimationFrame(() => setTimeout(done, 0)))")
        return time.monotonic() - began

    def value(self, script):
        """The value of an expression in the page."""
        answer = self.send("Runtime.evaluate", expression=script, returnByValue=True, awaitPromise=True)
        if "exceptionDetails" in answer:
            raise RuntimeError(answer["exceptionDetails"]["exception"].get("description"))
        return answer["result"].get("value")

    def key(self, key, text=None):
        """Presses a key."""
        codes = {"Enter": 13, "Tab": 9, "ArrowLeft": 37, "ArrowUp": 38, "ArrowRight": 39, "ArrowDown": 40}
        code = codes.get(key, 0)
        down = {"type": "keyDown" if text else "rawKeyDown", "key": key, "windowsVirtualKeyCode": code}
        if text:
            down["text"] = text
        self.send("Input.dispatchKeyEvent", **down)
        self.send("Input.dispatchKeyEvent", type="keyUp", key=key, windowsVirtualKeyCode=code)

    def mouse(self, kind, x, y, **more):
        """Moves or presses the mouse, or turns its wheel."""
        self.send("Input.dispatchMouseEvent", type=kind, x=x, y=y, **more)

    def complaints(self):
        """What the page said in the console, and what it tried to load beside itself."""
        said = [it for it in self.events if it.get("method") in ("Runtime.consoleAPICalled", "Runtime.exceptionThrown", "Log.entryAdded")]
        asked = [it["params"]["request"]["url"] for it in self.events if it.get("method") == "Network.requestWillBeSent"]
        return said + asked[1:]

    def screenshot(self, path):
        """Writes a picture of the page."""
        with open(path, "wb") as to:
            to.write(base64.b64decode(self.send("Page.captureScreenshot", format="png")["data"]))

    def pdf(self):
        """The page as it is printed."""
        return base64.b64decode(self.send("Page.printToPDF", landscape=True)["data"])

    def close(self):
        """Ends the browser."""
        self.session = None
        try:
            self.send("Browser.close")
        except EOFError:
            pass
        self.process.wait(timeout=20)
        shutil.rmtree(self.profile, ignore_errors=True)
