"""A headless Chromium, driven over its debugging pipe by the standard library alone."""
import base64
import json
import os
import select
import shutil
import subprocess
import tempfile
import time

PATIENCE = 60  # seconds for an answer of the browser


class BrowserFault(Exception):
    """What the browser or the page did not do."""


class Browser:
    """One tab. `complaints` has what the page said of errors and of what its policy blocked."""

    def __init__(self, program, size=(1400, 900), dark=False):
        self.home = tempfile.mkdtemp(prefix="board-")
        words = [
            program, "--headless=new", "--remote-debugging-pipe", "--no-first-run", "--disable-gpu", "--disable-dev-shm-usage",
            "--disable-extensions", "--disable-background-networking", f"--user-data-dir={self.home}",
            f"--window-size={size[0]},{size[1]}", "about:blank",
        ]
        if os.geteuid() == 0:
            words.insert(1, "--no-sandbox")
        # Chromium reads commands on descriptor 3 and writes answers on 4.
        commands, answers = os.pipe(), os.pipe()

        def wires():
            os.dup2(commands[0], 13)
            os.dup2(answers[1], 14)
            os.dup2(13, 3)
            os.dup2(14, 4)

        quiet = subprocess.DEVNULL
        self.process = subprocess.Popen(words, preexec_fn=wires, close_fds=False, stdin=quiet, stdout=quiet, stderr=quiet)
        os.close(commands[0])
        os.close(answers[1])
        self.commands, self.answers, self.rest = commands[1], answers[0], b""
        self.number, self.session, self.complaints = 0, None, []
        page = next(it for it in self.do("Target.getTargets")["targetInfos"] if it["type"] == "page")
        self.session = self.do("Target.attachToTarget", targetId=page["targetId"], flatten=True)["sessionId"]
        for domain in ("Page", "Runtime", "Log", "Network"):
            self.do(domain + ".enable")
        self.set_size(*size)
        if dark:
            self.do("Emulation.setEmulatedMedia", features=[{"name": "prefers-color-scheme", "value": "dark"}])

    def set_size(self, width, height, scale=1):
        phone = width < 600
        self.do("Emulation.setDeviceMetricsOverride", width=width, height=height, deviceScaleFactor=scale, mobile=phone)

    def do(self, method, **words):
        """The result of a command of the debugging protocol."""
        self.number += 1
        message = {"id": self.number, "method": method, "params": words} | ({"sessionId": self.session} if self.session else {})
        os.write(self.commands, json.dumps(message).encode() + b"\0")
        end = time.monotonic() + PATIENCE
        while True:
            answer = self.read(end)
            if answer.get("id") == self.number:
                if "error" in answer:
                    raise BrowserFault(f"{method}: {answer['error']['message']}")
                return answer["result"]
            self.note(answer)

    def read(self, end):
        while b"\0" not in self.rest:
            if not select.select([self.answers], [], [], max(0, end - time.monotonic()))[0]:
                raise BrowserFault(f"chromium has not answered within {PATIENCE} s")
            got = os.read(self.answers, 1 << 20)
            if not got:
                raise BrowserFault("chromium has ended")
            self.rest += got
        text, self.rest = self.rest.split(b"\0", 1)
        return json.loads(text)

    def note(self, event):
        """Keeps what the page complains of: errors of its script, of its console, and what was blocked or failed."""
        said = event.get("params", {})
        if event.get("method") == "Runtime.exceptionThrown":
            self.complaints.append(said["exceptionDetails"].get("exception", {}).get("description", "exception"))
        if event.get("method") == "Runtime.consoleAPICalled" and said["type"] in ("error", "warning", "assert"):
            self.complaints.append(" ".join(str(it.get("value", it.get("description"))) for it in said["args"]))
        if event.get("method") == "Log.entryAdded" and said["entry"]["level"] in ("error", "warning"):
            self.complaints.append(f"{said['entry']['text']} {said['entry'].get('url', '')}".strip())
        if event.get("method") == "Network.loadingFailed" and said.get("blockedReason"):
            self.complaints.append(f"blocked: {said['blockedReason']} {said['type']}")

    def value(self, expression):
        """The value of an expression of the page. An element has none: ask for Boolean(..) or a text."""
        got = self.do("Runtime.evaluate", expression=expression, returnByValue=True, awaitPromise=True, userGesture=True)
        if "exceptionDetails" in got:
            said = got["exceptionDetails"]
            raise BrowserFault(f"{expression}: {said.get('exception', {}).get('description', said['text'])}")
        return got["result"].get("value")

    def wait(self, expression, seconds=20):
        """Waits until the expression holds. Gives the seconds that it took."""
        begin = time.monotonic()
        while not self.value(f"Boolean({expression})"):
            if time.monotonic() > begin + seconds:
                raise BrowserFault(f"not within {seconds} s: {expression}; the page: {self.value('document.body.innerText')[:300]!r}")
            time.sleep(0.02)
        return time.monotonic() - begin

    def go(self, url):
        self.do("Page.navigate", url=url)
        self.wait("document.readyState === 'complete' && document.body?.dataset.ready === 'yes'", 60)

    def press(self, key, code=0, text=None):
        for kind in ("keyDown", "keyUp"):
            more = {"text": text} if text and kind == "keyDown" else {}
            self.do("Input.dispatchKeyEvent", type=kind, key=key, code=key, windowsVirtualKeyCode=code, **more)

    def write(self, text):
        self.do("Input.insertText", text=text)

    def picture(self, path, whole=False):
        """A picture of what is seen, or of the whole page."""
        got = self.do("Page.captureScreenshot", format="png", captureBeyondViewport=whole)
        path.write_bytes(base64.b64decode(got["data"]))

    def print(self):
        """The page as PDF."""
        return base64.b64decode(self.do("Page.printToPDF", printBackground=True, preferCSSPageSize=True)["data"])

    def end(self):
        try:
            self.session = None
            self.do("Browser.close")
        except (BrowserFault, OSError):
            pass
        try:
            self.process.wait(20)
        except subprocess.TimeoutExpired:
            self.process.kill()
            self.process.wait()
        os.close(self.commands)
        os.close(self.answers)
        shutil.rmtree(self.home, ignore_errors=True)
