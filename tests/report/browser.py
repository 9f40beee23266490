"""A browser without a window, spoken to over the DevTools protocol on two pipes. Clicks, keys and text are events of the browser, as
a person's are; everything that it logs is kept."""

import base64
import json
import os
import select
import shutil
import subprocess
import tempfile
import time

KEYS = {
    "Tab": 9, "Enter": 13, "Escape": 27, "Space": 32, "PageUp": 33, "PageDown": 34, "End": 35, "Home": 36,
    "ArrowLeft": 37, "ArrowUp": 38, "ArrowRight": 39, "ArrowDown": 40,
}
TYPED = {"Enter": "\r", "Space": " "}
PATIENCE = 60


def find():
    """The browser's command, or nothing."""
    return shutil.which("chromium")


class Browser:
    def __init__(self, command):
        self.home = tempfile.TemporaryDirectory()
        to_browser, self.out = os.pipe()
        self.incoming, from_browser = os.pipe()

        def pipes():
            # The browser listens on 3 and answers on 4; neither end may be one of these already.
            there, back = os.dup(to_browser), os.dup(from_browser)
            os.dup2(there, 3)
            os.dup2(back, 4)

        words = [
            command, "--headless=new", "--remote-debugging-pipe", f"--user-data-dir={self.home.name}", "--no-first-run",
            "--disable-gpu", "--disable-dev-shm-usage", "--hide-scrollbars", "--force-color-profile=srgb", "--disable-background-networking",
        ]
        if os.geteuid() == 0:
            words.append("--no-sandbox")  # it refuses to run as root with one
        self.process = subprocess.Popen(
            words, preexec_fn=pipes, close_fds=False, stdout=subprocess.DEVNULL, stderr=subprocess.DEVNULL)
        os.close(to_browser)
        os.close(from_browser)
        self.buffer, self.number, self.events = b"", 0, []
        target = self.send("Target.createTarget", url="about:blank")["targetId"]
        self.session = self.send("Target.attachToTarget", targetId=target, flatten=True)["sessionId"]
        for domain in ("Page", "Runtime", "Log", "Network"):
            self.send(f"{domain}.enable")

    def send(self, method, **params):
        self.number += 1
        message = {"id": self.number, "method": method, "params": params}
        if getattr(self, "session", None):
            message["sessionId"] = self.session
        os.write(self.out, json.dumps(message).encode() + b"\0")
        while True:
            answer = self.receive(PATIENCE)
            if answer.get("id") == self.number:
                if "error" in answer:
                    raise RuntimeError(f"{method}: {answer['error']}")
                return answer["result"]
            self.events.append(answer)

    def receive(self, patience):
        end = time.monotonic() + patience
        while b"\0" not in self.buffer:
            if not select.select([self.incoming], [], [], max(0, end - time.monotonic()))[0]:
                raise TimeoutError("the browser does not answer")
            read = os.read(self.incoming, 1 << 20)
            if not read:
                raise RuntimeError("the browser has ended")
            self.buffer += read
        message, self.buffer = self.buffer.split(b"\0", 1)
        return json.loads(message)

    def close(self):
        try:
            del self.session
            self.send("Browser.close")
        except (AttributeError, OSError, RuntimeError, TimeoutError):
            self.process.kill()
        self.process.wait()
        self.home.cleanup()

    # ---- Pages

    def open(self, url):
        """Opens a page and waits until it is there; what was logged before is forgotten."""
        self.events.clear()
        self.send("Page.navigate", url=url)
        self.wait(lambda: any(event.get("method") == "Page.loadEventFired" for event in self.events), "the page to load")

    def wait(self, done, what):
        end = time.monotonic() + PATIENCE
        while not done():
            if time.monotonic() > end:
                raise TimeoutError(f"waited in vain for {what}")
            self.evaluate("0")
            time.sleep(0.01)

    def evaluate(self, expression):
        """What an expression gives in the page; a promise is waited for."""
        answer = self.send("Runtime.evaluate", expression=expression, returnByValue=True, awaitPromise=True)
        if "exceptionDetails" in answer:
            raise RuntimeError(f"{expression}: {answer['exceptionDetails']}")
        return answer["result"].get("value")

    def frame(self):
        """Until what was changed is drawn."""
        self.evaluate("new Promise((done) => requestAnimationFrame(() => requestAnimationFrame(() => done(0))))")

    def complaints(self):
        """All that the page logged as an error or a warning, and what it threw."""
        told = []
        for event in self.events:
            params = event.get("params", {})
            if event.get("method") == "Runtime.exceptionThrown":
                told.append(params["exceptionDetails"].get("exception", {}).get("description", "an exception"))
            if event.get("method") == "Runtime.consoleAPICalled" and params["type"] in ("error", "warning", "assert"):
                told.append(str(params["args"]))
            if event.get("method") == "Log.entryAdded" and params["entry"]["level"] in ("error", "warning"):
                told.append(params["entry"]["text"])
        return told

    def requests(self):
        """The addresses that the page asked for."""
        sent = (event["params"] for event in self.events if event.get("method") == "Network.requestWillBeSent")
        return [params["request"]["url"] for params in sent]

    # ---- A person's hands

    def click(self, selector, nth=0):
        self.click_on(f"document.querySelectorAll({json.dumps(selector)})[{nth}]")

    def click_on(self, found):
        """Moves to the middle of the element that an expression gives, once it stands still, and clicks it: nothing may cover it."""
        before = None
        while before != (place := self.place(found)):
            before = place
        x, y, covered = place
        assert not covered, f"{found} is covered"
        for kind, buttons in (("mouseMoved", 0), ("mousePressed", 1), ("mouseReleased", 0)):
            self.send("Input.dispatchMouseEvent", type=kind, x=x, y=y, button="left", buttons=buttons, clickCount=1)
        self.frame()

    def place(self, found):
        """Brings an element into the window, and says where its middle is and whether something else is there."""
        self.evaluate(f"{found}.scrollIntoView({{block: 'center'}})")
        self.frame()
        return self.evaluate(f"""(() => {{
          const [element, box] = [{found}, {found}.getBoundingClientRect()];
          const [x, y] = [box.left + box.width / 2, box.top + box.height / 2];
          return [x, y, !element.contains(document.elementFromPoint(x, y))];
        }})()""")

    def press(self, key, times=1, **more):
        for _ in range(times):
            named = {"key": " " if key == "Space" else key, "code": key, "windowsVirtualKeyCode": KEYS.get(key, ord(key[0].upper()))}
            text = TYPED.get(key, key if len(key) == 1 else "")
            self.send("Input.dispatchKeyEvent", type="keyDown" if text else "rawKeyDown", text=text, **named, **more)
            self.send("Input.dispatchKeyEvent", type="keyUp", **named, **more)
        self.frame()

    def type(self, text):
        for letter in text:
            self.send("Input.dispatchKeyEvent", type="char", text=letter)
        self.frame()

    # ---- Looks

    def look(self, width=1280, height=900, scheme="light", media="screen", scale=1):
        self.send("Emulation.setDeviceMetricsOverride", width=width, height=height, deviceScaleFactor=scale, mobile=False)
        features = [{"name": "prefers-color-scheme", "value": scheme}]
        self.send("Emulation.setEmulatedMedia", media=media, features=features)
        self.frame()

    def picture(self, path):
        shot = self.send("Page.captureScreenshot", format="png")
        path.write_bytes(base64.b64decode(shot["data"]))

    def paper(self):
        """The page as it is printed, with colours only where it insists on them: a PDF."""
        self.send("Emulation.setEmulatedMedia", media="")
        return base64.b64decode(self.send("Page.printToPDF", printBackground=False)["data"])
