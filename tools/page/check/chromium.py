"""Drives a headless Chromium by messages over two pipes, with the standard library alone."""
import base64
import fcntl
import json
import os
import pathlib
import shutil
import subprocess
import tempfile

MISSING = "Chromium is not on the path: install it by `apt-get install chromium`"
FLAGS = ["--headless=new", "--no-sandbox", "--disable-gpu", "--disable-dev-shm-usage", "--disable-background-networking", "--no-first-run",
         "--hide-scrollbars", "--force-color-profile=srgb", "--remote-debugging-pipe"]
KEYS = {"Space": (" ", 32), "Backspace": ("Backspace", 8), "Tab": ("Tab", 9), "Enter": ("Enter", 13), "End": ("End", 35), "Home": ("Home", 36),
        "ArrowLeft": ("ArrowLeft", 37), "ArrowUp": ("ArrowUp", 38), "ArrowRight": ("ArrowRight", 39), "ArrowDown": ("ArrowDown", 40)}
# Held while other keys are pressed.
CONTROL = 2


class Chromium:
    """A browser with one page. `noted` has what the page complained of and `asked` which addresses it asked for, since `open`."""

    def __init__(self):
        if not shutil.which("chromium"):
            raise FileNotFoundError(MISSING)
        self.room = tempfile.TemporaryDirectory(prefix="sok-page-chromium-")
        theirs_in, ours_out = high(os.pipe())
        ours_in, theirs_out = high(os.pipe())
        self.running = subprocess.Popen(
            ["bash", "-c", f'exec "$@" 3<&{theirs_in} 4>&{theirs_out}', "bash", "chromium", *FLAGS, f"--user-data-dir={self.room.name}"],
            pass_fds=(theirs_in, theirs_out), stdin=subprocess.DEVNULL, stdout=subprocess.DEVNULL, stderr=subprocess.DEVNULL)
        os.close(theirs_in)
        os.close(theirs_out)
        self.out, self.source = os.fdopen(ours_out, "wb"), os.fdopen(ours_in, "rb")
        self.last, self.session, self.left = 0, None, b""
        self.noted, self.asked, self.events = [], [], []
        target = self.call("Target.createTarget", url="about:blank")["targetId"]
        self.session = self.call("Target.attachToTarget", targetId=target, flatten=True)["sessionId"]
        for domain in ("Page", "Runtime", "Log", "Network"):
            self.call(f"{domain}.enable")

    def __enter__(self):
        return self

    def __exit__(self, *_):
        self.session = None
        self.call("Browser.close")
        self.running.wait()
        self.out.close()
        self.source.close()
        self.room.cleanup()

    def receive(self):
        """The next message. What tells an event is noted as well."""
        while b"\0" not in self.left:
            piece = os.read(self.source.fileno(), 1 << 20)
            if not piece:
                raise RuntimeError("Chromium ended")
            self.left += piece
        message, _, self.left = self.left.partition(b"\0")
        message = json.loads(message)
        method, params = message.get("method"), message.get("params", {})
        self.events.append(method)
        if method == "Log.entryAdded":
            self.noted.append(params["entry"]["text"])
        elif method == "Runtime.exceptionThrown":
            self.noted.append(json.dumps(params["exceptionDetails"]))
        elif method == "Network.requestWillBeSent":
            self.asked.append(params["request"]["url"])
        return message

    def call(self, method, **params):
        self.last += 1
        message = {"id": self.last, "method": method, "params": params, **({"sessionId": self.session} if self.session else {})}
        self.out.write(json.dumps(message).encode() + b"\0")
        self.out.flush()
        while (message := self.receive()).get("id") != self.last:
            pass
        if "error" in message:
            raise RuntimeError(f"{method}: {message['error']}")
        return message["result"]

    def open(self, address):
        """Goes to an address, and waits until all of it is loaded and has run."""
        self.noted, self.asked, self.events = [], [], []
        self.call("Page.navigate", url=address)
        while "Page.loadEventFired" not in self.events:
            self.receive()

    def run(self, script):
        """The value of a script, which may be a promise of one."""
        done = self.call("Runtime.evaluate", expression=script, returnByValue=True, awaitPromise=True, userGesture=True)
        if "exceptionDetails" in done:
            raise RuntimeError(f"{script}: {done['exceptionDetails']}")
        return done["result"].get("value")

    def each(self, chosen, what):
        """What an expression says of `it`, for each element of a selector."""
        return self.run(f"[...document.querySelectorAll({json.dumps(chosen)})].map((it) => {what})")

    def text(self, chosen):
        """The text of the first element of a selector."""
        return self.each(chosen, "it.textContent")[0]

    def visible(self, chosen):
        """How many elements of a selector are seen."""
        return sum(self.each(chosen, "it.checkVisibility()"))

    def put(self, chosen, value):
        """Fills in a field, or ticks it."""
        field = "checked" if isinstance(value, bool) else "value"
        self.each(chosen, f"(it.{field} = {json.dumps(value)}, it.dispatchEvent(new Event('input', {{bubbles: true}})))")

    def press(self, *names, modifiers=0):
        """Presses keys as a keyboard does. One that is no name is a letter that is typed."""
        for name in names:
            key, code = KEYS.get(name, (name, ord(name[0].upper())))
            text = {"Space": " ", "Enter": "\r"}.get(name, "" if name in KEYS or modifiers else name)
            told = {"key": key, "code": name, "windowsVirtualKeyCode": code, "modifiers": modifiers}
            self.call("Input.dispatchKeyEvent", type="keyDown" if text else "rawKeyDown", **told, **({"text": text} if text else {}))
            self.call("Input.dispatchKeyEvent", type="keyUp", **told)

    def click(self, chosen):
        """Clicks into the middle of an element."""
        self.each(chosen, "it.scrollIntoView({block: 'center'})")
        x, y, width, height = self.each(chosen, "(({x, y, width, height}) => [x, y, width, height])(it.getBoundingClientRect())")[0]
        for kind in ("mousePressed", "mouseReleased"):
            self.call("Input.dispatchMouseEvent", type=kind, x=x + width / 2, y=y + height / 2, button="left", clickCount=1)

    def idle(self):
        """Waits until the page has done what it put off."""
        self.run("new Promise((done) => setTimeout(done))")

    def download(self, chosen, folder):
        """Clicks a link, and waits until its file is in a folder."""
        self.call("Browser.setDownloadBehavior", behavior="allow", downloadPath=str(folder), eventsEnabled=True)
        self.click(chosen)
        while self.receive().get("params", {}).get("state") != "completed":
            pass

    def look(self, width, height=900, dark=False, media=""):
        """Sets the size of the window, the colours that the system wants, and whether the page is for paper."""
        self.call("Emulation.setDeviceMetricsOverride", width=width, height=height, deviceScaleFactor=1, mobile=False)
        wanted = [{"name": "prefers-color-scheme", "value": "dark" if dark else "light"}]
        self.call("Emulation.setEmulatedMedia", media=media, features=wanted)

    def paper(self):
        """How many pages of paper the page takes."""
        return base64.b64decode(self.call("Page.printToPDF")["data"]).count(b"/Type /Page\n")

    def photograph(self, path, whole=False):
        """Writes a picture of what the window shows, or of the whole page, and returns its bytes."""
        picture = base64.b64decode(self.call("Page.captureScreenshot", format="png", captureBeyondViewport=whole)["data"])
        pathlib.Path(path).write_bytes(picture)
        return picture


def high(ends):
    """Both ends of a pipe at numbers that nothing else is given, 3 and 4 least of all."""
    moved = [fcntl.fcntl(end, fcntl.F_DUPFD_CLOEXEC, 10) for end in ends]
    for end in ends:
        os.close(end)
    return moved
