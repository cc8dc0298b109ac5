"""A browser without a window, driven over a pipe by the DevTools protocol of Chromium, with Python alone."""
import base64
import contextlib
import json
import os
import pathlib
import shutil
import subprocess
import tempfile
import time

NAMES = ("chromium", "chromium-browser", "google-chrome", "google-chrome-stable", "chrome")
OPTIONS = ("--headless=new", "--remote-debugging-pipe", "--disable-gpu", "--disable-dev-shm-usage", "--hide-scrollbars",
           "--no-first-run")
# How long the browser may take for an answer, in seconds.
LIMIT = 60
# What a key is to the browser where it isn't a letter: its code, and the text that it types.
KEYS = {
    "Enter": (13, "\r"), "Escape": (27, ""), "Delete": (46, ""), "Tab": (9, ""), "Home": (36, ""), "End": (35, ""),
    "ArrowLeft": (37, ""), "ArrowUp": (38, ""), "ArrowRight": (39, ""), "ArrowDown": (40, ""),
}


def found():
    """The browser of this machine, or None."""
    return next(filter(None, map(shutil.which, NAMES)), None)


class Browser:
    """One browser with one page. What goes wrong on the page is in `complaints`."""

    def __init__(self, path, width=1000, height=760):
        self.folder = tempfile.mkdtemp(prefix="page-")
        read_there, write = os.pipe()
        read, write_there = os.pipe()
        words = [path, *OPTIONS, f"--user-data-dir={self.folder}", *(["--no-sandbox"] if os.geteuid() == 0 else [])]
        shell = f'exec "$@" 3<&{read_there} 4>&{write_there}'
        there = read_there, write_there
        self.process = subprocess.Popen(["bash", "-c", shell, "bash", *words, "about:blank"], pass_fds=there,
                                        stdout=subprocess.DEVNULL, stderr=subprocess.DEVNULL)
        for end in there:
            os.close(end)
        self.reader, self.writer = os.fdopen(read, "rb", 0), os.fdopen(write, "wb", 0)
        self.buffer, self.number, self.session = b"", 0, None
        self.complaints = []
        target = next(each for each in self.ask("Target.getTargets")["targetInfos"] if each["type"] == "page")
        self.session = self.ask("Target.attachToTarget", targetId=target["targetId"], flatten=True)["sessionId"]
        for domain in ("Page", "Runtime", "Log"):
            self.ask(f"{domain}.enable")
        self.resize(width, height)

    def close(self):
        with contextlib.suppress(OSError):
            self.writer.close()
        try:
            self.process.wait(10)
        except subprocess.TimeoutExpired:
            self.process.kill()
            self.process.wait()
        self.reader.close()
        shutil.rmtree(self.folder, ignore_errors=True)

    def ask(self, method, **parameters):
        self.number += 1
        message = {"id": self.number, "method": method, "params": parameters}
        message |= {"sessionId": self.session} if self.session else {}
        self.writer.write(json.dumps(message).encode() + b"\0")
        end = time.monotonic() + LIMIT
        while time.monotonic() < end:
            answer = self.message()
            if answer.get("id") == self.number:
                if "error" in answer:
                    raise RuntimeError(f"{method}: {answer['error']}")
                return answer["result"]
            self.note(answer)
        raise RuntimeError(f"the browser doesn't answer {method}")

    def message(self):
        while b"\0" not in self.buffer:
            came = os.read(self.reader.fileno(), 1 << 20)
            if not came:
                raise RuntimeError("the browser has ended")
            self.buffer += came
        text, _, self.buffer = self.buffer.partition(b"\0")
        return json.loads(text)

    def note(self, event):
        """Keeps what says that something is wrong."""
        given = event.get("params", {})
        entry = given.get("entry", {})
        if entry.get("level") in ("error", "warning"):
            self.complaints.append(f"{entry['source']}: {entry['text']} {entry.get('url', '')}")
        elif event.get("method") == "Runtime.exceptionThrown":
            details = given["exceptionDetails"]
            self.complaints.append(f"exception: {details.get('exception', {}).get('description', details['text'])}")
        elif event.get("method") == "Runtime.consoleAPICalled" and given["type"] in ("error", "warning", "assert"):
            self.complaints.append(f"console: {given['args']}")

    def go(self, address):
        self.ask("Page.navigate", url=address)

    def run(self, expression):
        """What an expression of the page's language is, as Python reads its JSON."""
        answer = self.ask("Runtime.evaluate", expression=expression, returnByValue=True, awaitPromise=True)
        if "exceptionDetails" in answer:
            raise RuntimeError(f"{expression}: {answer['exceptionDetails']}")
        return answer["result"].get("value")

    def press(self, *keys):
        """Presses keys, by their names or as the letters that they type."""
        for key in keys:
            code, text = KEYS.get(key, (0, key))
            given = {"key": key, "windowsVirtualKeyCode": code} | ({"text": text} if text else {})
            self.ask("Input.dispatchKeyEvent", type="keyDown", **given)
            self.ask("Input.dispatchKeyEvent", type="keyUp", key=key, windowsVirtualKeyCode=code)

    def type(self, text):
        self.ask("Input.insertText", text=text)

    def click(self, element):
        """Clicks in the middle of the element that an expression is."""
        place = self.run(f"(() => {{ const it = {element}; it.scrollIntoView({{block: 'center'}});"
                         " const box = it.getBoundingClientRect();"
                         " return [box.x + box.width / 2, box.y + box.height / 2]; })()")
        for kind in ("mouseMoved", "mousePressed", "mouseReleased"):
            self.ask("Input.dispatchMouseEvent", type=kind, x=place[0], y=place[1], button="left", clickCount=1)

    def resize(self, width, height, is_dark=False):
        metrics = {"width": width, "height": height, "deviceScaleFactor": 1, "mobile": width < 600}
        self.ask("Emulation.setDeviceMetricsOverride", **metrics)
        scheme = {"name": "prefers-color-scheme", "value": "dark" if is_dark else "light"}
        self.ask("Emulation.setEmulatedMedia", features=[scheme, {"name": "hover", "value": "hover"}])

    @contextlib.contextmanager
    def begun_with(self, script):
        """Meanwhile each page runs this before its own script."""
        begun = self.ask("Page.addScriptToEvaluateOnNewDocument", source=script)
        yield
        self.ask("Page.removeScriptToEvaluateOnNewDocument", **begun)

    def save_in(self, folder):
        """Lets what is saved from now on go to this folder."""
        self.ask("Browser.setDownloadBehavior", behavior="allow", downloadPath=str(folder))

    def shoot(self, path):
        """Leaves what the page looks like as a PNG."""
        pathlib.Path(path).write_bytes(base64.b64decode(self.ask("Page.captureScreenshot", format="png")["data"]))
