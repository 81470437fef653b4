# Drives a headless Chromium, for view/test-workbench and view/make-workbench-picture.
import base64
import fcntl
import json
import os
import shutil
import subprocess
import time

NAMES = ("chromium", "chromium-browser", "google-chrome")
# So many seconds are waited for a page, which a busy machine may need.
PATIENCE = 180


def find_browser():
    """The path of a Chromium, or None where none is installed."""
    return next(filter(None, map(shutil.which, NAMES)), None)


class Browser:
    """A headless Chromium with one page, driven by the DevTools protocol over two pipes."""

    def __init__(self, path, work, width, height):
        self.number = 0
        self.pending = b""
        self.events = []
        theirs_in, ours_out = os.pipe()
        ours_in, theirs_out = os.pipe()
        command = [path, "--headless", "--no-sandbox", "--disable-gpu", "--disable-dev-shm-usage",
                   f"--window-size={width},{height}", f"--user-data-dir={work}/profile", "--remote-debugging-pipe",
                   "about:blank"]
        # The protocol is spoken over the descriptors 3 and 4. A shell puts the pipes there, from higher ones.
        high = [fcntl.fcntl(pipe, fcntl.F_DUPFD, 20) for pipe in (theirs_in, theirs_out)]
        shell = f'exec 3<&{high[0]} 4>&{high[1]} {high[0]}<&- {high[1]}>&-; exec "$@"'
        self.process = subprocess.Popen(["bash", "-c", shell, "bash", *command], pass_fds=high,
                                        stdout=subprocess.DEVNULL, stderr=subprocess.DEVNULL)
        for pipe in (theirs_in, theirs_out, *high):
            os.close(pipe)
        self.sender, self.receiver = os.fdopen(ours_out, "wb", 0), os.fdopen(ours_in, "rb", 0)
        [page] = [one for one in self.call("Target.getTargets")["targetInfos"] if one["type"] == "page"]
        self.session = self.call("Target.attachToTarget", targetId=page["targetId"], flatten=True)["sessionId"]
        for domain in ("Page", "Runtime", "Log", "DOM"):
            self.ask(f"{domain}.enable")

    def call(self, method, session=None, **words):
        return self.answer_to(method, self.send(method, session, **words))

    def send(self, method, session=None, **words):
        """Asks, and returns the number of the question."""
        self.number += 1
        message = {"id": self.number, "method": method, "params": words}
        self.sender.write(json.dumps({**message, "sessionId": session} if session else message).encode() + b"\0")
        return self.number

    def answer_to(self, method, number):
        """The answer to the question of this number; those to questions before it are passed over."""
        while True:
            answer = self.receive()
            if answer.get("id") == number:
                if "error" in answer:
                    raise RuntimeError(f"{method}: {answer['error']}")
                return answer["result"]
            if "method" in answer:
                self.events.append(answer)

    def receive(self):
        while b"\0" not in self.pending:
            piece = self.receiver.read(1 << 20)
            if not piece:
                raise RuntimeError("the browser has ended")
            self.pending += piece
        message, self.pending = self.pending.split(b"\0", 1)
        return json.loads(message)

    def ask(self, method, **words):
        return self.call(method, self.session, **words)

    def value(self, expression):
        answer = self.ask("Runtime.evaluate", expression=expression, returnByValue=True, awaitPromise=True)
        if "exceptionDetails" in answer:
            raise RuntimeError(f"{expression}: {answer['exceptionDetails']}")
        return answer["result"].get("value")

    def wait(self, expression):
        """Waits until the expression holds; it is answered whether it ever did."""
        end = time.monotonic() + PATIENCE
        while time.monotonic() < end:
            if self.value(f"Boolean({expression})"):
                return True
            time.sleep(0.05)
        print(f"waited in vain for {expression}")
        return False

    def text(self, selector):
        return self.value(f"(document.querySelector({json.dumps(selector)}) || {{}}).textContent")

    def click(self, selector):
        """Clicks on the middle of an element, with the mouse, once nothing lies over it."""
        place = ("(() => { const one = document.querySelector(%s); if (!one) { return null; } "
                 "one.scrollIntoView({ block: 'center', inline: 'nearest' }); "
                 "const box = one.getBoundingClientRect(); "
                 "const [x, y] = [box.x + box.width / 2, box.y + box.height / 2]; "
                 "return one.contains(document.elementFromPoint(x, y)) ? [x, y] : null; })()" % json.dumps(selector))
        if not self.wait(place):
            raise RuntimeError(f"there is no {selector}")
        box = self.value(place)
        for kind in ("mouseMoved", "mousePressed", "mouseReleased"):
            self.ask("Input.dispatchMouseEvent", type=kind, x=box[0], y=box[1], button="left", clickCount=1)

    def choose(self, selector, value):
        self.value(f"(() => {{ const one = document.querySelector({json.dumps(selector)}); one.value = "
                   f"{json.dumps(value)}; one.dispatchEvent(new Event('change', {{ bubbles: true }})); }})()")

    def key(self, key, code=0, modifiers=0, text=""):
        self.answer_to(key, self.press(key, code, modifiers, text))

    def press(self, key, code=0, modifiers=0, text=""):
        """Presses a key and lets it go; returns the number by which the answer is waited for."""
        method = "Input.dispatchKeyEvent"
        words = {"key": key, "windowsVirtualKeyCode": code, "modifiers": modifiers}
        self.send(method, self.session, type="keyDown", **words, **({"text": text} if text else {}))
        return self.send(method, self.session, type="keyUp", **words)

    def select_all(self):
        self.key("a", 65, modifiers=2)

    def type_text(self, text):
        """Types a text key by key. The editor begins a line as far to the right as the one before."""
        before = 0
        for place, line in enumerate(text.split("\n")):
            indent = len(line) - len(line.lstrip(" "))
            if place > 0:
                last = self.press("Enter", 13, text="\r")
                for _ in range(before - indent):
                    last = self.press("Backspace", 8)
            for character in line[before if indent > before else indent:]:
                last = self.press(character, text=character)
            self.answer_to("a key", last)
            before = indent

    def give(self, text):
        """Puts a text in place of what the editor in focus has."""
        self.select_all()
        self.ask("Input.insertText", text=text)

    def picture(self):
        """What is in sight, as a PNG."""
        return base64.b64decode(self.ask("Page.captureScreenshot", format="png")["data"])

    def faults(self):
        """What went wrong in the page so far, in its own words."""
        found = []
        for event in self.events:
            entry = event.get("params", {}).get("entry", {})
            if event["method"] == "Runtime.exceptionThrown":
                found.append(str(event["params"]["exceptionDetails"])[:300])
            elif event["method"] == "Log.entryAdded" and entry["level"] == "error":
                found.append(f"{entry['text']} {entry.get('url', '')}")
        return found

    def end(self):
        try:
            self.call("Browser.close")
            self.process.wait(20)
        except (RuntimeError, OSError, subprocess.TimeoutExpired):
            self.process.kill()
            self.process.wait()
