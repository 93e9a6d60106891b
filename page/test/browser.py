"""A real Chromium over its debugging pipe. It needs Debian's chromium and bash, and nothing else but Python."""

import base64
import json
import os
import pathlib
import re
import select
import shutil
import subprocess
import tempfile
import time
import urllib.request

SWITCHES = """--headless=new --no-first-run --disable-background-networking --disable-component-update --disable-sync
--metrics-recording-only --disable-gpu --disable-dev-shm-usage --no-proxy-server --enable-precise-memory-info
--js-flags=--expose-gc""".split() + (["--no-sandbox"] if os.getuid() == 0 else [])
DOMAINS = "Page", "Runtime", "Network", "Log", "DOM", "Accessibility", "Performance"
CODES = {"Tab": 9, "Enter": 13, "Escape": 27, " ": 32, "Delete": 46}
# The bundle of Lighthouse in Chromium's own developer tools has axe-core as a text.
BUNDLE = "devtools/third_party/lighthouse/lighthouse-dt-bundle.js"


class Failed(Exception):
    """The page is not as it has to be."""


def program():
    """Chromium, or None."""
    return shutil.which("chromium") or shutil.which("chromium-browser")


def remove(folder):
    """Takes a browser's folder away; its helpers write into it for a moment when it has ended."""
    for _ in range(30):
        shutil.rmtree(folder, ignore_errors=True)
        if not os.path.exists(folder):
            return
        time.sleep(0.1)


class Browser:
    """One Chromium with one page. `events` has what it told, from the start."""

    def __init__(self, seconds=20, size=(1280, 900)):
        self.seconds, self.events, self.number, self.rest = seconds, [], 0, b""
        self.home, self.session = tempfile.mkdtemp(prefix="sandesk-page-"), None
        theirs, self.out = os.pipe()
        self.come, ours = os.pipe()
        words = [program(), "--remote-debugging-pipe", f"--user-data-dir={self.home}", f"--window-size={size[0]},{size[1]}"]
        # bash, since it takes descriptors of any number in `3<&..`.
        self.process = subprocess.Popen(
            ["bash", "-c", f'exec "$@" 3<&{theirs} 4>&{ours}', "bash", *words, *SWITCHES, "about:blank"],
            pass_fds=(theirs, ours), stdin=subprocess.DEVNULL, stdout=subprocess.DEVNULL, stderr=subprocess.DEVNULL)
        os.close(theirs)
        os.close(ours)
        try:
            self.attach()
        except BaseException:
            self.close()
            raise

    def attach(self):
        """Goes to the one page that the browser has."""
        targets = self.call("Target.getTargets")["targetInfos"]
        target = next(one["targetId"] for one in targets if one["type"] == "page")
        self.session = self.call("Target.attachToTarget", targetId=target, flatten=True)["sessionId"]
        for domain in DOMAINS:
            self.call(f"{domain}.enable")
        self.call("Browser.setDownloadBehavior", behavior="allow", downloadPath=self.home)

    def close(self):
        """Ends this browser and takes its folder away."""
        try:
            self.send("Browser.close", {})
            self.process.wait(20)
        except (subprocess.TimeoutExpired, OSError):
            self.process.kill()
            self.process.wait()
        os.close(self.out)
        os.close(self.come)
        remove(self.home)

    # ---- the debugging protocol

    def send(self, method, parameters):
        """Sends a call, and gives its number."""
        self.number += 1
        message = {"id": self.number, "method": method, "params": parameters}
        if self.session and not method.startswith(("Target.", "Browser.")):
            message["sessionId"] = self.session
        data = json.dumps(message).encode() + b"\0"
        while data:
            data = data[os.write(self.out, data):]
        return self.number

    def call(self, method, **parameters):
        """A call and its result. A page that asks whether it may be left is answered with yes meanwhile."""
        wanted, until = self.send(method, parameters), time.time() + max(120, 3 * self.seconds)
        while time.time() < until:
            for told in self.heard():
                if told.get("id") == wanted:
                    if "error" in told:
                        raise Failed(f"{method}: {told['error']}")
                    return told["result"]
                self.events.append(told)
                if told.get("method") == "Page.javascriptDialogOpening":
                    self.send("Page.handleJavaScriptDialog", {"accept": True})
        raise Failed(f"{method}: no answer")

    def heard(self):
        """The messages that come within a second."""
        if not select.select([self.come], [], [], 1)[0]:
            return []
        self.rest += os.read(self.come, 1 << 20)
        *whole, self.rest = self.rest.split(b"\0")
        return [json.loads(one) for one in whole]

    # ---- what a case does

    def js(self, text):
        """What a text of JavaScript gives in the page."""
        told = self.call("Runtime.evaluate", expression=text, awaitPromise=True, returnByValue=True)
        if "exceptionDetails" in told:
            fault = told["exceptionDetails"].get("exception", told["exceptionDetails"])
            raise Failed(f"{text[:200]}: {fault.get('description', fault)}")
        return told["result"].get("value")

    def until(self, text, seconds=None):
        """Waits for a text of JavaScript to be true, and gives its value."""
        seconds = seconds or self.seconds
        begun = time.time()
        while time.time() - begun < seconds:
            try:
                value = self.js(text)
            except Failed as fault:  # the page is just being loaded
                if "navigated" not in str(fault) and "context" not in str(fault):
                    raise
                value = None
            if value:
                return value
            time.sleep(0.02)
        raise Failed(f"not within {seconds} s: {text}\n{self.js('document.body.innerText')[:1500]}")

    def says(self, *words):
        """Waits for texts to be seen."""
        for one in words:
            self.until(f"document.body.innerText.includes({json.dumps(one)})")

    def says_not(self, *words):
        """None of these texts is seen now."""
        for one in words:
            check(not self.js(f"document.body.innerText.includes({json.dumps(one)})"), f"it says: {one}")

    def go(self, url):
        """Loads an address."""
        self.call("Page.navigate", url=url)
        self.until("document.readyState === 'complete'")

    def place(self, text, kind="button,a,summary"):
        """Where what has this text is; it has to be seen."""
        return self.until(f"""(() => {{
            const one = [...document.querySelectorAll({json.dumps(kind)})].find(one =>
                one.textContent.trim().startsWith({json.dumps(text)}) && one.checkVisibility());
            if (!one) return null;
            one.scrollIntoView({{ block: 'center', behavior: 'instant' }});
            const box = one.getBoundingClientRect();
            return [box.x + box.width / 2, box.y + box.height / 2];
        }})()""")

    def click(self, text, kind="button,a,summary", times=1):
        """Clicks with the mouse on what has this text, once or at once several times."""
        x, y = self.place(text, kind)
        for _ in range(times):
            for what in "mousePressed", "mouseReleased":
                self.call("Input.dispatchMouseEvent", type=what, x=x, y=y, button="left", clickCount=1)

    def key(self, key):
        """Presses a key and lets it go."""
        text = {"Enter": "\r", " ": " "}.get(key)
        for kind in "keyDown", "keyUp":
            self.call("Input.dispatchKeyEvent", type=kind, key=key, code=key, windowsVirtualKeyCode=CODES.get(key, 0),
                      **({"text": text} if text and kind == "keyDown" else {}))

    def type(self, text):
        """Types a text into what has the focus."""
        self.call("Input.insertText", text=text)

    def fill(self, label, text):
        """Types a text in place of what stands in the field with this label."""
        self.until(f"""(() => {{
            const label = [...document.querySelectorAll('label')].find(one => one.textContent.startsWith({json.dumps(label)}));
            const field = label?.control;
            if (!field) return false;
            field.focus();
            field.select();
            return true;
        }})()""")
        self.type(text)

    def focused(self):
        """What has the focus: its text, else its identity, else its kind."""
        return self.js("(one => one.textContent.slice(0, 40) || one.id || one.tagName)(document.activeElement)")

    def media(self, **features):
        """Sets media features, as prefers_color_scheme; none sets them back."""
        told = [{"name": key.replace("_", "-"), "value": value} for key, value in features.items()]
        self.call("Emulation.setEmulatedMedia", features=told)

    def width(self, width=None):
        """Makes the page so wide, or as wide as it was."""
        if width:
            self.call("Emulation.setDeviceMetricsOverride", width=width, height=740, deviceScaleFactor=1, mobile=False)
        else:
            self.call("Emulation.clearDeviceMetricsOverride")

    def picture(self, path, end=None):
        """Writes a PNG of the page, down to the end of what `end` selects, or all of it."""
        size = self.call("Page.getLayoutMetrics")["cssContentSize"]
        height = end and self.js(f"document.querySelector({json.dumps(end)}).getBoundingClientRect().bottom + scrollY + 12")
        clip = {"x": 0, "y": 0, "width": size["width"], "height": height or min(size["height"], 3000), "scale": 1}
        told = self.call("Page.captureScreenshot", format="png", captureBeyondViewport=True, clip=clip)
        pathlib.Path(path).write_bytes(base64.b64decode(told["data"]))

    def downloaded(self, name):
        """The text of a file that the page gave."""
        path = pathlib.Path(self.home, name)
        for _ in range(200):
            if path.exists():
                break
            time.sleep(0.05)
        check(path.exists(), f"{name} was not given")
        return path.read_text()


def check(is_so, words="it is not so"):
    """Fails where something is not so."""
    if not is_so:
        raise Failed(str(words))


def axe():
    """axe-core as a text of JavaScript, out of the developer tools that are in Chromium, or None."""
    home = tempfile.mkdtemp(prefix="sandesk-axe-")
    words = [program(), "--remote-debugging-port=0", f"--user-data-dir={home}", *SWITCHES, "about:blank"]
    process = subprocess.Popen(words, stdin=subprocess.DEVNULL, stdout=subprocess.DEVNULL, stderr=subprocess.DEVNULL)
    try:
        told = pathlib.Path(home, "DevToolsActivePort")
        for _ in range(300):
            if told.exists() and told.read_text().strip():
                break
            time.sleep(0.1)
        opener = urllib.request.build_opener(urllib.request.ProxyHandler({}))
        text = opener.open(f"http://127.0.0.1:{told.read_text().split()[0]}/{BUNDLE}", timeout=30).read().decode()
        found = re.search(r"=(`/\*! axe v(?:[^`\\]|\\.)*`)", text, re.S)
        return found and found[1]
    except (OSError, IndexError):
        return None
    finally:
        process.terminate()
        process.wait(20)
        remove(home)
