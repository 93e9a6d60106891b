"""What a case plays on: a desk, a line that can harm what goes through it, nginx and the page, on free loopback ports."""

import os
import pathlib
import re
import shutil
import socket
import subprocess
import tempfile
import threading
import time

import world

HERE = pathlib.Path(__file__).resolve().parent
PAGE = HERE.parent
TOP = PAGE.parent
SERVED = "*.html", "*.css", "*.svg", "*.js"
TOKENS = {1: "t-ada", 2: "t-bob", 3: "t-dan", 4: "t-cyd", 5: "t-collector"}
# Callers of the test beside those of the examples: one who may approve and not try, and one of another tenant.
MORE = """
[[callers]]
name = "kim"
token = "t-kim"
roles = ["approver"]
tenants = "*"

[[callers]]
name = "eve"
token = "t-eve"
roles = ["operator", "reviewer"]
tenants = ["green"]
"""


def program():
    """The program of the desk: SANDESK names it, else the one that is built in this repository."""
    return os.environ.get("SANDESK") or str(TOP / "crates/fab_program/out/fab_program")


def policy(is_open=True):
    """The policy of the examples, with short tokens, and with its window always open, or never."""
    text = (TOP / "examples" / "policy.toml").read_text()
    for number, token in TOKENS.items():
        text = replaced(text, f"replace-this-by-a-long-random-text-{number}", token)
    text = re.sub(r"weekly = \[\n(?:    .*\n)*\]", "weekly = [[0, 10080]]", text)
    return re.sub(r"freeze = \[\n(?:    .*\n)*\]", "freeze = []" if is_open else "freeze = [[0, 100000000000]]", text) + MORE


def replaced(text, old, new):
    """The text with its only `old` replaced."""
    if text.count(old) != 1:
        raise SystemExit(f"stands {text.count(old)} times and not once: {old}")
    return text.replace(old, new)


def free_port():
    """A loopback port at which nobody listens."""
    with socket.socket() as one:
        one.bind(("127.0.0.1", 0))
        return one.getsockname()[1]


class Line(threading.Thread):
    """What nginx takes for the desk: it hands each connection on. What it does wrong is set by the cases."""

    def __init__(self, port, desk):
        super().__init__(daemon=True)
        self.desk = desk
        self.set_right()
        self.socket = socket.create_server(("127.0.0.1", port), backlog=64)
        self.start()

    def set_right(self):
        """From now on it hands on what comes, as it comes; `heads` are those of all requests since."""
        self.lose = self.cut = self.halve = self.twice = None  # what the request lines have of which it does so
        self.before = None  # (text, function): called once before such a request is handed on
        self.answer = None  # (text, bytes): what such a request is answered in place of the desk
        self.is_strange = False  # tokens become those of nobody
        self.heads = []

    def asked(self, text):
        """How many requests have this in their first line."""
        return sum(text in head.split("\r\n")[0] for head in self.heads)

    def run(self):
        while True:
            threading.Thread(target=self.hand, args=(self.socket.accept()[0],), daemon=True).start()

    def hand(self, near):
        """Hands one connection on."""
        with near:
            try:
                head, body = self.request(near)
                first = head.split(b"\r\n")[0].decode()
                self.heads.append(head.decode())
                answer = self.answered(head, body, first)
                near.sendall(answer)
            except OSError:
                pass

    def answered(self, head, body, first):
        """What is answered to a request; nothing where it is cut off."""
        has = lambda text: text is not None and text in first
        if has(self.lose):
            return b""
        if self.answer and self.answer[0] in first:
            return self.answer[1]
        if self.before and self.before[0] in first:
            (_, call), self.before = self.before, None
            call()
        if self.is_strange:
            head = head.replace(b"Bearer t-", b"Bearer x-")
        whole = head + b"\r\n\r\n" + body
        answer = self.carried(whole)
        if has(self.twice):
            answer = self.carried(whole)
        return b"" if has(self.cut) else answer[: len(answer) * 2 // 3] if has(self.halve) else answer

    @staticmethod
    def request(near):
        """The head and the body of a request."""
        text = b""
        while b"\r\n\r\n" not in text:
            text += near.recv(65536) or b"\r\n\r\n"
        head, body = text.split(b"\r\n\r\n", 1)
        size = re.search(rb"(?i)content-length: *(\d+)", head)
        while size and len(body) < int(size[1]):
            body += near.recv(65536)
        return head, body

    def carried(self, request):
        """What the desk answers."""
        with socket.create_connection(("127.0.0.1", self.desk)) as far:
            far.sendall(request)
            parts = []
            while part := far.recv(1 << 16):
                parts.append(part)
        return b"".join(parts)


def answers(status, text):
    """An answer that is not the desk's own."""
    return f"HTTP/1.1 {status} Something\r\nContent-Type: text/html\r\nContent-Length: {len(text)}\r\nConnection: close\r\n\r\n{text}".encode()


class Stage:
    """The processes of a run. Each case begins with a desk of the small world."""

    def __init__(self):
        self.work = pathlib.Path(tempfile.mkdtemp(prefix="sandesk-page-test-"))
        self.running = {}
        self.desk_port, self.port, middle = free_port(), free_port(), free_port()
        self.desk, self.home = f"http://127.0.0.1:{self.desk_port}", f"http://127.0.0.1:{self.port}/"
        self.line = Line(middle, self.desk_port)
        self.middle = middle
        (self.work / "open.toml").write_text(policy())
        (self.work / "shut.toml").write_text(policy(False))
        self.serve()
        self.make()

    def start(self, name, words, port):
        """Starts a process and waits until it listens."""
        with open(self.work / f"{name}.log", "ab") as log:
            self.running[name] = subprocess.Popen([str(word) for word in words], stdin=subprocess.DEVNULL, stdout=log, stderr=log)
        for _ in range(600):
            try:
                socket.create_connection(("127.0.0.1", port), 1).close()
                return
            except OSError:
                time.sleep(0.02)
        raise SystemExit(f"{name} does not listen: {(self.work / f'{name}.log').read_text(errors='replace')[-500:]}")

    def end(self, name):
        """Ends a process, nginx by a signal that its workers follow."""
        process = self.running.pop(name, None)
        if process:
            process.terminate()
            process.wait(20)

    def start_desk(self, is_open=True):
        """A desk over the database as it is."""
        rules = self.work / ("open.toml" if is_open else "shut.toml")
        words = [program(), "serve", "--db", self.work / "desk.db", "--policy", rules, "--listen", f"127.0.0.1:{self.desk_port}"]
        self.start("desk", words, self.desk_port)

    def make(self):
        """Makes the small world, of which each case gets a copy."""
        subprocess.run([program(), "init", "--db", str(self.work / "desk.db")], check=True)
        self.start_desk()
        world.small(self.desk)
        self.end("desk")
        (self.work / "small").mkdir()
        for path in self.work.glob("desk.db*"):
            shutil.copy(path, self.work / "small")

    def begin(self):
        """A desk of the small world, and a line that does nothing wrong."""
        self.end("desk")
        self.line.set_right()
        for path in self.work.glob("desk.db*"):
            path.unlink()
        for path in (self.work / "small").iterdir():
            shutil.copy(path, self.work)
        self.start_desk()

    def restart_desk(self, is_open=True):
        """The same desk, started anew."""
        self.end("desk")
        self.start_desk(is_open)

    def serve(self, edit=None):
        """nginx over a copy of the page, where one is given with an edit: (file, old, new)."""
        self.end("nginx")
        www = self.work / "www"
        shutil.rmtree(www, ignore_errors=True)
        www.mkdir()
        texts = {path.name: path.read_text() for form in SERVED for path in PAGE.glob(form)}
        texts["nginx-site.conf"] = (PAGE / "nginx-site.conf").read_text()
        if edit:
            texts[edit[0]] = replaced(texts[edit[0]], edit[1], edit[2])
        site = texts.pop("nginx-site.conf")
        for name, text in texts.items():
            (www / name).write_text(text)
        (self.work / "nginx.conf").write_text(self.nginx(site, www))
        words = [shutil.which("nginx"), "-p", self.work, "-e", self.work / "error.log", "-c", self.work / "nginx.conf"]
        self.start("nginx", words, self.port)

    def nginx(self, site, www):
        """A whole configuration around the site that is given to users, with the ports and paths of this run."""
        for old, new in (("127.0.0.1:8081", f"127.0.0.1:{self.port}"), ("127.0.0.1:8080", f"127.0.0.1:{self.middle}"),
                         ("/var/log/nginx/", f"{self.work}/"), ("/usr/share/sandesk/page", str(www))):
            site = replaced(site, old, new)
        types = "types { text/html html; text/css css; text/javascript js; image/svg+xml svg; }"
        temps = " ".join(f"{kind}_temp_path {self.work}/{kind};" for kind in ("client_body", "proxy", "fastcgi", "uwsgi", "scgi"))
        user = "user root;" if os.getuid() == 0 else ""
        return (f"daemon off; pid {self.work}/nginx.pid; error_log {self.work}/error.log info; {user} worker_processes 1;"
                f" events {{}} http {{ {types} {temps}\n{site} }}")

    def logs(self):
        """All that nginx and the desk have written."""
        return "".join(path.read_text(errors="replace") for path in self.work.glob("*.log"))

    def close(self):
        """Ends what was started, and takes the folder away."""
        for name in list(self.running):
            self.end(name)
        shutil.rmtree(self.work, ignore_errors=True)
