"""What the scripts share that run the built program over files and loopback sockets: a serving process,
requests, answers in the form that they have to have, and copies of a database.

SANDESK names the program; without it `./sandesk` is asked once, which builds it where that is needed.
"""
import argparse
import contextlib
import functools
import json
import os
import pathlib
import platform
import random
import re
import shutil
import signal
import socket
import sqlite3
import subprocess
import sys
import time

TOP = pathlib.Path(__file__).resolve().parent.parent

# What a connection may take, and how much longer the timers of the system and a busy machine may make it, in
# seconds.
MOST_SECONDS = 27
SPARE_SECONDS = 3

# ada may do everything; on fabric B somebody else has to have approved what she activates.
POLICY = """
[[callers]]
name = "ada"
token = "t-ada"
roles = ["operator"]
tenants = "*"
[[callers]]
name = "bob"
token = "t-bob"
roles = ["approver"]
tenants = "*"
[[callers]]
name = "cyd"
token = "t-cyd"
roles = ["operator"]
tenants = ["blue"]
[[rules]]
name = "ops"
actions = ["import", "inventory", "stage", "withdraw", "dryrun", "activate", "rollback"]
role = "operator"
[[rules]]
name = "signers"
actions = ["approve"]
role = "approver"
[[rules]]
name = "two-eyes"
actions = ["activate"]
fabric = "B"
approvals = 1
approver = "approver"
[[rules]]
name = "own"
actions = ["import", "inventory", "activate", "rollback"]
scope = "own"
"""

# All may do everything: a verdict takes next to nothing.
OPEN_POLICY = """
[[callers]]
name = "ada"
token = "t-ada"
roles = []
tenants = "*"
[[rules]]
name = "all"
actions = ["import", "inventory", "stage", "dryrun", "activate"]
"""

TABLES = ["meta", "ports", "addresses", "holders", "volumes", "zoning", "active", "groups", "group_parts",
          "plans", "approvals", "undo", "paths"]


class Fault(Exception):
    """Something that the desk must not do."""


@functools.cache
def program():
    """The program that is run."""
    named = os.environ.get("SANDESK")
    if not named:
        subprocess.run([TOP / "sandesk", "once"], stdin=subprocess.DEVNULL, check=True)
    found = pathlib.Path(named).resolve() if named else TOP / "crates" / "fab_program" / "out" / "fab_program"
    if not found.exists():
        sys.exit(f"there is no program {found}")
    return found


def comparing_words(description):
    """The words of a script that may run an earlier program beside the built one."""
    words = argparse.ArgumentParser(description=description, formatter_class=argparse.RawDescriptionHelpFormatter)
    words.add_argument("--program", type=pathlib.Path, help="a built program")
    words.add_argument("--before", type=pathlib.Path, help="an earlier one, for the same rows")
    return words


def compared(asked):
    """Names and paths of the programs that these words name: the one that the run is about comes first."""
    if asked.program:
        os.environ["SANDESK"] = str(asked.program)
    programs = {"desk": program()}
    if asked.before:
        programs["before"] = asked.before.resolve()
    return programs


def tell_machine():
    """What the figures of a run depend on."""
    print(f"{os.cpu_count()} processors, load {os.getloadavg()[0]:.1f}. "
          f"Python {platform.python_version()}, SQLite {sqlite3.sqlite_version}.")


# ---- requests

def request(method, path, body=None, token="t-ada"):
    """A request as bytes; the body is a text or bytes, or none."""
    head = f"{method} {path} HTTP/1.1\r\nAuthorization: Bearer {token}\r\n"
    if body is None:
        return f"{head}\r\n".encode()
    sent = body if isinstance(body, bytes) else body.encode()
    return f"{head}Content-Length: {len(sent)}\r\n\r\n".encode() + sent


def holder(ports, tenant):
    """The body of a host or an array with these ports, which are numbers."""
    return json.dumps({"ports": [f"{name:016x}" for name in ports], "tenant": tenant})


def port_list(records):
    """The list of these ports: name, node name, domain and physical port."""
    lines = [f"{name:016x},{node:016x},{domain},{slot}" for name, node, domain, slot in records]
    return "\n".join(["port_name,node_name,domain,port", *lines, ""])


def addressed_list(records):
    """The list of these ports with their addresses, which are texts: empty where none is told."""
    lines = [f"{name:016x},{node:016x},{domain},{slot},{address}" for name, node, domain, slot, address in records]
    return "\n".join(["port_name,node_name,domain,port,address", *lines, ""])


def send_all(stream, sent):
    """Sends these bytes and no more, as far as the other side takes them."""
    try:
        stream.sendall(sent)
        stream.shutdown(socket.SHUT_WR)
    except TimeoutError:
        raise
    except OSError:
        pass


def read_all(stream):
    """What comes until the other side sends no more, or is gone."""
    pieces = []
    with contextlib.suppress(ConnectionError):
        while piece := stream.recv(1 << 20):
            pieces.append(piece)
    return b"".join(pieces)


def call(port, sent):
    """One connection: all that is answered to these bytes, behind which nothing is sent.

    Fails with ConnectionError where nobody listens; where the desk goes away, or has no need of all
    bytes, what it has sent is the answer."""
    with socket.create_connection(("127.0.0.1", port), timeout=2 * MOST_SECONDS) as stream:
        try:
            send_all(stream, sent)
            return read_all(stream)
        except TimeoutError:
            raise Fault(f"the desk holds a connection for {2 * MOST_SECONDS} seconds") from None


def ask(port, method, path, body=None, token="t-ada"):
    """A request that has to be accepted; the body of its answer."""
    status, told = answer_of(call(port, request(method, path, body, token)))
    if status != 200:
        raise Fault(f"{method} {path} is answered {status} {told}")
    return told


# ---- answers

PHRASES = {200: "OK", 400: "Bad Request", 401: "Unauthorized", 403: "Forbidden", 404: "Not Found",
           405: "Method Not Allowed", 409: "Conflict", 411: "Length Required", 413: "Payload Too Large",
           503: "Service Unavailable"}

HEAD = re.compile(rb"HTTP/1\.1 (\d{3}) ([A-Za-z ]+)\r\nContent-Type: application/json\r\n"
                  rb"Content-Length: (0|[1-9]\d*)\r\n(?:(WWW-Authenticate|Allow): ([^\r\n]+)\r\n)?"
                  rb"Connection: close\r\n\r\n")

# The line that answers of two statuses have besides, and what it may say.
LINES = {401: ("WWW-Authenticate", {"Bearer"}), 405: ("Allow", {"GET", "POST", "DELETE, GET, PUT"})}

NUMBERS = {"code", "line", "lun", "rule", "step"}

# Of each refusal: its name, its status, and which further keys its body may have.
REFUSALS = {
    1: ("no-caller", 401, [set()]), 2: ("bad-head", 400, [set()]), 3: ("no-route", 404, [set()]),
    4: ("bad-method", 405, [set()]), 5: ("no-length", 411, [set()]), 6: ("too-large", 413, [set()]),
    7: ("bad-body", 400, [{"line"}]), 8: ("denied", 403, [{"need", "rule", "rule_name"}]),
    9: ("not-found", 404, [set()]), 10: ("exists", 409, [{"name"}]), 11: ("in-use", 409, [{"by", "name"}]),
    12: ("unknown-name", 409, [{"name"}]), 13: ("wrong-array", 409, [{"name"}]),
    14: ("unit-clash", 409, [{"group", "lun"}, {"host", "lun", "target"}]),
    15: ("limit", 409, [{"limit"}]), 16: ("wrong-state", 409, [{"state"}]), 17: ("not-last", 409, [{"last"}]),
    18: ("gone", 409, [{"name"}]), 19: ("own-plan", 409, [set()]), 20: ("port-clash", 409, [{"port"}]),
    21: ("memory", 503, [set()]), 22: ("store", 503, [set()]), 23: ("halted", 503, [set()]),
}

# The refusals that have the key `step` besides where the lines of a plan are refused.
OF_LINES = range(10, 16)

# The bodies of status 200: their keys, and the types of what stands there.
BODIES = [
    {"revision": int}, {"plan": str, "steps": int}, {"plan": str, "state": str},
    {"approvals": int, "plan": str, "revision": int}, {"gained": list, "lost": list, "plan": str},
    {"gained": list, "lost": list, "plan": str, "revision": int}, {"host": str, "paths": list},
    {"joined": bool}, {"joined": bool, "why": str}, {"joined": bool, "why": str, "zone": str},
    {"at": (dict, type(None)), "node_name": str, "port_name": str},
    {"kind": str, "name": str, "ports": list, "tenant": str},
    {"array": str, "bytes": int, "name": str, "tenant": str},
    {"approvals": list, "author": str, "plan": str, "state": str, "text": str},
    {"fabric": str, "members": list, "name": str}, {"fabric": str, "name": str, "zones": list},
    {"hosts": list, "name": str, "tenant": str},
    {"array": str, "exposed": bool, "host_groups": list, "name": str, "targets": list, "tenant": str,
     "units": list},
    {"active": (str, type(None)), "default": str, "fabric": str, "zones": list},
]


def answer_of(text):
    """The status and the body of a whole answer that has one of the forms; else a fault."""
    head = HEAD.match(text)
    if not head:
        raise Fault(f"no answer has this form: {text[:300]!r}")
    status, body = int(head[1]), text[head.end():]
    if PHRASES.get(status) != head[2].decode() or len(body) != int(head[3]):
        raise Fault(f"this phrase or this length is wrong: {text[:300]!r}")
    key, values = LINES.get(status, (None, {None}))
    if (head[4] and head[4].decode(), head[5] and head[5].decode()) not in [(key, value) for value in values]:
        raise Fault(f"this line is wrong in an answer of its status: {text[:300]!r}")
    return status, body_of(status, body)


def body_of(status, body):
    """The body of an answer, which is compact JSON with its keys in order, and of a known form."""
    try:
        told = json.loads(body)
    except ValueError:
        raise Fault(f"this body is no JSON: {body[:300]!r}") from None
    if json.dumps(told, separators=(",", ":"), ensure_ascii=False, sort_keys=True).encode() != body:
        raise Fault(f"this body is not compact, or its keys are not in order: {body[:300]!r}")
    if not (is_accepted(told) if status == 200 else is_refusal(status, told)):
        raise Fault(f"no answer of status {status} has this body: {body[:300]!r}")
    return told


def is_accepted(told):
    return isinstance(told, dict) and any(
        told.keys() == form.keys() and all(is_of(told[key], kind) for key, kind in form.items())
        for form in BODIES)


def is_of(value, kind):
    """Whether a value is of a type; a truth value is no number."""
    return isinstance(value, kind) and (kind is not int or not isinstance(value, bool))


def is_refusal(status, told):
    """Whether a body is that of a refusal of this status, with just its keys."""
    if not isinstance(told, dict) or told.get("code") not in REFUSALS:
        return False
    name, its_status, keys = REFUSALS[told["code"]]
    further = told.keys() - {"code", "error"} - ({"step"} if told["code"] in OF_LINES else set())
    typed = all(is_of(value, int if key in NUMBERS else str) for key, value in told.items())
    return (told.get("error"), status) == (name, its_status) and further in keys and typed


# ---- processes

def free_port():
    """A port at which nobody listens, below those that the system gives to whoever connects."""
    while True:
        port = random.randrange(20000, 32000)
        with contextlib.suppress(OSError), socket.create_server(("127.0.0.1", port)):
            return port


def make(database):
    """A database with a new desk."""
    subprocess.run([program(), "init", "--db", database], check=True)


def ran(*words):
    """The exit status of a command of the program, what it wrote, and its faults."""
    done = subprocess.run([program(), *words], stdin=subprocess.DEVNULL, capture_output=True, check=False)
    return done.returncode, done.stdout, done.stderr.decode(errors="replace")


class Desk:
    """A process that serves a database at a port of its own. `further` is told to `Popen` besides."""

    def __init__(self, database, policy, log, **further):
        self.database, self.policy, self.log, self.further = database, policy, log, further
        self.process, self.port = None, None

    def launch(self):
        """Starts the process, which opens its database first."""
        self.port = free_port()
        words = [program(), "serve", "--db", self.database, "--policy", self.policy, "--listen",
                 f"127.0.0.1:{self.port}"]
        with open(self.log, "wb") as log, open(f"{self.log}.faults", "wb") as faults:
            self.process = subprocess.Popen(words, stdin=subprocess.DEVNULL, stdout=log, stderr=faults,
                                            **self.further)

    def faults(self):
        return pathlib.Path(f"{self.log}.faults").read_text(errors="replace").strip()

    def listens(self):
        """Whether somebody listens at the port by now; looking makes a connection that sends nothing."""
        try:
            socket.create_connection(("127.0.0.1", self.port)).close()
            return True
        except OSError:
            return False

    def start(self, seconds=120):
        """Starts the process and waits until it listens; tells how many seconds that took."""
        begun = time.perf_counter()
        self.launch()
        while not self.listens():
            if self.process.poll() is not None and self.faults() == "sandesk: listen":
                self.launch()   # somebody else took the port in between
            elif self.process.poll() is not None:
                raise Fault(f"the desk does not start: status {self.process.returncode}, {self.faults()}")
            elif time.perf_counter() - begun > seconds:
                raise Fault(f"the desk does not listen after {seconds} seconds")
            time.sleep(0.001)
        return time.perf_counter() - begun

    def end(self):
        """Ends the process by force."""
        if self.process:
            self.process.send_signal(signal.SIGKILL)
            self.process.wait()

    def is_running(self):
        return self.process.poll() is None

    def outcomes(self):
        """What came of each connection, by the log."""
        whole, _, _ = pathlib.Path(self.log).read_text().rpartition("\n")
        return [line.split()[1] for line in whole.splitlines()]

    def peak(self):
        """The most memory that the process had since it began, or since `forget_peak`, in bytes."""
        status = pathlib.Path(f"/proc/{self.process.pid}/status").read_text()
        return int(re.search(r"VmHWM:\s+(\d+) kB", status)[1]) * 1024

    def forget_peak(self):
        pathlib.Path(f"/proc/{self.process.pid}/clear_refs").write_text("5")

    def __enter__(self):
        self.start()
        return self

    def __exit__(self, *_):
        self.end()


# ---- databases

def copied(database, copy):
    """A copy of a database that nobody writes to, with its log of changes."""
    for end in ("", "-wal", "-shm"):
        pathlib.Path(f"{copy}{end}").unlink(missing_ok=True)
    for end in ("", "-wal"):
        if pathlib.Path(f"{database}{end}").exists():
            shutil.copyfile(f"{database}{end}", f"{copy}{end}")
    return copy


def tables_of(database, copy):
    """The rows of the thirteen tables, as SQLite's own library reads them in a copy."""
    with contextlib.closing(sqlite3.connect(copied(database, copy))) as opened:
        found = {row[0] for row in opened.execute("SELECT name FROM sqlite_master WHERE type = 'table'")}
        if found != set(TABLES) or opened.execute("PRAGMA integrity_check").fetchall() != [("ok",)]:
            raise Fault(f"SQLite finds the database damaged: {sorted(found)}")
        return {name: set(opened.execute(f"SELECT * FROM {name}")) for name in TABLES}


def revision_of(tables):
    return int(dict(tables["meta"])["revision"])


def asked_for(description, **numbers):
    """Returns what the words of a script ask for: these numbers, each with what it is without a word, and the seed of a run."""
    words = argparse.ArgumentParser(description=description)
    for name, number in numbers.items():
        words.add_argument(f"--{name}", type=int, default=number)
    words.add_argument("--seed", type=int, default=random.randrange(10 ** 6))
    return words.parse_args()
