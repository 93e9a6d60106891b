#!/usr/bin/env python3
"""Times requests over loopback to the built program, beside a C program that answers the same bytes
(`bench/fixed_answers.c`) and beside Flask, which reads the same database (`bench/flask_paths.py`).

Run it by hand from the top, once the program is built:

    python3 bench/wire_calls.py [--connections N] [CASE..]

CASE is `reads`, `imports`, `activations` or `stagings`; the first three without one. SANDESK names another program than
`crates/fab_program/out/fab_program`, CC another compiler than `cc`, and FLASK_PYTHON another Python
than Debian's. It works in a temporary folder, under the policy `examples/session.toml`; TMPDIR names
another place for it, as `/dev/shm`, where no disk is waited for.

All servers have the same client: a connection is made, the request is sent, the answer is read to its
end, and the connection is closed; this is one time. The servers have their turns, ten connections at
once, so that what else the machine does meets all of them. The tables have the least and the median
time in milliseconds, and how many times as long the desk takes, by both. Their lines:

    desk      the built program, over a database file
    C         the C program, which answers the desk's bytes
    client    the C program with an empty answer to a short request: what connecting, sending,
              accepting, reading and closing take by themselves
    Flask     Flask's own server, over a copy of the database
    staging   the desk again, which stages a plan: the least change that it writes to the database
    SQLite    SQLite's own library, called by Python: the rows that the request takes away and adds, in
              one transaction that is on the disk before it is done
"""
import argparse
import contextlib
import json
import os
import pathlib
import platform
import shutil
import socket
import sqlite3
import statistics
import subprocess
import sys
import tempfile
import time

TOP = pathlib.Path(__file__).resolve().parent.parent
PROGRAM = pathlib.Path(os.environ.get("SANDESK", TOP / "crates" / "fab_program" / "out" / "fab_program"))
POLICY = TOP / "examples" / "session.toml"
TOKEN = "t-ada"
ACCEPTED = b"HTTP/1.1 200 "
EMPTY = b"HTTP/1.1 200 OK\r\nContent-Length: 0\r\nConnection: close\r\n\r\n"

CASES = ["reads", "imports", "activations"]
CASES_BY_NAME = [*CASES, "stagings"]

# How many connections a server gets before the next one has its turn.
BURST = 10

# Paths of the host that is asked about: its ports, the targets, the units; and how many hosts have as
# many paths each.
READS = [(1, 1, 1, 1), (2, 2, 16, 1), (4, 4, 64, 1), (4, 4, 256, 1), (1, 1, 1, 1024), (4, 4, 256, 15)]
IMPORTS = [512, 1024, 2048, 4096]
ACTIVATIONS = [(4, 4, 64, 1), (4, 4, 64, 8), (4, 4, 256, 15)]

# How many plans there are when the next ones are staged.
STAGED = [1000, 10000, 50000]


# ---- requests

def request(method, path, body=None):
    head = f"{method} {path} HTTP/1.1\r\nAuthorization: Bearer {TOKEN}\r\n"
    if body is None:
        return f"{head}\r\n".encode()
    return f"{head}Content-Length: {len(body.encode())}\r\n\r\n{body}".encode()


def call(port, sent):
    """One connection: its seconds, and the answer."""
    start = time.perf_counter()
    with socket.socket(socket.AF_INET, socket.SOCK_STREAM) as stream:
        stream.connect(("127.0.0.1", port))
        stream.sendall(sent)
        pieces = []
        while piece := stream.recv(1 << 20):
            pieces.append(piece)
    return time.perf_counter() - start, b"".join(pieces)


def ask(port, method, path, body=None):
    """A request that has to be accepted; the body of its answer."""
    _, answer = call(port, request(method, path, body))
    if not answer.startswith(ACCEPTED):
        sys.exit(f"{method} {path}: unexpected answer {answer[:300]!r}")
    return answer.partition(b"\r\n\r\n")[2]


def in_turn(count, calls):
    """Times of `count` connections to each server, ten to one server and then ten to the next.

    `calls` has for each server a function from the number of the connection to the port, the request,
    and how the answer has to begin. The first connection of each server is not counted."""
    times = {name: [] for name in calls}
    for start in range(0, count + 1, BURST):
        for name, next_call in calls.items():
            for turn in range(start, min(start + BURST, count + 1)):
                port, sent, begins = next_call(turn)
                taken, answer = call(port, sent)
                if not answer.startswith(begins):
                    sys.exit(f"{name}: unexpected answer {answer[:300]!r}")
                if turn > 0:
                    times[name].append(taken * 1e3)
    return times


# ---- servers

def free_port():
    with socket.create_server(("127.0.0.1", 0)) as listener:
        return listener.getsockname()[1]


class Server:
    """A process that listens; it is ended where the block ends."""

    def __init__(self, words, log, port=None):
        self.log = open(log, "wb")
        out = subprocess.PIPE if port is None else self.log
        self.process = subprocess.Popen(words, stdin=subprocess.DEVNULL, stdout=out, stderr=self.log)
        self.port = int(self.process.stdout.readline()) if port is None else port

    def __enter__(self):
        for _ in range(600):
            try:
                socket.create_connection(("127.0.0.1", self.port)).close()
                return self
            except OSError:
                if self.process.poll() is not None:
                    break
                time.sleep(0.05)
        self.__exit__()
        sys.exit(f"nobody listens: {self.process.args}")

    def __exit__(self, *_):
        self.process.kill()
        self.process.wait()
        self.log.close()


def desk(work, database):
    port = free_port()
    words = [PROGRAM, "serve", "--db", database, "--policy", POLICY, "--listen", f"127.0.0.1:{port}"]
    return Server(words, work / "desk.log", port)


def fixed(work, name, answer):
    (work / name).write_bytes(answer)
    return Server([work / "fixed_answers", work / name], work / "fixed.log")


def compile_fixed(work):
    """Builds the C program; whether it is there."""
    compiler = os.environ.get("CC") or shutil.which("cc") or shutil.which("gcc")
    if not compiler:
        print("There is no C compiler (Debian: gcc): no times beside the C program.")
        return False
    source = TOP / "bench" / "fixed_answers.c"
    subprocess.run([compiler, "-O2", "-o", work / "fixed_answers", source], check=True)
    return True


def flask_python():
    """A Python that has Flask, Debian's first; None where there is none."""
    asked = "import flask, platform, sqlite3; from importlib.metadata import version; " \
        "print(version('flask'), platform.python_version(), sqlite3.sqlite_version)"
    for python in (os.environ.get("FLASK_PYTHON"), "/usr/bin/python3", sys.executable):
        if python:
            found = subprocess.run([python, "-c", asked], capture_output=True, text=True)
            if found.returncode == 0:
                print("Flask: {}, Python {}, SQLite {}.".format(*found.stdout.split()))
                return python
    print("There is no Flask (Debian: python3-flask): no times beside Flask.")
    return None


# ---- worlds

def port_list(names, first):
    """The list of these ports, at physical ports from `first` on."""
    lines = [f"{name:016x},{name:016x},1,{(first + place) % 4096}" for place, name in enumerate(names)]
    return "\n".join(["port_name,node_name,domain,port", *lines, ""])


def wwns(first, count):
    return [first + number for number in range(1, count + 1)]


def texts(names):
    return [f"{name:016x}" for name in names]


def stage_lines(port, name, lines):
    """Stages and activates lines, in plans of at most 200."""
    for start in range(0, len(lines), 200):
        plan = f"{name}{start}"
        ask(port, "PUT", f"/plans/{plan}", "\n".join(lines[start:start + 200]) + "\n")
        ask(port, "POST", f"/plans/{plan}/activate")


def put_holder(port, kind, name, ports):
    ask(port, "PUT", f"/{kind}/{name}", json.dumps({"ports": texts(ports), "tenant": "blue"}))


def zone_lines(initiators, targets):
    """A zone for at most 200 initiators, with all targets."""
    lines, zones = [], []
    for start in range(0, len(initiators), 200):
        zones.append(f"z{start}")
        members = " ".join(f"wwpn={name}" for name in texts(initiators[start:start + 200] + targets))
        lines.append(f"zone.put A z{start} {members}")
    return [*lines, f"set.put A s {' '.join(zones)}", "activate A s"]


def group_lines(hosts, targets, units):
    """Host groups of at most 200 hosts, and a storage group for all of them."""
    lines = ["sg.new g blue arr"]
    for start in range(0, len(hosts), 200):
        lines += [f"hg.put k{start} blue {' '.join(hosts[start:start + 200])}", f"sg.host g k{start}"]
    lines += [f"sg.target g {name}" for name in texts(targets)]
    lines += [f"sg.map g {unit} v{unit}" for unit in range(units)]
    return [*lines, "sg.expose g"]


def lone_lines(target):
    """A host with one path of its own: the host group and the storage group that activations toggle."""
    return ["hg.put klone blue lone", "sg.new lone blue arr", "sg.host lone klone",
            f"sg.target lone {texts([target])[0]}", "sg.map lone 0 v0"]


def make_world(work, database, ports, targets, units, hosts):
    """A database in which each of the hosts `h0`.. has ports x targets x units paths over fabric A, and
    the host `lone` would have one if the storage group `lone` were exposed."""
    subprocess.run([PROGRAM, "init", "--db", database], check=True)
    names = [f"h{number}" for number in range(hosts)]
    initiators, disks = wwns(0x10 << 56, ports * hosts + 1), wwns(0x50 << 56, targets)
    with desk(work, database) as server:
        at = server.port
        ask(at, "POST", "/imports/A", port_list(initiators + disks, 0))
        put_holder(at, "arrays", "arr", disks)
        for number, name in enumerate(names):
            put_holder(at, "hosts", name, initiators[number * ports:(number + 1) * ports])
        put_holder(at, "hosts", "lone", initiators[-1:])
        for unit in range(units):
            ask(at, "PUT", f"/volumes/v{unit}", '{"array":"arr","bytes":1073741824,"tenant":"blue"}')
        stage_lines(at, "zoning", zone_lines(initiators, disks))
        stage_lines(at, "groups", group_lines(names, disks, units))
        stage_lines(at, "lone", lone_lines(disks[0]))


# ---- tables

def heading(name):
    print(f"\n{name:<52}{'server':<9}{'least':>9}{'median':>9}{'x least':>9}{'x median':>9}")


def told(title, times):
    """The lines of a case: least and median time, and how many times as long the desk takes, by least
    times and by medians."""
    rows = {name: (min(values), statistics.median(values)) for name, values in times.items()}
    for name, row in rows.items():
        ratios = [f"{own / other:>9.2f}" for own, other in zip(rows["desk"], row) if name != "desk"]
        print(f"{title:<52}{name:<9}{row[0]:>9.3f}{row[1]:>9.3f}{''.join(ratios)}", flush=True)
        title = ""


# ---- cases

def time_reads(work, count, has_fixed, python):
    heading("GET /paths of a host, ms")
    for case, (ports, targets, units, hosts) in enumerate(READS):
        database = work / f"reads{case}.db"
        make_world(work, database, ports, targets, units, hosts)
        copy = work / f"copy{case}.db"
        copy_database(database, copy)
        time_read(work, database, copy, count, has_fixed, python)


def copy_database(database, copy):
    for end in ("", "-wal"):
        if pathlib.Path(f"{database}{end}").exists():
            shutil.copyfile(f"{database}{end}", f"{copy}{end}")


def body_of(answer):
    return answer.partition(b"\r\n\r\n")[2]


def repeated(port, asked, begins):
    """These requests in turn, at a port."""
    return lambda turn: (port, asked[turn % len(asked)], begins)


def beside_c(work, servers, calls, sent, answer):
    """Adds the C program with the same answer, and with an empty one, to the servers that are timed."""
    for name, given, asked in (("C", answer, sent), ("client", EMPTY, [request("GET", "/")])):
        port = servers.enter_context(fixed(work, name, given)).port
        calls[name] = repeated(port, asked, given)


def beside_flask(work, servers, calls, sent, answer, python, copy):
    """Adds Flask over a copy of the database, whose answers have the same bodies."""
    port = free_port()
    words = [python, TOP / "bench" / "flask_paths.py", copy, str(port)]
    servers.enter_context(Server(words, work / "flask.log", port))
    if body_of(call(port, sent)[1]) != body_of(answer):
        sys.exit("Flask answers another body than the desk")
    calls["Flask"] = lambda _: (port, sent, b"HTTP/1.")


def time_read(work, database, copy, count, has_fixed, python):
    sent = request("GET", "/paths/h0")
    with contextlib.ExitStack() as servers:
        port = servers.enter_context(desk(work, database)).port
        _, answer = call(port, sent)
        calls = {"desk": lambda _: (port, sent, answer)}
        if has_fixed:
            beside_c(work, servers, calls, [sent], answer)
        if python:
            beside_flask(work, servers, calls, sent, answer, python, copy)
        times = in_turn(count, calls)
    with contextlib.closing(sqlite3.connect(copy)) as opened:
        every = opened.execute("SELECT count(*) FROM paths").fetchone()[0]
    paths = len(json.loads(body_of(answer))["paths"])
    told(f"{paths} of {every} paths, {len(answer)} bytes", times)


def time_imports(work, count, has_fixed):
    heading("POST /imports/A, ms")
    database = work / "imports.db"
    subprocess.run([PROGRAM, "init", "--db", database], check=True)
    for records in IMPORTS:
        names = wwns(0x10 << 56, records)
        lists = [request("POST", "/imports/A", port_list(names, first)) for first in (0, 1)]
        time_import(work, database, count, has_fixed, f"{records} records, each as before", lists[:1] * 2)
        time_import(work, database, count, has_fixed, f"{records} records, each at another place", lists)


def time_import(work, database, count, has_fixed, title, lists):
    with contextlib.ExitStack() as servers:
        port = servers.enter_context(desk(work, database)).port
        _, answer = call(port, lists[-1])
        calls = {"desk": lambda turn: (port, lists[turn % 2], ACCEPTED)}
        if has_fixed:
            beside_c(work, servers, calls, lists, answer)
        times = in_turn(count, calls)
    times["SQLite"] = beside_sqlite(work, database, count, lists[(count + 1) % 2])
    told(f"{title}, {len(lists[0])} bytes", times)


def time_activations(work, count, has_fixed):
    heading("POST /plans/../activate, ms")
    for case, (ports, targets, units, hosts) in enumerate(ACTIVATIONS):
        database = work / f"activations{case}.db"
        make_world(work, database, ports, targets, units, hosts)
        time_activation(work, database, count, has_fixed, ports * targets * units * hosts)


def plan_text(turn):
    return "sg.hide lone\n" if turn % 2 else "sg.expose lone\n"


def tables_of(database):
    with contextlib.closing(sqlite3.connect(database)) as opened:
        names = [row[0] for row in opened.execute("SELECT name FROM sqlite_master WHERE type = 'table'")]
        return {name: set(opened.execute(f"SELECT * FROM {name}")) for name in names}


def statements_between(before, after):
    """What makes the one state of the tables out of the other: rows deleted and rows inserted, in
    order."""
    done = []
    for table in before:
        done += [(table, "DELETE", row) for row in sorted(before[table] - after[table], key=repr)]
        done += [(table, "INSERT", row) for row in sorted(after[table] - before[table], key=repr)]
    return done


def statement(opened, table, verb):
    columns = [row[1] for row in opened.execute(f"PRAGMA table_info({table})")]
    if verb == "INSERT":
        return f"INSERT INTO {table} VALUES ({', '.join('?' for _ in columns)})"
    return f"DELETE FROM {table} WHERE {' AND '.join(f'{column} IS ?' for column in columns)}"


def time_sqlite(database, done, count):
    """The same rows deleted and inserted by SQLite's own library in one transaction, made durable
    before it answers; and taken back again, so that the next time finds the same."""
    back = [(table, "INSERT" if verb == "DELETE" else "DELETE", row) for table, verb, row in done]
    back.sort(key=lambda change: change[1])
    opened = sqlite3.connect(database, isolation_level=None)
    opened.execute("PRAGMA journal_mode = WAL")
    opened.execute("PRAGMA synchronous = FULL")
    texts_of = {(table, verb): statement(opened, table, verb) for table, verb, _ in done + back}
    times = []
    for turn in range(2 * count):
        start = time.perf_counter()
        opened.execute("BEGIN IMMEDIATE")
        for table, verb, row in back if turn % 2 else done:
            opened.execute(texts_of[table, verb], row)
        opened.execute("COMMIT")
        times.append((time.perf_counter() - start) * 1e3)
    opened.close()
    return times


def staging(name, turn):
    return request("PUT", f"/plans/{name}", plan_text(turn))


def activation(server, name, turn):
    """Stages a plan; its activation is a request that is still to be made."""
    _, answer = call(server.port, staging(name, turn))
    if not answer.startswith(ACCEPTED):
        sys.exit(f"staging: unexpected answer {answer[:300]!r}")
    return server.port, request("POST", f"/plans/{name}/activate"), ACCEPTED


def beside_sqlite(work, database, count, sent):
    """Times of SQLite's own library, which changes the rows that one more request to a desk changes."""
    copy, after = work / f"before-{database.name}", work / f"after-{database.name}"
    copy_database(database, copy)
    before = tables_of(copy)
    with desk(work, database) as server:
        _, answer = call(server.port, sent)
        if not answer.startswith(ACCEPTED):
            sys.exit(f"unexpected answer {answer[:300]!r}")
    copy_database(database, after)
    times = time_sqlite(copy, statements_between(before, tables_of(after)), count)
    for name in (copy, after):
        name.unlink()
    return times


def time_activation(work, database, count, has_fixed, paths):
    with contextlib.ExitStack() as servers:
        server = servers.enter_context(desk(work, database))
        port, sent, _ = activation(server, "first", 0)
        _, answer = call(port, sent)
        calls = {
            "desk": lambda turn: activation(server, f"p{turn}", turn + 1),
            "staging": lambda turn: (port, staging(f"s{turn}", turn), ACCEPTED),
        }
        if has_fixed:
            beside_c(work, servers, calls, [sent], answer)
        times = in_turn(count, calls)
        _, last, _ = activation(server, "last", count)
    times["SQLite"] = beside_sqlite(work, database, count, last)
    told(f"one path more or less, beside {paths}", times)


def stage_all(server, numbers):
    """Stages a plan for each number."""
    for number in numbers:
        _, answer = call(server.port, staging(f"s{number}", number))
        if not answer.startswith(ACCEPTED):
            sys.exit(f"staging: unexpected answer {answer[:300]!r}")


def time_stagings(work, count, has_fixed):
    """Times of the staging of the last plans, up to so many."""
    heading("PUT /plans/.., ms")
    database, done = work / "stagings.db", 0
    subprocess.run([PROGRAM, "init", "--db", database], check=True)
    with contextlib.ExitStack() as servers:
        server = servers.enter_context(desk(work, database))
        _, answer = call(server.port, staging("first", 0))
        calls = {"desk": None}
        if has_fixed:
            beside_c(work, servers, calls, [staging("first", 0)], answer)
        for staged in STAGED:
            first = max(staged - count, done)
            stage_all(server, range(done, first))
            calls["desk"] = lambda turn, first=first: (server.port, staging(f"s{first + turn}", turn), ACCEPTED)
            told(f"one plan more, beside {first + 1}", in_turn(count, calls))
            done = first + count + 1


def asked_for():
    words = argparse.ArgumentParser(description="Times requests over loopback, beside C and Flask.")
    words.add_argument("--connections", type=int, default=201, help="how many each server gets in a case")
    words.add_argument("cases", nargs="*", metavar="CASE", help=", ".join(CASES_BY_NAME))
    asked = words.parse_args()
    unknown = [case for case in asked.cases if case not in CASES_BY_NAME]
    if unknown or asked.connections < 1:
        words.error(f"no such case: {', '.join(unknown)}" if unknown else "one connection at least")
    return asked


def main():
    asked = asked_for()
    if not PROGRAM.exists():
        sys.exit("build the program first: ./sandesk once < examples/import.http")
    cases = asked.cases or CASES
    load = os.getloadavg()[0]
    print(f"{os.cpu_count()} processors, load {load:.1f}.")
    print(f"Client: Python {platform.python_version()}, SQLite {sqlite3.sqlite_version}.")
    with tempfile.TemporaryDirectory() as folder:
        work = pathlib.Path(folder)
        has_fixed = compile_fixed(work)
        if "reads" in cases:
            time_reads(work, asked.connections, has_fixed, flask_python())
        if "imports" in cases:
            time_imports(work, asked.connections, has_fixed)
        if "activations" in cases:
            time_activations(work, asked.connections, has_fixed)
        if "stagings" in cases:
            time_stagings(work, asked.connections, has_fixed)


if __name__ == "__main__":
    main()
