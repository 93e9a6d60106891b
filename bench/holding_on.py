#!/usr/bin/env python3
"""Clients that hold on to a running desk: how long the others wait for their answers.

    python3 bench/holding_on.py
    SANDESK_BEFORE=PROGRAM python3 bench/holding_on.py

The desk gathers requests and sends answers side by side. Each row of the table has clients that hold on,
and beside them others that ask for something: 50 in turn, and 50 at once. Each of those in turn has to be
answered within 50 milliseconds, each of those at once within a second. The holders are there for a while
before; where they are more than the desk has seats for, those that have sent nothing for two seconds make
way. The last column is what the log says of the holders once they are let go. The long answer is the path
list of a host with 65536 paths, which no buffer of a socket takes as a whole; a client that takes no byte
of it has the least receive buffer that there is.

Then it is measured how long a short read takes; with SANDESK_BEFORE, a program of before, also there, and
it may take 1.3 times as long. With `wrk` on the path, 50 and 500 connections ask for five seconds, and
none may fail.

Exit status 1: a limit is passed, the log says something else, an answer is wrong, or the desk ended.
"""
import collections
import contextlib
import itertools
import os
import pathlib
import re
import shutil
import socket
import statistics
import struct
import subprocess
import sys
import tempfile
import threading
import time

import desk

# How many clients ask beside those that hold on, in turn and at once.
ASKING = 50

# Within how many seconds they have to be answered, in turn and at once.
MOST_IN_TURN, MOST_AT_ONCE = 0.05, 1

# How long the holders are there before, in seconds.
BEFORE = 2.5

# How many short reads are measured, and how many times as long as before they may take.
READS, MOST_TIMES = 2000, 1.3

PORTS, TARGETS, UNITS = 64, 4, 256

SHORT = desk.request("GET", "/active/A")
LONG = desk.request("GET", "/paths/wide")
PLAN = "deactivate A\n" * 100

Row = collections.namedtuple("Row", "count title holds words")

# The numbers of those who go away.
GOING = itertools.count()


# ---- clients that hold on, each with an event that ends it

def connect(port, room=None):
    """A connection; its receive buffer has so little room, if it is told."""
    stream = socket.socket(socket.AF_INET, socket.SOCK_STREAM)
    if room:
        stream.setsockopt(socket.SOL_SOCKET, socket.SO_RCVBUF, room)
    stream.settimeout(2 * desk.MOST_SECONDS)
    stream.connect(("127.0.0.1", port))
    return stream


def send_nothing(port, ended):
    with connect(port):
        ended.wait()


def send_slowly(port, ended):
    """A byte each second."""
    with connect(port) as stream:
        for place in range(len(SHORT)):
            if ended.wait(1) or not is_sent(stream, SHORT[place:place + 1]):
                return


def send_body_slowly(port, ended):
    """The head of a request at once, and then a byte of its body each second."""
    with connect(port) as stream:
        head, _, _ = desk.request("PUT", "/plans/slow", PLAN).partition(b"\r\n\r\n")
        is_sent(stream, head + b"\r\n\r\n")
        while not ended.wait(1) and is_sent(stream, b"d"):
            pass


def expect(port, ended):
    """A head that expects `100 Continue`, and a second later its body, as curl sends a long one."""
    with connect(port) as stream:
        head, _, body = desk.request("PUT", "/plans/late", PLAN).partition(b"\r\n\r\n")
        is_sent(stream, head + b"\r\nExpect: 100-continue\r\n\r\n")
        ended.wait(1 + BEFORE)
        is_sent(stream, body)
        desk.answer_of(desk.read_all(stream))


def take_nothing(port, ended):
    with connect(port, 1) as stream:
        stream.sendall(LONG)
        ended.wait()


def take_slowly(port, ended):
    """A byte each second."""
    with connect(port, 1) as stream:
        stream.sendall(LONG)
        while not ended.wait(1) and is_taken(stream):
            pass


def stay(port, ended):
    """A whole request and its answer, and no end."""
    with connect(port) as stream:
        stream.sendall(SHORT)
        ended.wait()


def send_behind(port, ended):
    """A whole request, its answer, and then more and more bytes."""
    with connect(port) as stream:
        stream.sendall(SHORT)
        while not ended.wait(0.01) and is_sent(stream, b"x" * 1000):
            pass


def go_away(port, _):
    """Asks and closes at once: some with a reset, some before the request is whole, and every tenth has
    asked for the long answer."""
    number = next(GOING)
    with connect(port) as stream:
        is_sent(stream, LONG if number % 10 == 0 else SHORT if number % 4 < 2 else LONG[:50])
        if number % 2:
            stream.setsockopt(socket.SOL_SOCKET, socket.SO_LINGER, struct.pack("ii", 1, 0))


def is_sent(stream, piece):
    try:
        stream.sendall(piece)
        return True
    except OSError:
        return False


def is_taken(stream):
    try:
        return len(stream.recv(1)) == 1
    except OSError:
        return False


# What may be told of those who hold on once they end, which is before their time is up.
GONE = {"200", "400", "empty", "read-failed", "unsent"}

ROWS = [
    Row(0, "nobody", send_nothing, set()),
    Row(1, "sends nothing", send_nothing, {"empty"}),
    Row(10, "send nothing", send_nothing, {"empty"}),
    Row(60, "send nothing", send_nothing, {"empty"}),
    Row(300, "send nothing", send_nothing, {"empty", "read-failed"}),
    Row(1, "sends a byte each second", send_slowly, {"400", "200"}),
    Row(1, "sends a byte of its body each second", send_body_slowly, {"400"}),
    Row(1, "takes no byte of a long answer", take_nothing, {"unsent"}),
    Row(1, "takes a byte of it each second", take_slowly, {"unsent"}),
    Row(1, "waits for 100 Continue", expect, {"200"}),
    Row(10, "have their answers and stay", stay, {"200"}),
    Row(1, "sends on and on behind its request", send_behind, {"200"}),
    Row(50, "go away", go_away, GONE),
]


# ---- the desk

def make_wide(port):
    """A host with 65536 paths: its 64 ports, 4 targets, 256 units."""
    initiators = [0x10 << 56 | number + 1 for number in range(PORTS)]
    targets = [0x50 << 56 | number + 1 for number in range(TARGETS)]
    records = [(name, name, 1, slot) for slot, name in enumerate(initiators + targets)]
    desk.ask(port, "POST", "/imports/A", desk.port_list(records))
    desk.ask(port, "PUT", "/hosts/wide", desk.holder(initiators, "blue"))
    desk.ask(port, "PUT", "/arrays/arr", desk.holder(targets, "blue"))
    for unit in range(UNITS):
        desk.ask(port, "PUT", f"/volumes/v{unit}", '{"array":"arr","bytes":512,"tenant":"blue"}')
    lines = ["default A permit", "hg.put k blue wide", "sg.new g blue arr", "sg.host g k"]
    lines += [f"sg.target g {name:016x}" for name in targets]
    lines += [*(f"sg.map g {unit} v{unit}" for unit in range(UNITS)), "sg.expose g"]
    for name, part in (("first", lines[:150]), ("second", lines[150:])):
        desk.ask(port, "PUT", f"/plans/{name}", "\n".join(part) + "\n")
        desk.ask(port, "POST", f"/plans/{name}/activate")


# ---- those who ask

def asked(port):
    """How long a short read takes, in seconds; it has to be answered with 200."""
    begun = time.perf_counter()
    status, _ = desk.answer_of(desk.call(port, SHORT))
    if status != 200:
        raise desk.Fault(f"a short read is answered {status}")
    return time.perf_counter() - begun


def asked_at_once(port):
    """How long each of so many takes that ask at once."""
    taken, faults = [], []

    def ask():
        try:
            taken.append(asked(port))
        except Exception as fault:   # pylint: disable=broad-except
            faults.append(fault)

    threads = [threading.Thread(target=ask) for _ in range(ASKING)]
    for thread in threads:
        thread.start()
    for thread in threads:
        thread.join()
    if faults:
        raise faults[0]
    return taken


@contextlib.contextmanager
def held(port, row):
    """The holders of a row, which are there meanwhile."""
    ended = threading.Event()
    threads = [threading.Thread(target=row.holds, args=(port, ended), daemon=True) for _ in range(row.count)]
    for thread in threads:
        thread.start()
    time.sleep(BEFORE if row.count else 0)
    try:
        yield
    finally:
        ended.set()
        for thread in threads:
            thread.join()


def others(outcomes, count):
    """What the log says besides so many that were answered with 200."""
    told = collections.Counter(outcomes)
    told["200"] -= count
    return +told


def settled(served, count):
    """What came of connections, once there are so many lines of the log, or they come no more."""
    for _ in range(10 * (desk.MOST_SECONDS + desk.SPARE_SECONDS)):
        if len(served.outcomes()) >= count:
            break
        time.sleep(0.1)
    return served.outcomes()


def is_right(served, row):
    """Prints a row, and tells whether it is as it has to be."""
    before = len(served.outcomes())
    with held(served.port, row):
        in_turn = [asked(served.port) for _ in range(ASKING)]
        at_once = asked_at_once(served.port)
    outcomes = settled(served, before + row.count + 2 * ASKING)[before:]
    rest = others(outcomes, 2 * ASKING)
    fits = set(rest) <= row.words and len(outcomes) == row.count + 2 * ASKING
    right = fits and max(in_turn) <= MOST_IN_TURN and max(at_once) <= MOST_AT_ONCE
    numbers = "".join(f"{1000 * number:>10.2f}" for number in
                      (statistics.median(in_turn), max(in_turn), statistics.median(at_once), max(at_once)))
    words = ", ".join(f"{number} {word}" for word, number in sorted(rest.items()))
    print(f"{row.count:>4} {row.title:<38}{numbers}  {words}{'' if right else '  WRONG'}", flush=True)
    return right


# ---- how fast it is

def read_time(program):
    """The least and the median time of short reads of a new desk of a program, in seconds."""
    with tempfile.TemporaryDirectory() as folder:
        work = pathlib.Path(folder)
        (work / "policy.toml").write_text(desk.POLICY)
        subprocess.run([program, "init", "--db", work / "desk.db"], check=True)
        port = desk.free_port()
        words = [program, "serve", "--db", work / "desk.db", "--policy", work / "policy.toml", "--listen",
                 f"127.0.0.1:{port}"]
        with subprocess.Popen(words, stdin=subprocess.DEVNULL, stdout=subprocess.DEVNULL) as process:
            try:
                return read_time_at(port)
            finally:
                process.kill()


def read_time_at(port):
    for _ in range(1000):
        with contextlib.suppress(ConnectionError):
            socket.create_connection(("127.0.0.1", port)).close()
            break
        time.sleep(0.01)
    taken = [asked(port) for _ in range(READS)]
    return min(taken), statistics.median(taken)


def is_as_fast(before):
    """Whether a short read takes as long as before, or little longer. Both programs are asked in turn, thrice."""
    times = {}
    for program in [before, desk.program()] * 3 if before else [desk.program()]:
        found = read_time(program)
        times[program] = min(found, times.get(program, found))
        print(f"short read of {program}: least {1e6 * found[0]:.0f}, median {1e6 * found[1]:.0f} microseconds")
    return not before or all(here <= MOST_TIMES * there for here, there in zip(times[desk.program()], times[before]))


def is_served_by_many(port, connections):
    """Whether `wrk` with so many connections meets no failure."""
    words = ["wrk", "-t2", f"-c{connections}", "-d5s", "-H", "Authorization: Bearer t-ada",
             f"http://127.0.0.1:{port}/active/A"]
    told = subprocess.run(words, capture_output=True, text=True, check=True).stdout
    rate = re.search(r"Requests/sec:\s+([0-9.]+)", told)[1]
    failed = re.findall(r"Socket errors:.*|Non-2xx.*", told)
    print(f"wrk with {connections} connections: {rate} requests each second; {'; '.join(failed) or 'none failed'}")
    return not failed


def main():
    with tempfile.TemporaryDirectory() as folder:
        work = pathlib.Path(folder)
        (work / "policy.toml").write_text(desk.POLICY)
        desk.make(work / "desk.db")
        with desk.Desk(work / "desk.db", work / "policy.toml", work / "desk.log") as served:
            make_wide(served.port)
            print(f"{'beside them, milliseconds':<43}{'in turn':>10}{'most':>10}{'at once':>10}{'most':>10}  the log")
            right = [is_right(served, row) for row in ROWS]
            print(f"the process had {served.peak() / 2 ** 20:.0f} MiB at most")
            if shutil.which("wrk"):
                right += [is_served_by_many(served.port, connections) for connections in (50, 500)]
            else:
                print("wrk is not there: 50 and 500 connections are not tried")
            right.append(is_as_fast(os.environ.get("SANDESK_BEFORE")))
            if not all(right) or not served.is_running() or served.faults():
                sys.exit("somebody waits for a client that holds on, or something else is wrong")


if __name__ == "__main__":
    main()
