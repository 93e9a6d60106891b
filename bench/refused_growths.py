#!/usr/bin/env python3
"""Has the built program answer stored requests with one allocation of the whole program refused, the
first, then the next, and so on, until a run meets no refusal, and compares what comes of each run.

    python3 bench/refused_growths.py [--program FILE] [--openings N] [--only WORD] [--runner N [N ..]]

Run it by hand from the top, after `./sandesk once < examples/import.http` has built the program. It
needs Linux on x86-64, where it stops the program at each call of its allocator (ptrace).

The requests of `examples/*.http` are each put to a desk in memory, and those of a session to one over a
file, each to a copy of the file as those before it left it. A run has to give one of these:

    the answer with ample memory, and the same rows
    503, code 21, or exit status 3 with `sandesk: memory`: the rows from before
    503, code 22, or exit status 3 with `sandesk: store`, since what the database needs is refused by
        the database: the rows from before or, of a change, those from after

A run makes thousands of allocations before it reads its request, as many as one on an empty input. Each
twentieth of these is refused, each N-th with `--openings N`, and every one behind them. `--only WORD`
tries the requests whose titles have the word. `--runner N` tries the stored requests with
`rt try --fail-alloc N` instead, which builds the program with run-time checks for each N, and takes
minutes for each. The last line is a summary. Exit status 1: a run gave something else.
"""
import argparse
import collections
import contextlib
import ctypes
import os
import pathlib
import re
import shutil
import signal
import sqlite3
import struct
import subprocess
import sys
import tempfile

TOP = pathlib.Path(__file__).resolve().parent.parent
PROGRAM = TOP / "crates" / "fab_program" / "out" / "fab_program"
EXAMPLES = TOP / "examples"
POLICY = EXAMPLES / "session.toml"

# So many of the last allocations of an opening are all refused too.
MARGIN = 20

# The functions of the program through which all its memory comes. Each answers 0 where there is none.
ALLOCATORS = ("rattle_alloc", "rattle_realloc")

TRACE_ME, GET_REGISTERS, SET_REGISTERS, CONTINUE, STEP = 0, 12, 13, 7, 9
REGISTERS, RAX, RIP, RSP = 27, 10, 16, 19
BREAKPOINT = b"\xcc"

LIBC = ctypes.CDLL(None, use_errno=True)
LIBC.ptrace.argtypes = [ctypes.c_long, ctypes.c_long, ctypes.c_void_p, ctypes.c_void_p]
LIBC.ptrace.restype = ctypes.c_long


def ptrace(call, pid, value=None):
    if LIBC.ptrace(call, pid, None, value) == -1:
        raise OSError(ctypes.get_errno(), f"ptrace {call}")


def symbols(program):
    """Where each symbol of a 64-bit ELF file stands, by name."""
    text = program.read_bytes()
    start, count = struct.unpack_from("<Q", text, 40)[0], struct.unpack_from("<H", text, 60)[0]
    sections = [struct.unpack_from("<IIQQQQII", text, start + 64 * at) for at in range(count)]
    found = {}
    for _, kind, _, _, offset, size, link, _ in sections:
        if kind == 2:
            names = sections[link][4]
            for at in range(offset, offset + size, 24):
                name, _, _, _, value, _ = struct.unpack_from("<IBBHQQ", text, at)
                found[text[names + name : text.index(b"\0", names + name)].decode()] = value
    return found


class Run:
    """A run of the program, in which the allocation of this number is refused, from 1 on."""

    def __init__(self, places, words, request, refused):
        self.refused, self.count = refused, 0
        with tempfile.TemporaryFile() as given, tempfile.TemporaryFile() as out, tempfile.TemporaryFile() as err:
            given.write(request)
            given.seek(0)
            child = subprocess.Popen(words, stdin=given, stdout=out, stderr=err, preexec_fn=lambda: ptrace(TRACE_ME, 0))
            self.pid = child.pid
            os.waitpid(self.pid, 0)
            status = self.lead(places)
            child.returncode = status
            self.status = os.waitstatus_to_exitcode(status)
            out.seek(0)
            err.seek(0)
            self.out, self.err = out.read(), err.read()

    def lead(self, places):
        """Leads the program from one call of its allocator to the next, up to its end."""
        with open(f"/proc/{self.pid}/maps") as maps:
            base = int(next(maps).split("-")[0], 16)
        with open(f"/proc/{self.pid}/mem", "r+b", buffering=0) as self.memory:
            self.first = {base + place: self.read(base + place, 1) for place in places}
            self.put(BREAKPOINT)
            while True:
                ptrace(CONTINUE, self.pid)
                _, status = os.waitpid(self.pid, 0)
                if not os.WIFSTOPPED(status):
                    return status
                if os.WSTOPSIG(status) != signal.SIGTRAP:
                    os.kill(self.pid, signal.SIGKILL)
                    continue
                self.pass_or_refuse()

    def read(self, place, count):
        self.memory.seek(place)
        return self.memory.read(count)

    def write(self, place, text):
        self.memory.seek(place)
        self.memory.write(text)

    def put(self, byte):
        """Puts this byte where each allocator begins, or what stood there where none is given."""
        for place, first in self.first.items():
            self.write(place, byte or first)

    def pass_or_refuse(self):
        """The program stands behind the first byte of an allocator."""
        registers = (ctypes.c_ulonglong * REGISTERS)()
        ptrace(GET_REGISTERS, self.pid, registers)
        place = registers[RIP] - 1
        self.count += 1
        if self.count == self.refused:
            registers[RAX] = 0
            registers[RIP] = struct.unpack("<Q", self.read(registers[RSP], 8))[0]
            registers[RSP] += 8
            ptrace(SET_REGISTERS, self.pid, registers)
            self.put(None)
            return
        registers[RIP] = place
        ptrace(SET_REGISTERS, self.pid, registers)
        self.write(place, self.first[place])
        ptrace(STEP, self.pid)
        os.waitpid(self.pid, 0)
        self.write(place, BREAKPOINT)


def body(answer):
    return answer.partition(b"\r\n\r\n")[2]


def copied(database, folder):
    """A copy of a file as it is, with what has not moved into it yet, in an empty folder."""
    folder.mkdir(exist_ok=True)
    for place in folder.glob(f"{database.name}*"):
        place.unlink()
    for place in database.parent.glob(f"{database.name}*"):
        shutil.copy(place, folder)
    return folder / database.name


def rows(database):
    """All rows of all tables; nothing where there is no file."""
    if database is None:
        return None
    read = copied(database, database.parent / "read")
    with contextlib.closing(sqlite3.connect(read)) as connection:
        tables = connection.execute("SELECT name FROM sqlite_schema WHERE type = 'table' ORDER BY name").fetchall()
        return {name: sorted(connection.execute(f'SELECT * FROM "{name}"'), key=repr) for (name,) in tables}


def message(line, text):
    """The bytes of a request by ada."""
    head = f"{line} HTTP/1.1\r\nAuthorization: Bearer t-ada\r\nContent-Length: {len(text)}\r\n\r\n"
    return head.encode() + text


def example(name):
    return (EXAMPLES / name).read_bytes()


def stored():
    """The stored requests, each by its name."""
    return [(place.stem, place.read_bytes()) for place in sorted(EXAMPLES.glob("*.http"))]


def session():
    """Requests over a file, one after the other."""
    return [
        ("fabric A", message("POST /imports/A", example("fabric-a.csv"))),
        ("fabric B", message("POST /imports/B", example("fabric-b.csv"))),
        *((f"put {name}", example(f"put-{name}.http")) for name in ("db1", "db2", "arr1", "v1", "v2")),
        ("stage", message("PUT /plans/p1", example("first-host.plan"))),
        ("dry run", message("GET /plans/p1/dryrun", b"")),
        ("activate", message("POST /plans/p1/activate", b"")),
        ("paths", example("paths.http")),
        ("joined", example("joined.http")),
        ("stage again", message("PUT /plans/p2", example("unmap.plan"))),
        ("withdraw what is not there", message("POST /plans/p9/withdraw", b"")),
        ("activate again", message("POST /plans/p2/activate", b"")),
        ("roll back", message("POST /plans/p2/rollback", b"")),
    ]


class Trial:
    """Requests, each with its allocations refused in turn."""

    def __init__(self, program, openings, work):
        self.program, self.openings, self.work = program, openings, work
        where = symbols(program)
        self.places = [where[name] for name in ALLOCATORS]
        self.counts = collections.Counter()

    def words(self, database):
        """The words of a call, over a file or in memory."""
        of_file = ["--db", database, "--policy", POLICY, "--now", "0"] if database else []
        return [self.program, "once", *of_file]

    def run(self, database, request, refused):
        return Run(self.places, self.words(database), request, refused)

    def copy(self, database):
        """A copy of a file as it is."""
        return database and copied(database, self.work / "copy")

    def kind(self, run, copy, before, ample, after):
        """What came of a run; none where it is nothing of what it may be."""
        there = rows(copy)
        if (run.status, run.out, run.err) == (ample.status, ample.out, ample.err):
            return "answered" if there == after else None
        text = body(run.out) or run.err.strip()
        if run.out and (run.status, run.err) != (0, b""):
            return None
        if text in (b'{"code":21,"error":"memory"}', b"sandesk: memory") and there == before:
            return "memory"
        if text in (b'{"code":22,"error":"store"}', b"sandesk: store") and there in (before, after):
            return "store"
        return None

    def numbers(self, opening, count):
        """The allocations that are refused, of so many, by their numbers: all but of the opening."""
        own = max(opening - MARGIN, 1)
        return [*range(1, own, self.openings), *range(own, count + 1)]

    def refuse_each(self, title, database, request):
        """Refuses one allocation after the other, each in a run of its own over a copy of the file."""
        before, opening = rows(database), self.run(self.copy(database), b"", 0).count
        copy = self.copy(database)
        ample = self.run(copy, request, 0)
        after, counts = rows(copy), collections.Counter()
        for number in self.numbers(opening, ample.count):
            copy = self.copy(database)
            run = self.run(copy, request, number)
            kind = self.kind(run, copy, before, ample, after)
            counts[kind or "astray"] += 1
            if kind is None:
                print(f"  {title}, allocation {number}: status {run.status}, {run.out[-80:]!r} {run.err[-80:]!r}")
        print(f"{title:<28}{ample.count:>8}" + "".join(f"{counts[it]:>10}" for it in KINDS), flush=True)
        self.counts += counts

    def carry_out(self, database, request):
        """Has the desk over the file answer the request."""
        subprocess.run(self.words(database), input=request, capture_output=True, check=True)


KINDS = ("answered", "memory", "store", "astray")


def sweep(given):
    with tempfile.TemporaryDirectory() as folder:
        work = pathlib.Path(folder)
        trial = Trial(given.program, given.openings, work)
        print(f"{'request':<28}{'requests':>8}" + "".join(f"{it:>10}" for it in KINDS))
        for title, request in stored():
            if given.only in title:
                trial.refuse_each(title, None, request)
        database = work / "desk.db"
        subprocess.run([given.program, "init", "--db", database], check=True)
        for title, request in session():
            title = f"session, {title}"
            if given.only in title:
                trial.refuse_each(title, database, request)
            trial.carry_out(database, request)
    return trial.counts


def tried(number):
    """What the toolchain's runner says of each stored request with this allocation refused."""
    with tempfile.TemporaryDirectory() as folder:
        for title, request in stored():
            (pathlib.Path(folder) / title).write_bytes(request)
        words = ["rt", "try", "--fail-alloc", str(number), "--cases", folder, "--", "once"]
        ran = subprocess.run(words, cwd=TOP / "crates" / "fab_program", capture_output=True)
    text = (ran.stdout + ran.stderr).replace(b"\r\n", b"\n")
    parts = re.split(rb"^== (\S+)\n", text, flags=re.M)[1:]
    return dict(zip((name.decode() for name in parts[::2]), parts[1::2]))


def kind_of(said, ample):
    """What came of a case, by what the runner says of it."""
    if b"run=ended" not in said:
        return "astray"
    if body(ample) in said and ample.split(b"\r\n")[0] in said:
        return "answered"
    for kind, text in (("memory", b'"error":"memory"'), ("memory", b"sandesk: memory"), ("store", b'"error":"store"'), ("store", b"sandesk: store")):
        if text in said:
            return kind
    return "astray"


def by_runner(given):
    counts = collections.Counter()
    ample = {title: subprocess.run([given.program, "once"], input=request, capture_output=True).stdout for title, request in stored()}
    for number in given.runner:
        said = tried(number)
        found = collections.Counter(kind_of(said.get(title, b""), ample[title]) for title, _ in stored())
        print(f"{f'allocation {number}':<28}{'':>8}" + "".join(f"{found[it]:>10}" for it in KINDS), flush=True)
        counts += found
    return counts


def main():
    words = argparse.ArgumentParser(description=__doc__, formatter_class=argparse.RawDescriptionHelpFormatter)
    words.add_argument("--program", type=pathlib.Path, default=PROGRAM)
    words.add_argument("--openings", type=int, default=20)
    words.add_argument("--only", default="")
    words.add_argument("--runner", type=int, nargs="+")
    given = words.parse_args()
    if not given.program.exists():
        sys.exit("build the program first: ./sandesk once < examples/import.http")
    counts = by_runner(given) if given.runner else sweep(given)
    print(", ".join(f"{counts[it]} {it}" for it in KINDS) + f", of {counts.total()} runs")
    sys.exit(1 if counts["astray"] else 0)


if __name__ == "__main__":
    main()
