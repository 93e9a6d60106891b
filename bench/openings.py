#!/usr/bin/env python3
"""Times how long the built program takes to open a desk by the activations in force, beside what reading the same rows
takes by SQLite's own library, and tells what memory staged plans take.

    python3 bench/openings.py [--program PATH] [--before PATH] [--most N] [--times N] [CASE..]

PATH is a built program: without `--program` that of SANDESK, or else the one that `./sandesk` builds. `--before`
names an earlier one, which opens the same databases. It works in a temporary folder; TMPDIR names another place for it,
as `/dev/shm`, where no disk is waited for. CASE is one of these; all without one:

    groups    100, 250 and 2,000 hosts, each with a port, a zone, a host group and a storage group of its own, and 300,
              1,000 and 3,000 activations in force, of two steps each: a unit of a group gets another volume
    year      200 hosts, and 1,013 activations in force of 2 to 40 steps, as in a year of use
    plans     1,000 staged plans of 65,200 bytes; `apart` is an opening by a process in whose environment
              MALLOC_MMAP_THRESHOLD_ is 32768

An opening is timed by a run of `once` with no request: the process starts, opens the database, and ends. A run over a
new desk tells what starting takes by itself, and is taken away. `SQLite` reads all rows of all tables, by Python. With
`--most N` no database with more activations is made, and `--before` is asked only where there are at most 300.

The least of some runs is told in milliseconds, in the order of the groups, and then of the activations; `times` is how
many times as long the desk takes as SQLite.
"""
import contextlib
import os
import pathlib
import re
import sqlite3
import subprocess
import sys
import tempfile
import time

import desk

GROUPS = [100, 250, 2000]
IN_FORCE = [300, 1000, 3000]
BEFORE_MOST = 300
LINES_A_PLAN = 200
ARRAYS, TARGETS = 16, 4
YEAR_HOSTS, YEAR_PLANS = 200, 1013
PLANS = 1000
# With this glibc takes each block of 32 KiB and more from the system by itself, and gives it back when it is let go.
APART = {"MALLOC_MMAP_THRESHOLD_": "32768"}


# ---- worlds

def initiator(host):
    return 0x10 << 56 | host + 1


def target(array, number):
    return 0x50 << 56 | array << 8 | number + 1


def wwpns(ports):
    return " ".join(f"wwpn={port:016x}" for port in ports)


def made(at, hosts):
    """Makes hosts with a port, a zone, a host group and a storage group each, with a unit."""
    disks = [target(array, number) for array in range(ARRAYS) for number in range(TARGETS)]
    names = [initiator(host) for host in range(hosts)] + disks
    desk.ask(at, "POST", "/imports/A", desk.port_list([(name, name, 1, slot) for slot, name in enumerate(names)]))
    for array in range(ARRAYS):
        ports = [target(array, number) for number in range(TARGETS)]
        desk.ask(at, "PUT", f"/arrays/r{array}", desk.holder(ports, "blue"))
        for which in "ab":
            desk.ask(at, "PUT", f"/volumes/v{array}{which}", f'{{"array":"r{array}","bytes":512,"tenant":"blue"}}')
    for host in range(hosts):
        desk.ask(at, "PUT", f"/hosts/h{host}", desk.holder([initiator(host)], "blue"))
    lines = []
    for host in range(hosts):
        array, name = host % ARRAYS, f"{host}"
        lines += [f"zone.put A z{name} {wwpns([initiator(host), target(array, host % TARGETS)])}",
                  f"hg.put k{name} blue h{name}", f"sg.new g{name} blue r{array}", f"sg.host g{name} k{name}",
                  f"sg.target g{name} {target(array, host % TARGETS):016x}", f"sg.map g{name} 0 v{array}a",
                  f"sg.expose g{name}"]
    return lines + set_lines(hosts)


def set_lines(hosts):
    """A zone set of as many zones as one may have, which is activated."""
    return [f"set.put A s {' '.join(f'z{host}' for host in range(min(hosts, 200)))}", "activate A s"]


def activate(at, name, lines):
    for start in range(0, len(lines), LINES_A_PLAN):
        plan = f"{name}{start}"
        desk.ask(at, "PUT", f"/plans/{plan}", "\n".join(lines[start:start + LINES_A_PLAN]) + "\n")
        desk.ask(at, "POST", f"/plans/{plan}/activate")


def exchanged(turn, hosts):
    """Two steps: a unit gets the other volume."""
    host = turn % hosts
    which = "ba"[turn // hosts % 2]
    return [f"sg.unmap g{host} 0", f"sg.map g{host} 0 v{host % ARRAYS}{which}"]


def work_of_a_day(turn, hosts):
    """Steps of one plan of a year: units of some groups get other volumes, or a zone gets a target more."""
    lines = []
    for further in range(1 + turn * 7 % 20):
        lines += exchanged_at((turn * 31 + further) % hosts, turn, further)
    return lines


def exchanged_at(host, turn, further):
    which = "ab"[(turn + further) % 2]
    return [f"sg.unmap g{host} 0", f"sg.map g{host} 0 v{host % ARRAYS}{which}"]


# ---- what is timed

def seconds_of(words, given=b""):
    start = time.perf_counter()
    done = subprocess.run(words, input=given, capture_output=True, check=False)
    taken = time.perf_counter() - start
    if done.returncode != 0:
        raise desk.Fault(f"{words} ends with {done.returncode}: {done.stderr[:300]!r}")
    return taken


def opening(program, database, policy, times):
    """The least seconds of a run of `once` with no request."""
    return min(seconds_of([program, "once", "--db", database, "--policy", policy]) for _ in range(times))


def reading(database, copy, times):
    """The least seconds in which SQLite's own library reads all rows of all tables, and how many there are."""
    found = []
    desk.copied(database, copy)
    for _ in range(times):
        start = time.perf_counter()
        with contextlib.closing(sqlite3.connect(copy)) as opened:
            tables = [row[0] for row in opened.execute("SELECT name FROM sqlite_master WHERE type = 'table'")]
            rows = sum(len(opened.execute(f"SELECT * FROM {name}").fetchall()) for name in tables)
        found.append(time.perf_counter() - start)
    return min(found), rows


class Timed:
    """The programs, and where they work."""

    def __init__(self, programs, folder, times):
        self.programs, self.folder, self.times = programs, folder, times
        self.policy, self.empty = folder / "policy.toml", folder / "empty.db"
        self.policy.write_text(desk.OPEN_POLICY)
        desk.make(self.empty)
        self.starts = {name: opening(path, self.empty, self.policy, 5 * times) for name, path in programs.items()}

    def served(self, database):
        return desk.Desk(database, self.policy, f"{database}.log")

    def tell(self, title, database, in_force):
        known, rows = reading(database, self.folder / "copy.db", self.times)
        cells = []
        for name, path in self.programs.items():
            if name == "before" and in_force > BEFORE_MOST:
                cells.append(f"{'-':>12}{'-':>9}")
                continue
            taken = opening(path, database, self.policy, self.times) - self.starts[name]
            cells.append(f"{taken * 1e3:>12.1f}{taken / known:>9.1f}")
        print(f"{title:<36}{rows:>9}{known * 1e3:>10.1f}{''.join(cells)}", flush=True)

    def heading(self):
        names = "".join(f"{name:>12}{'times':>9}" for name in self.programs)
        print(f"\n{'opening, ms':<36}{'rows':>9}{'SQLite':>10}{names}")


def groups(timed, most):
    timed.heading()
    for hosts in GROUPS:
        database = timed.folder / f"groups-{hosts}.db"
        desk.make(database)
        done = 0
        for in_force in [count for count in IN_FORCE if count <= most]:
            with timed.served(database) as served:
                if done == 0:
                    activate(served.port, "made", made(served.port, hosts))
                for turn in range(done, in_force):
                    activate(served.port, f"t{turn}-", exchanged(turn, hosts))
            done = in_force
            timed.tell(f"{hosts} groups, {in_force} in force", database, in_force)


def year(timed, most):
    timed.heading()
    database = timed.folder / "year.db"
    desk.make(database)
    with timed.served(database) as served:
        activate(served.port, "made", made(served.port, YEAR_HOSTS))
        for turn in range(min(most, YEAR_PLANS)):
            activate(served.port, f"t{turn}-", work_of_a_day(turn, YEAR_HOSTS))
    timed.tell(f"a year of {YEAR_HOSTS} hosts", database, BEFORE_MOST)


def resident(process):
    status = pathlib.Path(f"/proc/{process.pid}/status").read_text()
    return int(re.search(r"VmRSS:\s+(\d+) kB", status)[1]) * 1024


def plan_text(turn):
    """A plan of 65,200 bytes in its printed form: 200 zones of ten ports."""
    lines = []
    for line in range(LINES_A_PLAN):
        ports = [bytes.hex((0x10 << 56 | turn << 32 | line << 8 | further + 1).to_bytes(8), ":") for further in range(10)]
        lines.append(f"zone.put A z{line:023} {' '.join(f'wwpn={port}' for port in ports)}")
    return "\n".join(lines) + "\n"


def plans(timed, _):
    print(f"\n{'memory, MiB':<36}{'a new desk':>12}{'1,000 plans':>12}{'opened':>12}{'most':>12}{'a plan, bytes':>15}"
          f"{'apart':>12}{'most':>12}")
    for name, path in timed.programs.items():
        database = timed.folder / f"plans-{name}.db"
        subprocess.run([path, "init", "--db", database], check=True)
        with desk.Desk(database, timed.policy, f"{database}.log", executable=path) as served:
            small = resident(served.process)
            size = 0
            for turn in range(PLANS):
                text = plan_text(turn)
                size += len(text)
                desk.ask(served.port, "PUT", f"/plans/p{turn}", text)
            staged = resident(served.process)
        with desk.Desk(database, timed.policy, f"{database}.log", executable=path) as served:
            opened, highest = resident(served.process), served.peak()
        with desk.Desk(database, timed.policy, f"{database}.log", executable=path, env={**os.environ, **APART}) as served:
            apart = resident(served.process), served.peak()
        told, last = ("".join(f"{value / 2**20:>12.1f}" for value in them) for them in ((small, staged, opened, highest), apart))
        print(f"{name + f', {size / PLANS:.0f} bytes each':<36}{told}{(opened - small) / PLANS:>15.0f}{last}", flush=True)


CASES = {"groups": groups, "year": year, "plans": plans}


def words_of():
    words = desk.comparing_words(__doc__)
    words.add_argument("--most", type=int, default=IN_FORCE[-1], help="the most activations in force")
    words.add_argument("--times", type=int, default=3, help="how often each is timed")
    words.add_argument("cases", nargs="*", metavar="CASE", help=", ".join(CASES))
    asked = words.parse_args()
    if not set(asked.cases) <= set(CASES):
        words.error(f"the cases are {', '.join(CASES)}")
    return asked


def main():
    asked = words_of()
    programs = desk.compared(asked)
    desk.tell_machine()
    for name in asked.cases or CASES:
        with tempfile.TemporaryDirectory() as folder:
            try:
                CASES[name](Timed(programs, pathlib.Path(folder), asked.times), asked.most)
            except desk.Fault as fault:
                sys.exit(str(fault))


if __name__ == "__main__":
    main()
