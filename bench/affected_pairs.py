#!/usr/bin/env python3
"""Times changes of one pair of an initiator and a target through the wire, in worlds of 1024, 8192 and 65472 paths,
and tells what part of them the book of paths takes, and what the limit on paths.

    python3 bench/affected_pairs.py [--program PATH] [--before PATH] [--connections N] [--seconds S] [WORLD..]

PATH is a built program: without `--program` that of SANDESK, or else the one that `./sandesk` builds. `--before`
names an earlier one, which is asked the same in the same run. It works in a temporary folder; TMPDIR names another
place for it, as `/dev/shm`, where no disk is waited for.

Each host has two ports, one in each fabric, and 64 paths: over each fabric to four targets of an array, with eight
units. There are 16 arrays, with 1, 8 or 64 hosts each, and a zone for each array and fabric. WORLD is one of these;
all without one:

    few       64 storage groups: for each array four, each of all its hosts and two units
    many      a storage group for each host
    wide      as few, with four targets more in each group, which no zone joins with a host: the groups offer twice
              as many paths as there are

Besides there are one host with one port, one array and one storage group, which have one pair and one path. All that is
timed takes it away or gives it back:

    target    the group loses the target, or gets it
    unit      the group loses its unit, or gets it
    member    the host's port leaves its zone, or enters it, and the zone set is activated again
    port      an import lists the host's port no more, or again
    place     an import lists the host's port somewhere else: no path moves
    volume    a put of a volume, larger or smaller than before: no path moves

The first three are tried (dry runs, which change nothing) and activated. A world is made once, by the earlier
program if there is one, and each program has a copy. All processes have their turns, ten connections at once.

The first table has for each size the least and the median time of a whole answer in milliseconds, and how many times
as long it takes in the largest world as in the smallest. A request of a path that is none tells what connecting,
sending, reading and closing take by themselves. `SQLite` is SQLite's own library, called by Python: the
rows that the request takes away and adds, in one transaction that is on the disk before it is done.

The second table has microseconds of a processor for each request. They need `perf`, which takes samples of the
process while it is asked on and on (bench/samples.py). Its parts:

    book      below functions of the book, whose step is made ready, and taken where the change is carried out
    limit     below functions that look whether there are too many paths
    step      both, and the functions that call them by themselves, with the library's functions right below: what the
              compiler has put into them of the book and the limit is here, so they take this together at most. In
              the program `fab_program.by-rattle` less is put into others, and `book` and `limit` are nearly all. Not
              here is what is let go where a change is taken over: that is the old inventory or configuration
    all       the whole process, in the kernel too

Stagings before an activation are not counted.
"""
import contextlib
import pathlib
import re
import statistics
import subprocess
import sys
import tempfile

import desk
import samples
import wire_calls

SIZES = [16, 128, 1023]
ARRAYS, TARGETS, UNITS, QUARTERS = 16, 4, 8, 4
LINES_A_PLAN = 200
CONNECTIONS, SECONDS = 201, 1.0

# The lone host's port, the target that it has, and where it is logged in.
LONE, DISK = 0x11 << 56 | 1, 0x51 << 56 | 1
SLOT, OTHER_SLOT = 4090, 4091

# Which part is at work, by the names of functions: of the book below it, with the rows that it is handed; of the limit
# below it, but the sight that stops past the limit by itself alone.
OF_BOOK = re.compile(r"fab_reach\w*::(?!config|path|view)|fab_desk_trials::moves::")
OF_LIMIT = re.compile(r"fab_reach::offers::|fab_world::present::|fab_desk_trials::limits::|fab_reach\w*::.*few")
OF_LIMITED = re.compile(r"fab_reach_books::limited::")
OF_MACHINE = re.compile(r"fab_desk_(?:machine::(?:proposing|change::take_over)|trials::steps)")
OF_OTHERS = re.compile(r"fab_(?:desk|plans|policy|store|wire|world|program)|sqlite|main|fab_reach_base::config::"
                       r"|fab_(?:inventory|zoning|mapping)\w*::\w+::\w+::(?:drop|copy)")
OF_LETTING = re.compile(r"std_\w+::.*(?:destroy|drop)")
PARTS = ["book", "limit", "step", "all"]

# How many samples a part has to have in the smallest or the largest world for the times to be told.
FEWEST = 20


# ---- worlds

class World:
    """A world: its kind, and how many hosts it has besides the lone one."""

    def __init__(self, kind, hosts):
        self.kind, self.hosts = kind, hosts
        self.paths = 2 * TARGETS * UNITS * hosts + 1
        self.offered = 2 * TARGETS if kind == "wide" else TARGETS

    def hosts_of(self, array):
        return range(array, self.hosts, ARRAYS)

    def targets(self, fabric, array, count):
        return [0x50 << 56 | fabric << 48 | array << 8 | number + 1 for number in range(count)]

    def ports(self, fabric, lone=SLOT):
        """The list of a fabric's ports; the lone host's port is at this place, or at none."""
        names = [initiator(fabric, host) for host in range(self.hosts)]
        for array in range(ARRAYS):
            names += self.targets(fabric, array, self.offered)
        records = [(name, name, 1, slot) for slot, name in enumerate(names)]
        if fabric == 0:
            records += [(DISK, DISK, 2, 1)] + ([(LONE, LONE, 2, lone)] if lone else [])
        return desk.port_list(records)

    def holders(self):
        """Kind, name and ports of all holders."""
        for array in range(ARRAYS):
            yield "arrays", f"r{array}", sum((self.targets(fabric, array, self.offered) for fabric in (0, 1)), [])
        for host in range(self.hosts):
            yield "hosts", f"h{host}", [initiator(fabric, host) for fabric in (0, 1)]
        yield from [("arrays", "lone", [DISK]), ("hosts", "bare", [LONE])]

    def zoning(self):
        lines = []
        for fabric, letter in enumerate("AB"):
            for array in range(ARRAYS):
                names = [initiator(fabric, host) for host in self.hosts_of(array)]
                lines.append(zone(letter, f"z{array}", names + self.targets(fabric, array, TARGETS)))
            zones = [f"z{array}" for array in range(ARRAYS)]
        lines += [zone("A", "lone", [LONE, DISK]), f"set.put A s {' '.join(zones)} lone",
                  f"set.put B s {' '.join(zones)}", "activate A s", "activate B s"]
        return lines

    def groups(self):
        """The lines of all host groups and storage groups."""
        lines = []
        for array in range(ARRAYS):
            if self.kind == "many":
                for host in self.hosts_of(array):
                    lines += [f"hg.put k{host} blue h{host}", *self.group(f"g{host}", array, f"k{host}", range(UNITS))]
            else:
                lines.append(f"hg.put k{array} blue {' '.join(f'h{host}' for host in self.hosts_of(array))}")
                for quarter in range(QUARTERS):
                    lines += self.group(f"g{array}-{quarter}", array, f"k{array}", range(quarter, UNITS, QUARTERS))
        return lines + ["hg.put bare blue bare", "sg.new lone blue lone", "sg.host lone bare",
                        f"sg.target lone {DISK:016x}", "sg.map lone 0 lone", "sg.expose lone"]

    def group(self, name, array, hosts, units):
        targets = sum((self.targets(fabric, array, self.offered) for fabric in (0, 1)), [])
        return [f"sg.new {name} blue r{array}", f"sg.host {name} {hosts}",
                *(f"sg.target {name} {target:016x}" for target in targets),
                *(f"sg.map {name} {unit} v{array}-{unit}" for unit in units), f"sg.expose {name}"]


def initiator(fabric, host):
    return 0x10 << 56 | fabric << 48 | host + 1


def zone(letter, name, ports):
    return f"zone.put {letter} {name} {' '.join(f'wwpn={port:016x}' for port in ports)}"


def volume(array, size=1 << 30):
    return f'{{"array":"{array}","bytes":{size},"tenant":"blue"}}'


def make(world, program, database, policy):
    """Makes a world in a new database, all over HTTP."""
    subprocess.run([program, "init", "--db", database], check=True)
    with desk.Desk(database, policy, f"{database}.log", executable=program) as served:
        at = served.port
        for fabric, letter in enumerate("AB"):
            desk.ask(at, "POST", f"/imports/{letter}", world.ports(fabric))
        for kind, name, ports in world.holders():
            desk.ask(at, "PUT", f"/{kind}/{name}", desk.holder(ports, "blue"))
        for array in range(ARRAYS):
            for unit in range(UNITS):
                desk.ask(at, "PUT", f"/volumes/v{array}-{unit}", volume(f"r{array}"))
        desk.ask(at, "PUT", "/volumes/lone", volume("lone"))
        gained = activated(at, "zoning", world.zoning()) + activated(at, "groups", world.groups())
        for name, (off, _) in PLANS.items():
            desk.ask(at, "PUT", f"/plans/try-{name}", off)
            told = desk.ask(at, "GET", f"/plans/try-{name}/dryrun")
            if (len(told["gained"]), len(told["lost"])) != (0, 1):
                raise desk.Fault(f"the plan {name} should lose one path: {told}")
    if gained != world.paths:
        raise desk.Fault(f"{gained} paths were gained, not {world.paths}")


def activated(port, name, lines):
    """Activates lines in plans of at most 200; how many paths were gained."""
    gained = 0
    for start in range(0, len(lines), LINES_A_PLAN):
        desk.ask(port, "PUT", f"/plans/{name}{start}", "\n".join(lines[start:start + LINES_A_PLAN]) + "\n")
        gained += len(desk.ask(port, "POST", f"/plans/{name}{start}/activate")["gained"])
    return gained


# ---- what is asked

# The text that takes the pair away, and the one that gives it back.
PLANS = {
    "target": (f"sg.untarget lone {DISK:016x}\n", f"sg.target lone {DISK:016x}\n"),
    "unit": ("sg.unmap lone 0\n", "sg.map lone 0 lone\n"),
    "member": (f"{zone('A', 'lone', [DISK])}\nactivate A s\n", f"{zone('A', 'lone', [LONE, DISK])}\nactivate A s\n"),
}

TITLES = {"client": "a path that is none"}
TITLES |= {f"try-{name}": f"dry run: {name}" for name in PLANS}
TITLES |= {name: f"activation: {name}" for name in PLANS}
TITLES |= {"port": "import: port", "place": "import: place", "volume": "put: volume"}


class Asked:
    """A serving process, and what it is asked: each change twice, so that the world is as before."""

    def __init__(self, world, served):
        self.world, self.served, self.plans = world, served, 0
        lists = {"port": (None, SLOT), "place": (OTHER_SLOT, SLOT)}
        self.lists = {name: [wire_calls.request("POST", "/imports/A", world.ports(0, slot)) for slot in slots]
                      for name, slots in lists.items()}
        self.puts = [wire_calls.request("PUT", "/volumes/put", volume("r0", size)) for size in (1 << 20, 1 << 21)]

    def staged(self, name, turn):
        """Stages the plan of this turn; the request of its activation."""
        self.plans += 1
        plan = f"{name}-{self.plans}"
        desk.ask(self.served.port, "PUT", f"/plans/{plan}", PLANS[name][turn % 2])
        return wire_calls.request("POST", f"/plans/{plan}/activate")

    def request(self, name, turn):
        if name == "client":
            return wire_calls.request("GET", "/nothing")
        if name in self.lists:
            return self.lists[name][turn % 2]
        if name == "volume":
            return self.puts[turn % 2]
        if name in PLANS:
            return self.staged(name, turn)
        return wire_calls.request("GET", f"/plans/{name}/dryrun")

    def next_call(self, name):
        """For `in_turn`: the port, the request, and how the answer begins, by the number of the turn."""
        begins = b"HTTP/1.1 404 " if name == "client" else wire_calls.ACCEPTED
        return lambda turn: (self.served.port, self.request(name, turn), begins)

    def send(self, requests):
        for sent in requests:
            _, answer = wire_calls.call(self.served.port, sent)
            if not answer.startswith(wire_calls.ACCEPTED):
                raise desk.Fault(f"unexpected answer {answer[:300]!r}")


# ---- whole answers

def cells(values, width, digits, is_sure=True):
    """Figures of each size, and how many times as large they are in the largest world, where that is sure."""
    times = f"{values[-1] / values[0]:.2f}" if values[0] and is_sure else "-"
    return "".join(f"{value:>{width}.{digits}f}" for value in values) + f"{times:>8}"


def heading(title, worlds, columns, width):
    """The lines above a table: for each column a figure of each size, and the times."""
    sizes = "".join(f"{world.paths:>{width}}" for world in worlds) + f"{'times':>8}"
    print(f"\n{title:<31}{''.join(f'{column:>{len(sizes)}}' for column in columns)}")
    print(f"{'paths':<31}{sizes * len(columns)}")


def answers_row(title, who, figures):
    told = "".join(cells(values, 9, 3) for values in zip(*figures))
    print(f"{title:<22}{who:<9}{told}", flush=True)


def time_answers(asked, name, count):
    """The least and the median time of a whole answer, by the program and the size."""
    times = wire_calls.in_turn(count, {key: one.next_call(name) for key, one in asked.items()})
    return {key: (min(values), statistics.median(values)) for key, values in times.items()}


def rows_moved(one, name, work):
    """A copy of a process's database, and the rows that it takes away and adds for a request."""
    before, after = work / "rows-before.db", work / "rows-after.db"
    sent = [one.request(name, turn) for turn in (0, 1)]
    tables = wire_calls.tables_of(desk.copied(one.served.database, before))
    one.send(sent[:1])
    moved = wire_calls.tables_of(desk.copied(one.served.database, after))
    one.send(sent[1:])
    return before, wire_calls.statements_between(tables, moved)


def beside_sqlite(asked, program, worlds, name, work, count):
    """The least and the median time of SQLite's own library for the same rows, by size."""
    found = []
    for world in worlds:
        database, rows = rows_moved(asked[program, world.hosts], name, work)
        values = wire_calls.time_sqlite(database, rows, count // 2)
        found.append((min(values), statistics.median(values)))
    return found


def tell_answers(asked, programs, worlds, work, count):
    """The first table; the times by what is asked, and then by the program and the size."""
    heading("whole answers, ms", worlds, ["least", "median"], 9)
    found = {}
    for name, title in TITLES.items():
        found[name] = time_answers(asked, name, count)
        for program in programs:
            answers_row(title, program, [found[name][program, world.hosts] for world in worlds])
            title = ""
        if name in PLANS or name in ("port", "volume"):
            answers_row("", "SQLite", beside_sqlite(asked, programs[0], worlds, name, work, count))
    return found


# ---- parts

def part_of(frames):
    """Which part a sample is of, by its functions, the innermost first: `all` where it is of no other, none where that
    is not known."""
    names = [frame.split("::<")[0] for frame in frames]
    if any(OF_LIMIT.match(name) for name in names):
        return "limit"
    own = next((name for name in names if name.startswith("fab_")), "")
    if OF_LIMITED.match(own):
        return "limit"
    if any(OF_BOOK.match(name) for name in names):
        return "book"
    own = next((name for name in names if OF_OTHERS.match(name)), None)
    if own is None:
        return None
    is_let_go = own.endswith("::take_over") and any(OF_LETTING.match(name) for name in names)
    return "step" if OF_MACHINE.match(own) and not is_let_go else "all"


def parts(one, code, name, requests):
    """Microseconds of a processor for each of so many requests, by parts; how many samples each part has; and the share
    of the unknown."""
    sent = [one.request(name, turn) for turn in range(requests)]
    with samples.Recorder(one.served.process.pid, code) as recorder:
        one.send(sent)
    told = [part_of(frames) for frames in recorder.frames()]
    found = {part: told.count(part) for part in PARTS}
    found |= {"step": found["step"] + found["book"] + found["limit"], "all": max(len(told), 1)}
    each = recorder.seconds * 1e6 / requests / found["all"]
    return [(count * each, count) for count in found.values()], told.count(None) / found["all"]


def parts_row(title, who, figures):
    told = []
    for part in zip(*figures):
        values, counts = zip(*part)
        told.append(cells(values, 9, 1, max(counts[0], counts[-1]) >= FEWEST))
    print(f"{title:<22}{who:<9}{''.join(told)}", flush=True)


def tell_parts(asked, programs, worlds, times, seconds):
    """The second table: each request is repeated for so many seconds, an even number of times."""
    heading("of a processor, us", worlds, PARTS, 9)
    unknown = []
    for name in [name for name in TITLES if name != "client"]:
        title = TITLES[name]
        for program, code in programs.items():
            figures = []
            for world in worlds:
                each = times[name][program, world.hosts][0] / 1e3
                requests = 2 * max(2, min(5000, int(seconds / each / 2)))
                values, lost = parts(asked[program, world.hosts], code, name, requests)
                figures.append(values)
                unknown.append(lost)
            parts_row(title, program, figures)
            title = ""
    print(f"Of the samples of a line at most {100 * max(unknown):.1f} per cent could not be told.")


# ---- a run

def run(kind, programs, work, asked_for):
    """All of a kind of worlds; `programs` has names and paths, the first is the one that the run is about."""
    worlds = [World(kind, hosts) for hosts in SIZES]
    policy, found = work / "policy.toml", {}
    policy.write_text(desk.OPEN_POLICY)
    with contextlib.ExitStack() as served:
        for world in worlds:
            made = work / f"{kind}-{world.hosts}.db"
            make(world, list(programs.values())[-1], made, policy)
            for name, program in programs.items():
                copy = desk.copied(made, work / f"{kind}-{world.hosts}-{name}.db")
                process = desk.Desk(copy, policy, work / f"{copy.name}.log", executable=program)
                served.callback(process.end)
                process.start(600)
                found[name, world.hosts] = Asked(world, process)
        print(f"\n{kind}: {', '.join(str(len(storage_groups(world))) for world in worlds)} storage groups")
        times = tell_answers(found, list(programs), worlds, work, asked_for.connections)
        if asked_for.seconds:
            codes = {name: samples.Program(path) for name, path in programs.items()}
            tell_parts(found, codes, worlds, times, asked_for.seconds)


def storage_groups(world):
    return [line for line in world.groups() if line.startswith("sg.new")]


def words_of():
    words = desk.comparing_words(__doc__)
    words.add_argument("--connections", type=int, default=CONNECTIONS, help="how many each process gets of a kind, odd")
    words.add_argument("--seconds", type=float, default=SECONDS, help="how long samples are taken of a kind; 0: never")
    words.add_argument("worlds", nargs="*", metavar="WORLD", help="few, many, wide")
    asked = words.parse_args()
    if asked.connections < 3 or asked.connections % 2 == 0 or not set(asked.worlds) <= {"few", "many", "wide"}:
        words.error("an odd number of connections, three at least, and worlds of these names")
    return asked


def main():
    asked = words_of()
    programs = desk.compared(asked)
    if asked.seconds and not samples.is_possible():
        print("perf can take no samples: parts are not told.")
        asked.seconds = 0
    desk.tell_machine()
    for kind in asked.worlds or ["few", "many", "wide"]:
        with tempfile.TemporaryDirectory() as folder:
            try:
                run(kind, programs, pathlib.Path(folder), asked)
            except desk.Fault as fault:
                sys.exit(str(fault))


if __name__ == "__main__":
    main()
