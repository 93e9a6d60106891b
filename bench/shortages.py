#!/usr/bin/env python3
"""Takes room on the disk and memory away from a serving process while it is asked for changes, gives it
back, and compares what is there with what was answered.

    python3 bench/shortages.py [--changes N] [--seed S]

The commands are those of `bench/ended_by_force.py`, one after the other, and large imports in between.
Before some of them the limits of the process are set (prlimit): it may not write behind some place of
its files (RLIMIT_FSIZE), or get more than some pages of memory (RLIMIT_DATA). A second desk, which has no
limits, is asked the same. What the first answers has to be what the second answers, or

    503, code 21    nothing was changed
    503, code 22    the change is there as a whole, or not at all
    503, code 23    nothing was changed; it comes behind a 22 only, until room is there again

With the limits still there a read is asked for, which is answered as by the second desk, or 503. Then the
limits are lifted, the rows of all tables are compared, and what was not made is asked for again, and
answered as by the second desk: nothing is started again.

The last line is a summary. Exit status 1: something differs; `--seed` with the number that is told gives
the same commands and limits again.
"""
import collections
import os
import pathlib
import random
import re
import resource
import sys
import tempfile

import desk
from ended_by_force import commands, preparation

CHANGES = 600

# How often the limits are set; how much larger than they are the files may become at most, and how much
# memory there is at most beside what the process has, in bytes.
SHARE = 0.4
MOST_GROWTH = 8192
MOST_MEMORY = 3000000

# How often a large import comes in between, and of how many ports.
CROWDS = 0.2
PORTS = 2000


class Limited(desk.Desk):
    """A desk whose room can be taken away. It gives memory back to the system as soon as it can (by
    words for the allocator of the GNU C library), so that it has to ask for it anew; and it is not ended
    by the signal of a file that may not grow, which Python ignores and leaves so."""

    def __init__(self, database, policy, log):
        words = {"MALLOC_MMAP_THRESHOLD_": "16384", "MALLOC_TRIM_THRESHOLD_": "0", "MALLOC_TOP_PAD_": "0"}
        super().__init__(database, policy, log, env={**os.environ, **words}, restore_signals=False)

    def size(self):
        """How large the largest of its files is."""
        return max(place.stat().st_size for place in self.database.parent.glob(f"{self.database.name}*"))

    def data(self):
        """How much memory of its own the process has."""
        status = pathlib.Path(f"/proc/{self.process.pid}/status").read_text()
        return int(re.search(r"VmData:\s+(\d+) kB", status)[1]) * 1024

    def limit(self, kind, most):
        resource.prlimit(self.process.pid, kind, (most, resource.RLIM_INFINITY))

    def lift(self):
        for kind in (resource.RLIMIT_FSIZE, resource.RLIMIT_DATA):
            self.limit(kind, resource.RLIM_INFINITY)

    def tighten(self, rng):
        """Takes room on the disk away, or memory; tells which."""
        if rng.random() < 0.5:
            self.limit(resource.RLIMIT_FSIZE, rng.randrange(self.size() + MOST_GROWTH))
            return "disk"
        self.limit(resource.RLIMIT_DATA, self.data() + rng.randrange(MOST_MEMORY))
        return "memory"


def crowd(rng):
    """An import of many ports, each at another place than before, which needs more than others."""
    records = [(0x30 << 56 | number + 1, 1, rng.randint(1, 239), number) for number in range(PORTS)]
    return desk.request("POST", "/imports/A", desk.port_list(records))


class Shortages:
    """A desk with limits and one without."""

    def __init__(self, work):
        self.work, self.counts = work, collections.Counter()
        self.policy = work / "policy.toml"
        self.policy.write_text(desk.POLICY)
        self.short = Limited(work / "short.db", self.policy, work / "short.log")
        self.ample = desk.Desk(work / "ample.db", self.policy, work / "ample.log")

    def start(self, seed):
        for each in (self.short, self.ample):
            desk.make(each.database)
            each.start()
            for sent in [crowd(random.Random(seed)), *preparation(random.Random(seed))]:
                desk.call(each.port, sent)

    def tables(self, each):
        return desk.tables_of(each.database, self.work / "copy.db")

    def ask(self, rng, sent):
        """One command to both; the answer of the desk without limits, as status and body."""
        cause = self.short.tighten(rng) if rng.random() < SHARE else None
        answer = desk.call(self.short.port, sent)
        status, told = desk.answer_of(answer)
        if status == 503:
            self.counts[f"{told['code']} for {cause}"] += 1
            return self.refused(cause, sent, told["code"])
        wanted = desk.call(self.ample.port, sent)
        self.short.lift()
        if answer != wanted:
            raise desk.Fault(f"{sent[:200]!r} is answered {answer[-300:]!r}, and without limits {wanted[-300:]!r}")
        return status, told

    def refused(self, cause, sent, code):
        """What has to be so after a 503."""
        if cause is None or code == 23:
            raise desk.Fault(f"{sent[:200]!r} is answered with code {code}, and the limit is {cause}")
        self.read("limited")
        self.short.lift()
        before, found = self.tables(self.ample), self.tables(self.short)
        wanted = desk.call(self.ample.port, sent)
        if found == before:
            answer = desk.call(self.short.port, sent)
        elif found == self.tables(self.ample) and code == 22:
            self.counts["22 and made"] += 1
            answer = wanted
        else:
            raise desk.Fault(f"{sent[:200]!r} is answered with code {code}, and a part of it was made")
        if answer != wanted:
            raise desk.Fault(f"asked again, {sent[:200]!r} is answered {answer[-300:]!r}, not {wanted[-300:]!r}")
        return desk.answer_of(wanted)

    def read(self, when):
        """Two reads, which are answered as without limits, or with 503."""
        for path in ("/paths/h0", "/active/A"):
            asked = desk.request("GET", path)
            answer = desk.call(self.short.port, asked)
            status, told = desk.answer_of(answer)
            if status == 503:
                self.counts[f"{told['code']} for a read"] += 1
            elif answer != desk.call(self.ample.port, asked):
                raise desk.Fault(f"{when}, {path} is answered {answer[-300:]!r}")

    def run(self, count, seed):
        self.start(seed)
        asked, rng = commands(random.Random(f"{seed} commands"), "p"), random.Random(f"{seed} limits")
        sent = next(asked)
        for _ in range(count):
            if rng.random() < CROWDS:
                self.ask(rng, crowd(rng))
            sent = asked.send(self.ask(rng, sent))
        if self.tables(self.short) != self.tables(self.ample):
            raise desk.Fault("in the end the tables differ")
        if not self.short.is_running() or self.short.faults():
            raise desk.Fault(f"the desk ended by itself: {self.short.faults()}")

    def end(self):
        self.short.end()
        self.ample.end()


def main():
    asked = desk.asked_for("Takes room and memory away from a desk, and compares.", changes=CHANGES)
    with tempfile.TemporaryDirectory() as folder:
        shortages = Shortages(pathlib.Path(folder))
        try:
            shortages.run(asked.changes, asked.seed)
        except (desk.Fault, ConnectionError) as fault:
            running = shortages.short.is_running()
            sys.exit(f"seed {asked.seed}: {fault}; the desk is {'running' if running else 'gone'}")
        finally:
            shortages.end()
    told = ", ".join(f"{count} with {kind}" for kind, count in sorted(shortages.counts.items()))
    print(f"seed {asked.seed}: {asked.changes} commands; answered {told or 'all'}; the rest as without limits, "
          "and the tables are the same")


if __name__ == "__main__":
    main()
