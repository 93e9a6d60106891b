#!/usr/bin/env python3
"""Tells which steps of proofs take most: of each crate that a command has proved, the dearest steps, and what
each kind of step takes, in seconds of a processor.

    cd crates/fab_lemmas && python3 ../../bench/proof_steps.py rt verdict --jobs 1
    python3 bench/proof_steps.py rt ci

The command has to prove from nothing: of `rt check`, which goes on with what it has kept, nothing is told. The
prover writes a file behind each step into a folder of its own, which goes when it ends; this script looks at
those folders while the command runs. `NAME.Lts` is a function's code as a machine of states, `NAME.Proof` the
goals that no file answers, `NAME.Answers` those that one does, `NAME.Tie` what ties the machine to what clauses
speak of. A step's time is right where the prover has one job, as `.ci/run` gives it, and within a quarter of a
second. It needs a Linux machine, and nothing but Python.
"""
import collections
import os
import pathlib
import re
import subprocess
import sys
import tempfile
import time

ROOM = "rattle-logic-built-locked-"
PAUSE = 0.25
MOST_STEPS, MOST_KINDS = 15, 8


def is_below(process):
    """Whether a process was started by this script, or by one that was."""
    while process > 1 and process != os.getpid():
        process = int(pathlib.Path(f"/proc/{process}/stat").read_text().rpartition(")")[2].split()[1])
    return process == os.getpid()


class Prover:
    """What a prover has written so far, and when it had used how much of a processor."""

    def __init__(self, process):
        self.crate = pathlib.Path(os.readlink(f"/proc/{process}/cwd")).name
        self.process, self.spent, self.files = process, [], {}

    def look(self, room):
        """Notes the time that the prover has used, and the files that are new in its folder."""
        said = pathlib.Path(f"/proc/{self.process}/stat").read_text().rpartition(")")[2].split()
        self.spent.append((time.time(), (int(said[11]) + int(said[12])) / os.sysconf("SC_CLK_TCK")))
        for file in room.rglob("*.oantt"):
            if file not in self.files:
                self.files[file] = file.stat().st_mtime

    def spent_at(self, moment):
        """How much of a processor it had used at a moment: between two looks by how far it lies between them."""
        before = self.spent[0]
        for after in self.spent:
            if after[0] > moment:
                share = (moment - before[0]) / max(after[0] - before[0], 1e-9)
                return before[1] + max(share, 0) * (after[1] - before[1])
            before = after
        return before[1]

    def steps(self):
        """The seconds and the name of each step, in order."""
        written = sorted((moment, file.name.removesuffix(".oantt")) for file, moment in self.files.items())
        ends = [self.spent_at(moment) for moment, _ in written]
        return [(end - start, name) for start, end, (_, name) in zip(ends, ends[1:], written[1:])]


def watch(running, provers):
    """Looks at the folders of all provers until the command ends."""
    while running.poll() is None:
        for room in pathlib.Path(tempfile.gettempdir()).glob(f"{ROOM}*"):
            process = int(re.match(rf"{ROOM}(\d+)", room.name)[1])
            try:
                if process not in provers and is_below(process):
                    provers[process] = Prover(process)
                if process in provers:
                    provers[process].look(room)
            except OSError:
                pass  # it has just ended, and its folder goes
        time.sleep(PAUSE)


def tell(prover):
    """Prints what the steps of a crate took."""
    steps, kinds = prover.steps(), collections.Counter()
    own = f"Rattle-{prover.crate}"
    for spent, name in steps:
        kinds[name.rpartition(".")[2] if name.startswith(own) else "of what is below"] += spent
    print(f"{prover.crate}: {prover.spent[-1][1]:.0f} s, of which {sum(kinds.values()):.0f} in {len(steps)} steps")
    print("  " + ", ".join(f"{kind} {spent:.0f}" for kind, spent in kinds.most_common(MOST_KINDS)))
    for spent, name in sorted(steps, reverse=True)[:MOST_STEPS]:
        print(f"  {spent:6.1f}  {name.removeprefix(own).removeprefix('-proofs.')}")


def main():
    if len(sys.argv) < 2 or sys.argv[1].startswith("-"):
        sys.exit(__doc__)
    provers = {}
    running = subprocess.Popen(sys.argv[1:])
    watch(running, provers)
    for prover in provers.values():
        if prover.files:
            tell(prover)
    return running.returncode


if __name__ == "__main__":
    sys.exit(main())
