#!/usr/bin/env python3
"""Copies the database of a serving desk under load by contrib/sandesk-copy, and opens each copy.

    python3 bench/copies.py [--copies N] [--seed S]

Several clients put volumes at once, as many as a desk may have at most. Each put is counted as acknowledged once its answer of
status 200 has come whole. While they send, the database is copied again and again. Each copy is opened by
the program, which has to find it sound (status 0), and has to have whatever was acknowledged before the
copy began; it may have more, and nothing that was never asked for. Then what the script refuses is tried:
a path where something is, a process that is not there or has not the file open, and words that are wrong;
nothing may be left of these copies, and the desk has to serve on.

The last line is a summary. Exit status 1: something differs; then the databases stay where the line says.
"""
import pathlib
import random
import re
import shutil
import subprocess
import sys
import tempfile
import threading
import time

import desk

CLIENTS = 4

# How many volumes a client puts at most, and how long it waits behind each, in seconds.
MOST_VOLUMES, PAUSE = 1000, 0.015
SCRIPT = desk.TOP / "contrib" / "sandesk-copy"


class Load:
    """Clients that put volumes, each under a name that is used once."""

    def __init__(self, port):
        self.port, self.is_over, self.lock = port, False, threading.Lock()
        self.asked, self.done, self.faults = set(), set(), []
        self.threads = [threading.Thread(target=self.client, args=(number,)) for number in range(CLIENTS)]

    def client(self, number):
        turn = 0
        while not self.is_over and turn < MOST_VOLUMES:
            name = f"v{number}n{turn}"
            with self.lock:
                self.asked.add(name)
            try:
                body = '{"array":"arr1","bytes":1,"tenant":"blue"}'
                desk.ask(self.port, "PUT", f"/volumes/{name}", body)
            except (desk.Fault, OSError) as fault:
                self.faults.append(str(fault))
                return
            with self.lock:
                self.done.add(name)
            turn += 1
            time.sleep(PAUSE)

    def acknowledged(self):
        with self.lock:
            return set(self.done)

    def asked_for(self):
        with self.lock:
            return set(self.asked)

    def __enter__(self):
        for thread in self.threads:
            thread.start()
        return self

    def __exit__(self, *_):
        self.is_over = True
        for thread in self.threads:
            thread.join()


def copied(pid, database, copy):
    """What the script says and its status."""
    done = subprocess.run([SCRIPT, str(pid), str(database), str(copy)], capture_output=True, text=True, check=False)
    return done.returncode, done.stdout, done.stderr


def volumes_in(copy, policy):
    """The names of the volumes of a copy, which the program opens."""
    status, told, fault = desk.ran("list", "--db", copy, "--policy", policy, "--token", "t-ada", "volumes")
    if status:
        raise desk.Fault(f"the copy {copy} is not opened: status {status}, {fault}")
    return {line.split()[0] for line in told.decode().splitlines()[1:]}


def try_copy(served, load, copy):
    """One copy; how many milliseconds the desk was held."""
    before = load.acknowledged()
    status, told, fault = copied(served.process.pid, served.database, copy)
    after = load.asked_for()
    if status:
        raise desk.Fault(f"not copied: status {status}, {fault}")
    there = volumes_in(copy, served.policy)
    if lost := before - there:
        raise desk.Fault(f"{copy} lacks {len(lost)} acknowledged changes, as {min(lost)}")
    if others := there - after:
        raise desk.Fault(f"{copy} has what nobody asked for, as {min(others)}")
    return int(re.match(r"held (\d+) ms; ", told)[1])


def try_refusals(served, room):
    """What the script has to refuse, and that nothing is left of it."""
    pid, database, copy = served.process.pid, served.database, room / "refused.db"
    (room / "there.db").write_text("here")
    cases = [
        ((pid, database, room / "there.db"), 3), ((1 << 22, database, copy), 3),
        ((pid, room / "there.db", copy), 3), ((pid, room / "no.db", copy), 3),
        ((pid, database, room / "none" / "refused.db"), 3), (("desk", database, copy), 2), ((pid, "", copy), 2),
    ]
    for words, wanted in cases:
        status, told, fault = copied(*words)
        if status != wanted or told or fault.count("\n") != 1:
            raise desk.Fault(f"sandesk-copy {words}: status {status}, {told!r}, {fault!r}")
    if copy.exists() or (room / "there.db").read_text() != "here":
        raise desk.Fault("a refused copy left something")


def main():
    asked = desk.asked_for("Copies a desk's database under load", copies=60)
    rng, room = random.Random(asked.seed), pathlib.Path(tempfile.mkdtemp(prefix="sandesk-copies-"))
    database, policy = room / "desk.db", room / "policy.toml"
    policy.write_text(desk.POLICY)
    desk.make(database)
    held = []
    try:
        with desk.Desk(database, policy, room / "desk.log") as served:
            desk.ask(served.port, "PUT", "/arrays/arr1", desk.holder([], "blue"))
            with Load(served.port) as load:
                for number in range(asked.copies):
                    time.sleep(rng.uniform(0, 0.1))
                    held.append(try_copy(served, load, room / f"copy{number}.db"))
                try_refusals(served, room)
            if load.faults:
                raise desk.Fault(f"a request failed: {load.faults[0]}")
    except desk.Fault as fault:
        print(f"{fault}; the databases are in {room}, --seed {asked.seed}")
        return 1
    shutil.rmtree(room)
    held.sort()
    print(f"{len(held)} copies, each sound and with the {len(load.done)} acknowledged changes so far; "
          f"held {held[len(held) // 2]} ms by the median, {held[-1]} ms at most")
    return 0


if __name__ == "__main__":
    sys.exit(main())
