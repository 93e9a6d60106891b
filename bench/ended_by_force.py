#!/usr/bin/env python3
"""Ends a serving process by force at random moments under load, starts it again, and compares what is
there with what was acknowledged.

    python3 bench/ended_by_force.py [--ends N] [--seed S]

Several clients send commands at once: port lists, hosts, arrays and volumes put and dropped, plans
staged, approved, activated, rolled back and withdrawn. The process that serves them is ended (SIGKILL)
while their requests are in flight: at any moment, or, one time in three, just when its log of changes is
being written into the database file. What was acknowledged (200, the whole answer) is then asked of a
second desk over a database of its own, which is never ended, one request after the other in the order
of the revisions; it has to answer the same bytes. The rows of all twelve tables are compared, as
SQLite's own library reads them: those of the ended desk have to be those of the second one, or those of
the second one after one of the requests whose answers did not come. Every fourth start is ended too,
while the database is opened, before there is a start that lasts; and before the next requests both
desks are asked about all hosts, groups and fabrics, and have to answer the same.

The last line is a summary. Exit status 1: something differs; then the databases stay where the line
says, and `--seed` with the number that is told gives the same commands and moments again (how far the
desk comes until such a moment is the machine's part). Every 25 ends a new database is made.
"""
import collections
import pathlib
import random
import shutil
import subprocess
import sys
import tempfile
import threading
import time

import desk

CLIENTS = 4
ENDS_A_DATABASE = 25

# The longest time until an end, in seconds, and until the end of a start; how long the database file is
# looked at, and the longest time until an end once it is written.
MOST_LOAD = 0.3
MOST_START = 0.03
MOST_LOOKING = 3
MOST_WRITING = 0.01

HOSTS, ARRAYS, VOLUMES, OTHERS = 16, 4, 48, 400

Done = collections.namedtuple("Done", "revision uncounted client turn sent answer")


# ---- commands: each is a generator of requests, which is told the status and the body of each answer

def initiators(host):
    return [0x10 << 56 | fabric << 48 | host + 1 for fabric in (0, 1)]


def targets(array):
    return [0x50 << 56 | fabric << 48 | array * 2 + number + 1 for fabric in (0, 1) for number in (0, 1)]


def import_list(rng, _):
    """Nearly all ports of a fabric, at other places than before."""
    fabric = rng.randrange(2)
    names = [initiators(host)[fabric] for host in range(HOSTS)]
    names += [name for array in range(ARRAYS) for name in targets(array)[2 * fabric:2 * fabric + 2]]
    names += [0x20 << 56 | fabric << 48 | number + 1 for number in range(rng.randrange(OTHERS))]
    listed = [name for name in names if rng.random() < 0.95]
    records = [(name, name, rng.randint(1, 239), rng.randrange(4096)) for name in listed]
    yield desk.request("POST", f"/imports/{'AB'[fabric]}", desk.port_list(records))


def put_host(rng, _):
    host = rng.randrange(HOSTS)
    ports = initiators(host) if rng.random() < 0.8 else initiators(rng.randrange(HOSTS))[:1]
    yield desk.request("PUT", f"/hosts/h{host}", desk.holder(ports, rng.choice(["blue", "green"])))


def put_array(rng, _):
    array = rng.randrange(ARRAYS)
    ports = targets(array)[:rng.choice([4, 4, 4, 3])]
    yield desk.request("PUT", f"/arrays/r{array}", desk.holder(ports, "store"))


def put_volume(rng, _):
    volume = rng.randrange(VOLUMES)
    body = f'{{"array":"r{volume % ARRAYS}","bytes":{rng.randint(1, 1 << 40)},"tenant":"blue"}}'
    yield desk.request("PUT", f"/volumes/v{volume}", body)


def drop(rng, _):
    kind, count = rng.choice([("hosts/h", HOSTS), ("arrays/r", ARRAYS), ("volumes/v", VOLUMES)])
    yield desk.request("DELETE", f"/{kind}{rng.randrange(count)}")


def zoning(rng):
    """Lines by which a fabric has some zones, all in one set, which is active."""
    fabric, number = rng.randrange(2), rng.randrange(4)
    lines, zones = [], rng.sample(range(20), rng.randint(1, 6))
    for zone in zones:
        ports = [initiators(host)[fabric] for host in rng.sample(range(HOSTS), rng.randint(1, 8))]
        ports += targets(rng.randrange(ARRAYS))[2 * fabric:2 * fabric + 2]
        members = " ".join(f"wwpn={name:016x}" for name in ports)
        lines.append(f"zone.put {'AB'[fabric]} z{zone} {members}")
    named = " ".join(f"z{zone}" for zone in zones)
    return [*lines, f"set.put {'AB'[fabric]} s{number} {named}", f"activate {'AB'[fabric]} s{number}"]


def mapping(rng):
    """Lines that make a storage group, or change one."""
    number = rng.randrange(8)
    group, array = f"g{number}", number % ARRAYS
    volumes = [f"v{array + ARRAYS * place}" for place in rng.sample(range(VOLUMES // ARRAYS), 4)]
    unit = 16 * number
    if rng.random() < 0.5:
        named = " ".join(f"h{host}" for host in rng.sample(range(HOSTS), 3))
        lines = [f"hg.put k{number} blue {named}", f"sg.new {group} blue r{array}", f"sg.host {group} k{number}"]
        lines += [f"sg.target {group} {name:016x}" for name in targets(array)[:3]]
        return [*lines, f"sg.map {group} {unit} {volumes[0]}", f"sg.expose {group}"]
    maps = [f"sg.map {group} {unit + place} {volume}" for place, volume in enumerate(volumes, 1)]
    return rng.choice([maps, [f"sg.unmap {group} {unit}"], [f"sg.hide {group}"], [f"sg.expose {group}"],
                       [f"sg.drop {group}"]])


def plan(rng, name):
    """A plan that is staged, and then activated and perhaps rolled back, or withdrawn."""
    lines = zoning(rng) if rng.random() < 0.4 else mapping(rng)
    yield desk.request("PUT", f"/plans/{name}", "\n".join(lines) + "\n")
    if rng.random() < 0.5:
        yield desk.request("POST", f"/plans/{name}/approve", token="t-bob")
    if rng.random() < 0.1:
        yield desk.request("DELETE", f"/plans/{name}")
        return
    yield desk.request("GET", f"/plans/{name}/dryrun")
    status, _ = yield desk.request("POST", f"/plans/{name}/activate")
    if status == 200 and rng.random() < 0.8:
        yield from roll_back(name)


def roll_back(name):
    """Rolls a plan back, or the last one in force, a few times."""
    for _ in range(4):
        status, told = yield desk.request("POST", f"/plans/{name}/rollback")
        if status != 409 or told["code"] != 17:
            return
        name = told["last"]


def commands(rng, name):
    """Commands without end; the plans have names that begin with the given one."""
    kinds = [import_list, put_host, put_array, put_volume, drop, plan]
    number = 0
    while True:
        number += 1
        kind, = rng.choices(kinds, [10, 15, 8, 20, 8, 40])
        yield from kind(rng, f"{name}x{number}")


def preparation(rng):
    """What a new database is given first, so that most of what is asked then can be done."""
    for fabric in (0, 1):
        names = [initiators(host)[fabric] for host in range(HOSTS)]
        names += [name for array in range(ARRAYS) for name in targets(array)[2 * fabric:2 * fabric + 2]]
        records = [(name, name, 1, slot) for slot, name in enumerate(names)]
        yield desk.request("POST", f"/imports/{'AB'[fabric]}", desk.port_list(records))
    for array in range(ARRAYS):
        yield desk.request("PUT", f"/arrays/r{array}", desk.holder(targets(array), "store"))
    for host in range(HOSTS):
        yield desk.request("PUT", f"/hosts/h{host}", desk.holder(initiators(host), "blue"))
    for volume in rng.sample(range(VOLUMES), VOLUMES * 3 // 4):
        body = f'{{"array":"r{volume % ARRAYS}","bytes":512,"tenant":"blue"}}'
        yield desk.request("PUT", f"/volumes/v{volume}", body)


def reads():
    paths = [f"/paths/h{host}" for host in range(HOSTS)]
    paths += [f"/{kind}/{fabric}" for kind in ("active", "sets") for fabric in ("A", "B")]
    return [desk.request("GET", path) for path in paths + [f"/groups/g{number}" for number in range(8)]]


# ---- clients

class Client(threading.Thread):
    """Sends commands until the desk is gone. `done` has those that it acknowledged and that change
    something, and `left` the request that was sent and not answered."""

    def __init__(self, number, port, asked, revision):
        super().__init__(daemon=True)
        self.number, self.port, self.asked, self.revision = number, port, asked, revision
        self.done, self.refused, self.left, self.fault = [], 0, None, None

    def run(self):
        try:
            sent = next(self.asked)
            while True:
                sent = self.asked.send(self.told(sent))
        except (ConnectionError, EOFError):
            return
        except desk.Fault as fault:
            self.fault = fault

    def told(self, sent):
        """The status and the body of an answer; EOFError where it did not come whole."""
        answer = desk.call(self.port, sent)
        if not is_whole(answer):
            self.left = sent
            raise EOFError
        status, told = desk.answer_of(answer)
        self.refused += status != 200
        if status == 200 and not sent.startswith(b"GET "):
            uncounted = "revision" not in told or "approvals" in told
            self.revision = told.get("revision", self.revision)
            self.done.append(Done(self.revision, uncounted, self.number, len(self.done), sent, answer))
        return status, told


def is_whole(answer):
    """Whether an answer has as many bytes as it says."""
    head, end, body = answer.partition(b"\r\n\r\n")
    length = head.partition(b"Content-Length: ")[2].split(b"\r\n")[0]
    return bool(end) and length.isdigit() and len(body) == int(length)


# ---- ends

class Difference(Exception):
    """What is there is not what was acknowledged."""


class Ends:
    """Two desks: one that is ended, and one that is not."""

    def __init__(self, work, seed):
        self.work, self.seed = work, seed
        self.policy = work / "policy.toml"
        self.policy.write_text(desk.POLICY)
        self.counts = collections.Counter()
        self.reference = self.served = None

    def copy(self, name):
        return self.work / f"{name}-copy.db"

    def begin(self, number):
        """New databases for both."""
        if self.reference:
            self.reference.end()
        for name in ("served", "reference"):
            for end in ("", "-wal", "-shm"):
                (self.work / f"{name}.db{end}").unlink(missing_ok=True)
            desk.make(self.work / f"{name}.db")
        self.served = desk.Desk(self.work / "served.db", self.policy, self.work / "served.log")
        self.reference = desk.Desk(self.work / "reference.db", self.policy, self.work / "reference.log")
        self.reference.start()
        for sent in preparation(random.Random(f"{self.seed} {number}")):
            desk.call(self.reference.port, sent)
        with self.served:
            for sent in preparation(random.Random(f"{self.seed} {number}")):
                desk.call(self.served.port, sent)

    def one(self, number):
        """Starts the desk, ends it under load, and compares."""
        rng = random.Random(f"{self.seed} end {number}")
        if rng.random() < 0.25:
            self.served.launch()
            time.sleep(rng.random() * MOST_START)
            self.served.end()
            self.counts["starts"] += 1
        self.served.start()
        self.same_reads()
        revision = desk.revision_of(self.tables("reference"))
        asked = [commands(random.Random(f"{self.seed} {number} {client}"), f"p{number}x{client}")
                 for client in range(CLIENTS)]
        clients = [Client(client, self.served.port, made, revision) for client, made in enumerate(asked)]
        for client in clients:
            client.start()
        self.wait(rng)
        was_running = self.served.is_running()
        self.served.end()
        for client in clients:
            client.join()
        self.compare(clients, was_running)

    def wait(self, rng):
        """Until the moment of an end."""
        if rng.random() < 0.67:
            time.sleep(rng.random() * MOST_LOAD)
            return
        before, begun = self.served.database.stat().st_mtime_ns, time.perf_counter()
        while self.served.database.stat().st_mtime_ns == before and time.perf_counter() - begun < MOST_LOOKING:
            time.sleep(0.0002)
        self.counts["writing"] += self.served.database.stat().st_mtime_ns != before
        time.sleep(rng.random() * MOST_WRITING)

    def compare(self, clients, was_running):
        faults = [client.fault for client in clients if client.fault]
        if faults or not was_running:
            raise Difference(faults[0] if faults else f"the desk ended by itself: {self.served.faults()}")
        done = sorted(made for client in clients for made in client.done)
        for made in done:
            self.replay(made)
        left = [client.left for client in clients if client.left]
        self.counts["acknowledged"] += len(done)
        self.counts["refused"] += sum(client.refused for client in clients)
        self.counts["in flight"] += bool(left)
        found = self.tables("served")
        if found != self.tables("reference"):
            self.compare_left(left, found)

    def replay(self, made):
        answer = desk.call(self.reference.port, made.sent)
        if answer != made.answer:
            raise Difference(f"one after the other {made.sent[:200]!r} is answered {answer[-300:]!r}, "
                             f"and under load it was {made.answer[-300:]!r}")

    def compare_left(self, left, found):
        """Looks for the request without an answer that was made; the reference is then asked for it."""
        for sent in left:
            trial = desk.copied(self.work / "reference.db", self.work / "trial.db")
            words = [desk.program(), "once", "--db", trial, "--policy", self.policy]
            subprocess.run(words, input=sent, stdout=subprocess.DEVNULL, check=True)
            if desk.tables_of(trial, self.copy("trial")) == found:
                desk.call(self.reference.port, sent)
                self.counts["made"] += 1
                return
        before = self.tables("reference")
        told = [f"{table}: {len(before[table] - found[table])} rows missing, {len(found[table] - before[table])} "
                "too many" for table in found if found[table] != before[table]]
        raise Difference(f"what is there is not what was acknowledged, nor that with one of {len(left)} "
                         f"requests in flight: {'; '.join(told)}")

    def tables(self, name):
        return desk.tables_of(self.work / f"{name}.db", self.copy(name))

    def same_reads(self):
        """Both desks answer all reads alike."""
        for sent in reads():
            if desk.call(self.served.port, sent) != desk.call(self.reference.port, sent):
                raise Difference(f"started again, the desk answers {sent[:100]!r} in another way")

    def close(self):
        for each in (self.reference, self.served):
            if each:
                each.end()


def main():
    asked = desk.asked_for("Ends a serving process by force, and compares.", ends=200)
    work = pathlib.Path(tempfile.mkdtemp(prefix="ended-by-force-"))
    ends = Ends(work, asked.seed)
    number = 0
    try:
        for number in range(asked.ends):
            if number % ENDS_A_DATABASE == 0:
                ends.begin(number)
            ends.one(number)
    except (Difference, desk.Fault) as fault:
        sys.exit(f"seed {asked.seed}, end {number}: {fault}; see {work}")
    finally:
        ends.close()
    counts = ends.counts
    print(f"seed {asked.seed}: {asked.ends} ends, {counts['writing']} of them as the database file was written, "
          f"and {counts['starts']} ended starts; {counts['acknowledged']} changes acknowledged and "
          f"{counts['refused']} requests refused; at {counts['in flight']} ends requests were in flight, at "
          f"{counts['made']} one of them was made; else all is as it was acknowledged")
    shutil.rmtree(work)


if __name__ == "__main__":
    main()
