#!/usr/bin/env python3
"""Sends mutated requests to a running desk, and looks at each answer.

    python3 bench/mutated_requests.py [--count N] [--seed S]

First come hostile texts whose answers are known: heads of 8192 and 8193 bytes, 1600 and 2600 header
lines, lengths of 20 and 21 digits, bodies of 1048576 bytes and one more, and others. Then 100000
requests, each of which begins as a good one of some kind and is altered once to four times
(`bench/mutations.py`): bytes changed, cut or repeated, lengths changed, header lines added, bodies
exchanged, JSON keys added or renamed, world-wide names altered, lines of plans and port lists changed,
percent escapes, letters beyond ASCII, NULs. One in ten stays as it is, so that the desk has something to
be asked about.

Each has to have one of the answers that docs/http.md lists, as a whole: a status with its phrase, the
header lines in their order, a length that is that of the body, and a body that is compact JSON with its
keys in order and of a form that the status has. An empty request has no answer. A 503 is a fault, since
memory and disk suffice. A change that is accepted has to tell the revision that is next. Every 10000
requests, and at the end, the desk is ended and its log compared with the answers; its database is
opened by `export`, `paths` and `report`, which see that the whole of it is sound; and a new process
serves on.

It prints how many answers there were of each kind. Exit status 1: a fault; it is told with the
request, and `--seed` with the number that is told gives the same requests again.
"""
import collections
import dataclasses
import pathlib
import random
import sys
import tempfile

import desk
from mutations import HEADER, asked, mutated

EVERY = 10000
SHOWN = 9000


# ---- texts whose answers are known: to a new desk, in their order, with status and body of each answer

INITIATOR, TARGET = "10:00:00:00:00:00:00:01", "50:00:00:00:00:00:00:01"
FIRST_LIST = f"{HEADER}\n{INITIATOR},20:00:00:00:00:00:00:01,1,1\n{TARGET},50:00:00:00:00:00:00:00,1,2\n"
JOINED = asked("GET", f"/joined/{INITIATOR}/{TARGET}")
IMPORT = asked("POST", "/imports/A", FIRST_LIST)
HOST = asked("PUT", "/hosts/db1", f'{{"ports":["{INITIATOR}"],"tenant":"blue"}}')
PLAN = asked("PUT", "/plans/off", "deactivate A\n")
NOT_JOINED, STAGED = {"joined": False}, {"plan": "off", "steps": 1}


def refused(code, **further):
    return {"code": code, "error": desk.REFUSALS[code][0], **further}


def with_length(made, value):
    return dataclasses.replace(made, length=value.encode())


def with_lines(made, *added):
    return dataclasses.replace(made, lines=made.lines + [line.encode() for line in added])


def with_body(made, body):
    """The same with another body, under the old length."""
    return dataclasses.replace(made, body=body.encode())


def padded(made, size, byte):
    return made.measured(made.body + byte * (size - len(made.body)))


def known_heads():
    return [
        ("a first import", IMPORT, 200, {"revision": 1}),
        ("1600 lines more", with_lines(JOINED, *["a:1"] * 1600), 200, NOT_JOINED),
        ("2600 lines more", JOINED.text()[:-2] + b"a:\n" * 2600 + b"\r\n", 200, NOT_JOINED),
        ("a head of 8192 bytes", JOINED.filled(8192), 200, NOT_JOINED),
        ("a head of 8193 bytes", JOINED.filled(8193), 400, refused(2)),
        ("a second Authorization", with_lines(JOINED, "Authorization: Bearer t-ada"), 401, refused(1)),
        ("two lengths in one", with_length(JOINED, "5, 5"), 400, refused(2)),
        ("a length with a sign", with_length(JOINED, "+5"), 400, refused(2)),
        ("two equal lengths", with_lines(with_length(JOINED, "5"), "Content-Length: 005"), 200, NOT_JOINED),
        ("two other lengths", with_lines(with_length(JOINED, "5"), "Content-Length: 6"), 400, refused(2)),
        ("a length of 20 digits", with_length(JOINED, "9" * 20), 200, NOT_JOINED),
        ("a length of 21 digits", with_length(JOINED, "5".zfill(21)), 400, refused(2)),
        ("lengths 13 and 013", with_lines(PLAN, "Content-Length: 013"), 200, STAGED),
        ("a plan's length of 20 digits", with_length(PLAN, "13".zfill(20)), 200, STAGED),
        ("a plan's length of 21 digits", with_length(PLAN, "13".zfill(21)), 400, refused(2)),
        ("a plan's length of 20 nines", with_length(PLAN, "9" * 20), 413, refused(6)),
    ]


def known_bodies():
    bad = IMPORT.measured(FIRST_LIST.replace("1,2\n", "240,2\n").encode())
    other = "\ufeff" + FIRST_LIST.replace("\n", "\r\n").replace(INITIATOR, f'"{INITIATOR}"')
    return [
        ("a domain of 240", bad, 400, refused(7, line=3)),
        ("a byte order mark, CR LF, quotes", IMPORT.measured(other.encode()), 200, {"revision": 2}),
        ("a host of 1048576 bytes", padded(HOST, 1048576, b" "), 200, {"revision": 3}),
        ("a host of 1048577 bytes", padded(HOST, 1048577, b" "), 413, refused(6)),
        ("a list of 1048576 bytes", padded(IMPORT, 1048576, b"\n"), 200, {"revision": 4}),
        ("a list of 1048577 bytes", padded(IMPORT, 1048577, b"\n"), 413, refused(6)),
        ("a plan of 1048576 bytes", padded(PLAN, 1048576, b"\n"), 400, refused(7, line=0)),
        ("a plan of 1048577 bytes", padded(PLAN, 1048577, b"\n"), 413, refused(6)),
        ("an escape", asked("GET", "/paths/db%31"), 200, {"host": "db1", "paths": []}),
        ("a body that is cut", with_body(PLAN, "dea"), 400, refused(7, line=0)),
        ("no body at all", with_body(PLAN, ""), 400, refused(7, line=0)),
        ("an empty list", IMPORT.measured(b""), 400, refused(7, line=1)),
    ]


# ---- answers

class Watched:
    """A desk whose answers are looked at."""

    def __init__(self, work):
        self.database, self.policy = work / "desk.db", desk.TOP / "examples" / "session.toml"
        desk.make(self.database)
        self.desk = desk.Desk(self.database, self.policy, work / "desk.log")
        self.copy = work / "copy.db"
        self.revision, self.staged = 0, []
        self.kinds, self.since = collections.Counter(), collections.Counter()

    def answered(self, text):
        """The status and body of the answer to some bytes, or none for no bytes."""
        try:
            answer = desk.call(self.desk.port, text)
        except ConnectionError as fault:
            raise desk.Fault(f"nobody takes the connection: {fault}") from None
        if not answer and not text:
            self.since["empty"] += 1
            self.kinds["no answer"] += 1
            return None
        status, told = desk.answer_of(answer)
        self.since[str(status)] += 1
        self.kinds[f"{status} {told.get('error', '')}"] += 1
        self.note(status, told)
        return status, told

    def note(self, status, told):
        """Sees that a revision is the next one, or the present one; keeps the names of plans."""
        if status == 503:
            raise desk.Fault(f"memory and disk suffice, and the answer is {told}")
        if status == 200 and "revision" in told:
            self.revision += "approvals" not in told
            if told["revision"] != self.revision:
                raise desk.Fault(f"the revision should be {self.revision}, and the answer is {told}")
        if status == 200 and "steps" in told:
            self.staged.append(told["plan"])

    def stop(self):
        """Ends the desk; its log has to have what was answered, and its tables have to be sound."""
        was_running = self.desk.is_running()
        self.desk.end()
        if not was_running or self.desk.faults():
            raise desk.Fault(f"the desk ended by itself: {self.desk.faults()}")
        logged = collections.Counter(self.desk.outcomes())
        if self.since - logged or set(logged - self.since) - {"empty"}:
            raise desk.Fault(f"the log has {dict(logged)}, and the answers were {dict(self.since)}")
        self.since.clear()
        if desk.revision_of(desk.tables_of(self.database, self.copy)) != self.revision:
            raise desk.Fault(f"the tables do not have revision {self.revision}")
        self.see_opened()

    def see_opened(self):
        """Opens the database by each command that reads it."""
        access = ["--db", self.database, "--policy", self.policy, "--token", "t-ada"]
        for words in (["export", *access, "--fabric", "A"], ["export", *access, "--fabric", "B"],
                      ["paths", *access, "--host", "h0"], ["report", *access, "--host", "h1"]):
            status, _, faults = desk.ran(*words)
            if status not in (0, 1) or faults:
                raise desk.Fault(f"{words[0]} ends with status {status}: {faults}")


def send_known(watched):
    for title, made, status, told in known_heads() + known_bodies():
        found = watched.answered(made if isinstance(made, bytes) else made.text())
        if found != (status, told):
            raise desk.Fault(f"{title} should be answered {status} {told}, and the answer is {found}")


def send_mutated(watched, seed, number):
    text = mutated(random.Random(f"{seed} {number}"), watched.staged)
    try:
        watched.answered(text)
    except desk.Fault as fault:
        rest = f" and {len(text) - SHOWN} bytes more" if len(text) > SHOWN else ""
        raise desk.Fault(f"request {number}: {fault}\n{text[:SHOWN]!r}{rest}") from None


def run(watched, count, seed):
    watched.desk.start()
    send_known(watched)
    for number in range(count):
        if number and number % EVERY == 0:
            watched.stop()
            print(f"{number} requests, revision {watched.revision}, {len(watched.staged)} plans", flush=True)
            watched.desk.start()
        send_mutated(watched, seed, number)
    watched.stop()


def main():
    given = desk.asked_for("Sends mutated requests, and looks at the answers.", count=100000)
    with tempfile.TemporaryDirectory() as folder:
        watched = Watched(pathlib.Path(folder))
        try:
            run(watched, given.count, given.seed)
        except desk.Fault as fault:
            sys.exit(f"seed {given.seed}: {fault}")
        finally:
            watched.desk.end()
    for kind, count in sorted(watched.kinds.items()):
        print(f"{kind:<20}{count:>9}")
    known = len(known_heads() + known_bodies())
    print(f"seed {given.seed}: {given.count} mutated requests and {known} known ones, each with one of its "
          f"answers; revision {watched.revision}, {len(watched.staged)} plans, tables sound at each opening")


if __name__ == "__main__":
    main()
