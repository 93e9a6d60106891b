#!/usr/bin/env python3
"""Opens databases of schema 1 with the program, which brings them to schema 2.

    python3 bench/migrations.py

`bench/schema-1` has databases that an earlier program made, of schema 1, each with a policy and with the rows
of its tables. Each subcommand that opens a database opens a copy of each. Then the rows have to be those
of before, read by SQLite's own library, but for the schema's number and an empty table of addresses; and the
desk has to serve them: the paths of each host, the import of a list with addresses, and the rollback of the
last activation in force. Last, settings that tell a later schema, or none: then the line on standard error
and the status have to be told, and no byte of the file may change.

The last line is a summary. Exit status 1: something differs.
"""
import contextlib
import json
import pathlib
import sqlite3
import subprocess
import sys
import tempfile

import desk

FOLDER = desk.TOP / "bench" / "schema-1"

ADA = ("--token", "t-ada")

# The subcommands that open a database, each with its words behind the database and the policy.
OPENERS = [
    ("export", *ADA, "--fabric", "A"), ("report", *ADA, "--host", "db1"), ("paths", *ADA, "--host", "db1"),
    ("dryrun", *ADA, "--plan", "p1"), ("list", *ADA, "plans"), ("who", *ADA, "--volume", "v1"),
    ("import", *ADA, "--fabric", "B", "--file", str(desk.TOP / "examples" / "bad-domain.csv")),
]

# What is done to the settings, and what is said then.
SETTINGS = [
    ("UPDATE meta SET value = '3' WHERE key = 'schema'", "sandesk: newer-schema 3"),
    ("UPDATE meta SET value = '18446744073709551615' WHERE key = 'schema'",
     "sandesk: newer-schema 18446744073709551615"),
    ("UPDATE meta SET value = '3' WHERE key = 'schema'; CREATE TABLE later (x TEXT) STRICT",
     "sandesk: newer-schema 3"),
    ("DELETE FROM meta WHERE key = 'schema'", "sandesk: damaged meta"),
    ("UPDATE meta SET value = '0' WHERE key = 'schema'", "sandesk: damaged meta"),
    ("UPDATE meta SET value = '01' WHERE key = 'schema'", "sandesk: damaged meta"),
    ("UPDATE meta SET value = '18446744073709551616' WHERE key = 'schema'", "sandesk: damaged meta"),
    ("UPDATE meta SET value = '2' WHERE key = 'schema'", "sandesk: store"),
    ("DROP TABLE meta", "sandesk: store"),
    ("CREATE TABLE later (x TEXT) STRICT", "sandesk: store"),
]


def want(what, found, wanted):
    if found != wanted:
        raise desk.Fault(f"{what}:\n  found  {found!r}\n  wanted {wanted!r}")


def rows_before(name):
    """The rows of the tables of schema 1, as they were when the database was made."""
    told = json.loads((FOLDER / f"{name}.rows.json").read_text())
    return {table: {tuple(row) for row in rows} for table, rows in told.items()}


def rows_after(before):
    """The rows of schema 2 that these become."""
    settings = {(key, "2" if key == "schema" else value) for key, value in before["meta"]}
    return {**before, "meta": settings, "addresses": set()}


def opened(name, room, words):
    """A copy of a database that a subcommand has opened, with the policy; and the status."""
    copy = desk.copied(FOLDER / f"{name}.db", room / f"{name}-{words[0]}.db")
    policy = FOLDER / f"{name}.policy.toml"
    status, _, fault = desk.ran(words[0], "--db", copy, "--policy", policy, *words[1:])
    if status not in (0, 1) or fault:
        raise desk.Fault(f"{words[0]} does not open {name}: status {status}, {fault}")
    return copy


def try_once(name, room):
    """The same by `once`, which is asked for the paths of a host."""
    copy = desk.copied(FOLDER / f"{name}.db", room / f"{name}-once.db")
    words = [desk.program(), "once", "--db", copy, "--policy", FOLDER / f"{name}.policy.toml"]
    run = subprocess.run(words, input=desk.request("GET", "/paths/db1"), capture_output=True, check=False)
    want(f"the status of once over {name}", (run.returncode, run.stderr), (0, b""))
    desk.answer_of(run.stdout)
    return copy


def paths_of(rows):
    """The paths of each host, as the desk answers them."""
    hosts = {name: [] for name, kind, _ in rows["holders"] if kind == "host"}
    for host, fabric, initiator, target, volume, unit in rows["paths"]:
        hosts[host].append({"fabric": fabric, "initiator": printed(initiator), "lun": unit,
                            "target": printed(target), "volume": volume})
    order = lambda path: (path["fabric"], path["initiator"], path["target"], path["volume"], path["lun"])
    return {host: sorted(paths, key=order) for host, paths in hosts.items()}


def printed(digits):
    return ":".join(digits[at:at + 2] for at in range(0, 16, 2))


def try_serving(name, room, before):
    """A desk that serves a database of schema 1: what it answers, and what it changes."""
    copy = desk.copied(FOLDER / f"{name}.db", room / f"{name}-serve.db")
    with desk.Desk(copy, FOLDER / f"{name}.policy.toml", room / "log") as served:
        for host, paths in paths_of(before).items():
            want(f"the paths of {host} in {name}", desk.ask(served.port, "GET", f"/paths/{host}")["paths"], paths)
        body = desk.addressed_list([(0x2000000000000009, 0x2000000000000009, 7, 8, "0x0708AB")])
        revision = desk.ask(served.port, "POST", "/imports/B", body)["revision"]
        want(f"the revision of {name}", revision, desk.revision_of(before) + 1)
        told = desk.ask(served.port, "GET", f"/ports/{printed('2000000000000009')}")
        want("the address of a port", told["at"]["address"], "0708ab")
    want("the addresses", desk.tables_of(copy, room / "read.db")["addresses"], {("2000000000000009", "0708ab")})


def try_rollback(name, room, before):
    """The last activation in force is rolled back after the database was brought to schema 2."""
    active = {position: plan for plan, _, _, state, position in before["plans"] if state == "active"}
    if not active:
        return
    copy = desk.copied(FOLDER / f"{name}.db", room / f"{name}-rollback.db")
    with desk.Desk(copy, FOLDER / f"{name}.policy.toml", room / "log") as served:
        plan = active[max(active)]
        sent = desk.request("POST", f"/plans/{plan}/rollback")
        status, told = desk.answer_of(desk.call(served.port, sent))
        if status == 200:
            want(f"the revision of {name}", told["revision"], desk.revision_of(before) + 1)
    state = {row[0]: row[3] for row in desk.tables_of(copy, room / "read.db")["plans"]}[plan]
    want(f"the state of {plan} in {name}", state, "rolled-back" if status == 200 else "active")


def try_settings(name, room):
    """Settings that tell no schema which the program has."""
    for turn, (statements, said) in enumerate(SETTINGS):
        copy = desk.copied(FOLDER / f"{name}.db", room / f"{name}-settings{turn}.db")
        with contextlib.closing(sqlite3.connect(copy)) as changed:
            changed.executescript(statements)
        before = copy.read_bytes()
        status, told, fault = desk.ran("export", "--db", copy, "--policy", FOLDER / f"{name}.policy.toml",
                                       *ADA, "--fabric", "A")
        want(f"what is said after {statements}", (status, told, fault), (3, b"", f"{said}\n"))
        want(f"the bytes after {statements}", copy.read_bytes() == before, True)


def main():
    names = sorted(path.stem for path in FOLDER.glob("*.db"))
    with tempfile.TemporaryDirectory() as folder:
        room = pathlib.Path(folder)
        for name in names:
            before = rows_before(name)
            copies = [opened(name, room, words) for words in OPENERS] + [try_once(name, room)]
            for copy in copies:
                want(f"the rows of {copy.name}", desk.tables_of(copy, room / "read.db"), rows_after(before))
            try_serving(name, room, before)
            try_rollback(name, room, before)
            try_settings(name, room)
    print(f"{len(names)} databases of schema 1, each opened by {len(OPENERS) + 2} subcommands: the same rows, "
          f"served; {len(SETTINGS)} settings that are refused leave the file as it was")


if __name__ == "__main__":
    try:
        main()
    except desk.Fault as fault:
        sys.exit(f"migrations: {fault}")
