#!/usr/bin/env python3
"""Reads a file that the desk has written with sqlite3: is it sound, and has it the tables and rows?

It has the built program make a file and answer worked requests over it, each in a process of its own,
which closes the file, and compares what sqlite3 finds there: the integrity, the tables, the columns of
each table, and its rows. It also counts the texts of statements that one connection may see, since a
connection keeps the plans of 64. SANDESK names the program; without it `./sandesk` builds it. sqlite3 is
that of Python, or else the command of that name.
"""
import pathlib
import re
import subprocess
import sys
import tempfile

import desk

TOP = pathlib.Path(__file__).resolve().parent.parent
POLICY = TOP / "examples" / "session.toml"
TEXTS = TOP / "crates" / "fab_store_sql" / "src" / "texts.rt"
PLANS = 64

# Each table's columns: name, type, whether null is refused, place in the key (0: none).
TABLES = {
    "meta": ["key TEXT 1 1", "value TEXT 1 0"],
    "ports": ["wwpn TEXT 1 1", "wwnn TEXT 1 0", "fabric TEXT 0 0", "domain INTEGER 0 0", "slot INTEGER 0 0", "holder TEXT 0 0"],
    "addresses": ["wwpn TEXT 1 1", "address TEXT 1 0"],
    "holders": ["name TEXT 1 1", "kind TEXT 1 0", "tenant TEXT 1 0"],
    "volumes": ["name TEXT 1 1", "array TEXT 1 0", "tenant TEXT 1 0", "bytes INTEGER 1 0"],
    "zoning": ["fabric TEXT 1 1", "kind TEXT 1 2", "name TEXT 1 3", "item TEXT 1 4"],
    "active": ["fabric TEXT 1 1", "zone TEXT 1 2", "member TEXT 1 3"],
    "groups": ["kind TEXT 1 1", "name TEXT 1 2", "tenant TEXT 1 0", "array TEXT 1 0", "exposed INTEGER 1 0"],
    "group_parts": ["kind TEXT 1 1", "name TEXT 1 2", "part TEXT 1 3", "item TEXT 1 4", "volume TEXT 1 0"],
    "plans": ["name TEXT 1 1", "author TEXT 1 0", "text TEXT 1 0", "state TEXT 1 0", "position INTEGER 1 0"],
    "approvals": ["plan TEXT 1 1", "caller TEXT 1 2", "revision INTEGER 1 0"],
    "undo": ["plan TEXT 1 1", "sign TEXT 1 2", "entry TEXT 1 3"],
    "paths": ["host TEXT 1 1", "fabric TEXT 1 2", "initiator TEXT 1 3", "target TEXT 1 4", "volume TEXT 1 5", "lun INTEGER 1 6"],
}

FIRST_PORT, SECOND_PORT, THIRD_PORT = "1000000000000001", "1000000000000002", "1000000000000003"
FIRST_TARGET, SECOND_TARGET, NODE = "5000000000000001", "5000000000000002", "5000000000000000"
T1_PRINTED, I1_PRINTED = "50:00:00:00:00:00:00:01", "10:00:00:00:00:00:00:01"

FIRST = (TOP / "examples" / "first-host.plan").read_text()
SECOND = (TOP / "examples" / "second-host.plan").read_text()
SIGNED = "default B deny\n"

PORTS = [
    (0x1000000000000001, 0x2000000000000001, 1, 1, "0x0101AB"), (0x1000000000000002, 0x2000000000000002, 12, 5, ""),
    (0x1000000000000003, 0x2000000000000003, 12, 5, ""), (0x5000000000000001, 0x5000000000000000, 1, 2, "efffff"),
    (0x5000000000000002, 0x5000000000000000, 1, 3, ""),
]

# The requests, and who asks: the worked world, a plan that two approve, and the two worked plans.
REQUESTS = [
    ("ada", "POST", "/imports/A", desk.addressed_list(PORTS)),
    ("ada", "PUT", "/hosts/db1", desk.holder([0x1000000000000001], "blue")),
    ("ada", "PUT", "/hosts/db2", desk.holder([0x1000000000000002, 0x1000000000000003], "green")),
    ("ada", "PUT", "/arrays/arr1", desk.holder([0x5000000000000001, 0x5000000000000002], "store")),
    ("ada", "PUT", "/volumes/v1", '{"array":"arr1","bytes":1073741824,"tenant":"blue"}'),
    ("ada", "PUT", "/volumes/v2", '{"array":"arr1","bytes":1073741824,"tenant":"green"}'),
    ("ada", "PUT", "/plans/q1", SIGNED),
    ("bob", "POST", "/plans/q1/approve", ""),
    ("dan", "POST", "/plans/q1/approve", ""),
    ("ada", "PUT", "/plans/p1", FIRST),
    ("ada", "POST", "/plans/p1/activate", ""),
    ("ada", "PUT", "/plans/p2", SECOND),
    ("ada", "POST", "/plans/p2/activate", ""),
]

# The rows after the worked world, a plan of fabric B that two callers approved, and the first two
# worked plans, activated.
ROWS = {
    "meta": [
        ("schema", "2"), ("revision", "8"), ("active.A", "s1"), ("active.B", ""),
        ("default.A", "deny"), ("default.B", "deny"),
    ],
    "ports": [
        (FIRST_PORT, "2000000000000001", "A", 1, 1, "db1"),
        (SECOND_PORT, "2000000000000002", "A", 12, 5, "db2"),
        (THIRD_PORT, "2000000000000003", "A", 12, 5, "db2"),
        (FIRST_TARGET, NODE, "A", 1, 2, "arr1"),
        (SECOND_TARGET, NODE, "A", 1, 3, "arr1"),
    ],
    "addresses": [(FIRST_PORT, "0101ab"), (FIRST_TARGET, "efffff")],
    "holders": [("db1", "host", "blue"), ("db2", "host", "green"), ("arr1", "array", "store")],
    "volumes": [("v1", "arr1", "blue", 1073741824), ("v2", "arr1", "green", 1073741824)],
    "zoning": [
        ("A", "alias", "disk", f"wwpn={T1_PRINTED}"),
        ("A", "zone", "z1", f"wwpn={I1_PRINTED}"), ("A", "zone", "z1", "alias=disk"),
        ("A", "zone", "z3", "dp=12,5"), ("A", "zone", "z3", f"wwpn={T1_PRINTED}"),
        ("A", "set", "s1", "z1"), ("A", "set", "s1", "z3"),
    ],
    "active": [
        ("A", "z1", f"wwpn={I1_PRINTED}"), ("A", "z1", f"wwpn={T1_PRINTED}"),
        ("A", "z3", "dp=12,5"), ("A", "z3", f"wwpn={T1_PRINTED}"),
    ],
    "groups": [
        ("host", "hosts1", "blue", "", 0), ("host", "hosts2", "green", "", 0),
        ("storage", "g1", "blue", "arr1", 1), ("storage", "g2", "green", "arr1", 1),
    ],
    "group_parts": [
        ("host", "hosts1", "host", "db1", ""), ("host", "hosts2", "host", "db2", ""),
        ("storage", "g1", "hostgroup", "hosts1", ""), ("storage", "g1", "target", FIRST_TARGET, ""),
        ("storage", "g1", "unit", "0", "v1"),
        ("storage", "g2", "hostgroup", "hosts2", ""), ("storage", "g2", "target", FIRST_TARGET, ""),
        ("storage", "g2", "unit", "0", "v2"),
    ],
    "plans": [
        ("q1", "ada", SIGNED, "staged", 0),
        ("p1", "ada", FIRST, "active", 1),
        ("p2", "ada", SECOND, "active", 2),
    ],
    "approvals": [("q1", "bob", 6), ("q1", "dan", 6)],
    "undo": [
        ("p1", "-", "meta active.A "), ("p1", "+", "meta active.A s1"),
        ("p1", "+", f"zoning A alias disk wwpn={T1_PRINTED}"),
        ("p1", "+", f"zoning A zone z1 wwpn={I1_PRINTED}"), ("p1", "+", "zoning A zone z1 alias=disk"),
        ("p1", "+", "zoning A set s1 z1"),
        ("p1", "+", f"active A z1 wwpn={I1_PRINTED}"), ("p1", "+", f"active A z1 wwpn={T1_PRINTED}"),
        ("p1", "+", "groups host hosts1 blue  0"), ("p1", "+", "groups storage g1 blue arr1 1"),
        ("p1", "+", "group_parts host hosts1 host db1 "),
        ("p1", "+", "group_parts storage g1 hostgroup hosts1 "),
        ("p1", "+", f"group_parts storage g1 target {FIRST_TARGET} "), ("p1", "+", "group_parts storage g1 unit 0 v1"),
        ("p2", "+", "zoning A zone z3 dp=12,5"), ("p2", "+", f"zoning A zone z3 wwpn={T1_PRINTED}"),
        ("p2", "+", "zoning A set s1 z3"),
        ("p2", "+", "active A z3 dp=12,5"), ("p2", "+", f"active A z3 wwpn={T1_PRINTED}"),
        ("p2", "+", "groups host hosts2 green  0"), ("p2", "+", "groups storage g2 green arr1 1"),
        ("p2", "+", "group_parts host hosts2 host db2 "),
        ("p2", "+", "group_parts storage g2 hostgroup hosts2 "),
        ("p2", "+", f"group_parts storage g2 target {FIRST_TARGET} "), ("p2", "+", "group_parts storage g2 unit 0 v2"),
    ],
    "paths": [
        ("db1", "A", FIRST_PORT, FIRST_TARGET, "v1", 0), ("db2", "A", SECOND_PORT, FIRST_TARGET, "v2", 0), ("db2", "A", THIRD_PORT, FIRST_TARGET, "v2", 0),
    ],
}


def by_module(path):
    """What asks the file by Python's sqlite3: a function from a text to rows of texts and numbers."""
    import sqlite3

    connection = sqlite3.connect(path)
    return f"Python's sqlite3 {sqlite3.sqlite_version}", lambda text: connection.execute(text).fetchall()


def by_command(path):
    """The same by the command `sqlite3`, which answers in JSON."""
    import json

    def ask(text):
        run = subprocess.run(["sqlite3", "-json", path, text], capture_output=True, text=True, check=True)
        return [tuple(row.values()) for row in json.loads(run.stdout or "[]")]

    return f"the command sqlite3 {ask('SELECT sqlite_version()')[0][0]}", ask


def reader(path):
    for way in (by_module, by_command):
        try:
            return way(path)
        except (ImportError, FileNotFoundError):
            continue
    sys.exit("there is no sqlite3 here, neither Python's nor the command: nothing was read")


def want(what, found, wanted):
    if found != wanted:
        sys.exit(f"{what}:\n  found  {found!r}\n  wanted {wanted!r}")


def check(ask):
    want("integrity", ask("PRAGMA integrity_check"), [("ok",)])
    names = ask("SELECT name FROM sqlite_schema WHERE type = 'table' ORDER BY name")
    want("tables", names, sorted((name,) for name in TABLES))
    for table, columns in TABLES.items():
        found = ask(f"SELECT name || ' ' || type || ' ' || \"notnull\" || ' ' || pk FROM pragma_table_info('{table}') ORDER BY cid")
        want(f"columns of {table}", found, [(column,) for column in columns])
        want(f"whether {table} is strict", ask(f"SELECT strict FROM pragma_table_list WHERE name = '{table}'"), [(1,)])
        found = ask(f"SELECT * FROM {table}")
        want(f"rows of {table}", sorted(found, key=repr), sorted(ROWS[table], key=repr))
        print(f"{table:<12}{len(columns):>3} columns {len(found):>3} rows")


def count_texts():
    texts = set(re.findall(r'"((?:INSERT|DELETE|SELECT|CREATE) [^"]*)"', TEXTS.read_text()))
    others = [path for path in TEXTS.parent.glob("*.rt") if path != TEXTS and re.search(r'"(?:INSERT|DELETE|SELECT|CREATE|UPDATE|PRAGMA) ', path.read_text())]
    want("files with other statements", others, [])
    if len(texts) >= PLANS:
        sys.exit(f"{len(texts)} statements: a connection keeps the plans of {PLANS}")
    print(f"{len(texts)} statements a connection at most, fewer than {PLANS}")


def answered(database, caller, method, path, body):
    """Has the program answer a request over the file, and close it."""
    words = [desk.program(), "once", "--db", database, "--policy", POLICY]
    sent = desk.request(method, path, body, f"t-{caller}")
    run = subprocess.run(words, input=sent, capture_output=True)
    want(f"the status of {method} {path}", (run.returncode, desk.answer_of(run.stdout)[0]), (0, 200))


def main():
    count_texts()
    with tempfile.TemporaryDirectory() as folder:
        database = pathlib.Path(folder) / "desk.db"
        desk.make(database)
        for turn in REQUESTS:
            answered(database, *turn)
        way, ask = reader(database)
        print(f"read by {way}")
        check(ask)


if __name__ == "__main__":
    main()
