#!/usr/bin/env python3
"""Makes the largest world that the limits allow, and tells the time and the memory of what is asked in it.

    python3 bench/largest_world.py [--own-groups] [--keep DATABASE]

The world has 4096 ports, 2048 holders, 4096 volumes and 65536 paths, all made over HTTP:

- 64 arrays with two ports each, one in each fabric, and 64 volumes on each of them;
- 1984 hosts with two ports each, one in each fabric; 31 of them use the same array;
- in each fabric 64 zones, one for each array and its 31 hosts, in one set, which is active;
- for each array a host group of its 31 hosts and a storage group with the two ports of the array and 16
  or 17 of its volumes at as many units, exposed. What is missing to 65536 paths a last storage group with
  one host gives.

So each host has 32 or 34 paths, the first two more. With `--own-groups` each host has a host group and a
storage group of its own, 1984 of both, which the limits of a plan (200 lines) make 224 plans, all of them
in force.

For each line of the table the desk is asked once, but where the line says how many times: the seconds of
all these requests, and the most memory (VmHWM) that the process had during them. At the end one port, one
host, one volume and one path more are asked for, and have to be refused; and the desk is ended and
started again. `--keep` names a file for a copy of the database.
"""
import argparse
import pathlib
import sys
import tempfile
import time

import desk

ARRAYS, HOSTS_AN_ARRAY, VOLUMES_AN_ARRAY = 64, 31, 64
HOSTS = ARRAYS * HOSTS_AN_ARRAY
PATHS = 65536
LEAST_UNITS = 16
LINES_A_PLAN = 200


def initiator(fabric, host):
    return 0x10 << 56 | fabric << 48 | host + 1


def target(fabric, array):
    return 0x50 << 56 | fabric << 48 | array + 1


def ports(fabric):
    """The ports of a fabric: 2048 records."""
    names = [initiator(fabric, host) for host in range(HOSTS)]
    names += [target(fabric, array) for array in range(ARRAYS)]
    return desk.port_list([(name, name, 1, slot) for slot, name in enumerate(names)])


def zoning(fabric):
    """The lines of a fabric's zoning, which are one plan."""
    letter, lines = "AB"[fabric], []
    for array in range(ARRAYS):
        hosts = range(array * HOSTS_AN_ARRAY, (array + 1) * HOSTS_AN_ARRAY)
        names = [initiator(fabric, host) for host in hosts] + [target(fabric, array)]
        lines.append(f"zone.put {letter} z{array} {' '.join(f'wwpn={name:016x}' for name in names)}")
    zones = " ".join(f"z{array}" for array in range(ARRAYS))
    return [*lines, f"set.put {letter} s {zones}", f"activate {letter} s"]


def shares(hosts_a_group):
    """Who has which units: an array, hosts (1 or 31 of its hosts), and the numbers of the array's
    volumes, which are the units too. All together have just as many paths as there may be: two for each
    host and unit."""
    found = []
    for array in range(ARRAYS):
        for first in range(0, HOSTS_AN_ARRAY, hosts_a_group):
            last = min(first + hosts_a_group, HOSTS_AN_ARRAY)
            hosts = [array * HOSTS_AN_ARRAY + place for place in range(first, last)]
            start = first // hosts_a_group * LEAST_UNITS
            found.append((array, hosts, [(start + place) % VOLUMES_AN_ARRAY for place in range(LEAST_UNITS)]))
    left = PATHS - sum(2 * len(hosts) * len(units) for _, hosts, units in found)
    for _, hosts, units in found:
        if 2 * len(hosts) <= left:
            units.append((units[-1] + 1) % VOLUMES_AN_ARRAY)
            left -= 2 * len(hosts)
    taken = set().union(*(units for array, _, units in found if array == 0))
    spare = sorted(set(range(VOLUMES_AN_ARRAY)) - taken)[:left // 2]
    return found + ([(0, [0], spare)] if spare else [])


def mapping(hosts_a_group):
    """The lines of all host groups and storage groups."""
    lines = []
    for number, (array, hosts, units) in enumerate(shares(hosts_a_group)):
        lines += [f"hg.put k{number} blue {' '.join(f'h{host}' for host in hosts)}",
                  f"sg.new g{number} blue r{array}", f"sg.host g{number} k{number}"]
        lines += [f"sg.target g{number} {target(fabric, array):016x}" for fabric in (0, 1)]
        lines += [f"sg.map g{number} {unit} {volume(array, unit)}" for unit in units]
        lines.append(f"sg.expose g{number}")
    return lines


def volume(array, number):
    return f"v{array * VOLUMES_AN_ARRAY + number}"


# ---- the table

class Table:
    """A desk, and what it takes for what it is asked."""

    def __init__(self, served):
        self.served = served
        print(f"{'asked':<66}{'seconds':>9}{'MiB':>8}", flush=True)

    def row(self, title, asked):
        """The bodies of the answers to these requests, which are told with the token of the caller."""
        self.served.forget_peak()
        begun = time.perf_counter()
        told = [desk.ask(self.served.port, *words) for words in asked]
        self.line(title, time.perf_counter() - begun)
        return told

    def line(self, title, seconds):
        print(f"{title:<66}{seconds:>9.3f}{self.served.peak() / (1 << 20):>8.1f}", flush=True)


def put_holder(kind, name, both):
    return "PUT", f"/{kind}/{name}", desk.holder(both, "blue")


def put_volume(array, number):
    body = f'{{"array":"r{array}","bytes":1073741824,"tenant":"blue"}}'
    return "PUT", f"/volumes/{volume(array, number)}", body


def make_inventory(table):
    for fabric in (0, 1):
        letter = "AB"[fabric]
        table.row(f"import of 2048 ports, fabric {letter}", [("POST", f"/imports/{letter}", ports(fabric))])
    holders = [put_holder("arrays", f"r{array}", [target(fabric, array) for fabric in (0, 1)])
               for array in range(ARRAYS)]
    holders += [put_holder("hosts", f"h{host}", [initiator(fabric, host) for fabric in (0, 1)])
                for host in range(HOSTS)]
    table.row(f"{len(holders)} puts of arrays and hosts", holders)
    volumes = [put_volume(array, number) for array in range(ARRAYS) for number in range(VOLUMES_AN_ARRAY)]
    table.row(f"{len(volumes)} puts of volumes", volumes)


def make_zoning(table):
    for fabric in (0, 1):
        stage(table, f"zones{fabric}", zoning(fabric))
        table.row(f"activation of 64 zones of 32 members, fabric {'AB'[fabric]}", [activation(f"zones{fabric}")])


def stage(table, name, lines):
    desk.ask(table.served.port, "PUT", f"/plans/{name}", "\n".join(lines) + "\n")
    desk.ask(table.served.port, "POST", f"/plans/{name}/approve", None, "t-bob")


def activation(name):
    return "POST", f"/plans/{name}/activate"


def make_mapping(table, hosts_a_group):
    """Stages and activates all storage groups; counts the paths that are gained."""
    lines, names = mapping(hosts_a_group), []
    for start in range(0, len(lines), LINES_A_PLAN):
        names.append(f"map{start}")
        stage(table, names[-1], lines[start:start + LINES_A_PLAN])
    title = f"{len(names) - 1} activations, which make nearly all of {len(shares(hosts_a_group))} storage groups"
    told = table.row(title, map(activation, names[:-1]))
    told += table.row("the last of them, after which the world is full", [activation(names[-1])])
    gained = sum(len(body["gained"]) for body in told)
    if gained != PATHS:
        raise desk.Fault(f"{gained} paths were gained, not {PATHS}")


def ask_full(table, made):
    """What is asked of the full world, which is made of these shares."""
    groups = min(len(made), LINES_A_PLAN)
    table.row("100 reads of all paths of a host (34)", [("GET", "/paths/h100")] * 100)
    stage(table, "less", [f"sg.unmap g1 {made[1][2][0]}"])
    told = table.row("dry run of a plan that takes one unit away", [("GET", "/plans/less/dryrun")])
    lost = len(told[0]["lost"])
    table.row(f"its activation: {lost} paths are lost", [activation("less")])
    table.row("its rollback: they come back", [("POST", "/plans/less/rollback")])
    table.row("a put of a volume, as it is", [put_volume(0, 0)])
    table.row("import of 2048 ports, as they are", [("POST", "/imports/A", ports(0))])
    table.row("import of no port: 32768 paths are lost", [("POST", "/imports/A", desk.port_list([]))])
    table.row("import of 2048 ports: they come back", [("POST", "/imports/A", ports(0))])
    stage(table, "off", [f"sg.hide g{number}" for number in range(groups)])
    told = table.row(f"activation that hides {groups} storage groups", [activation("off")])
    table.row(f"its rollback: {len(told[0]['lost'])} paths come back", [("POST", "/plans/off/rollback")])


def one_more(port, made):
    """One port, host, volume or unit more than there may be is refused."""
    unit = f"sg.map g1 100 {volume(made[1][0], VOLUMES_AN_ARRAY - 1)}\n"
    desk.ask(port, "PUT", "/plans/more", unit)
    words = {
        "ports": ("POST", "/imports/A", desk.port_list([(0x60 << 56 | 1, 1, 1, 1)])),
        "holders": put_holder("hosts", "more", []),
        "volumes": ("PUT", "/volumes/more", '{"array":"r0","bytes":1,"tenant":"blue"}'),
        "paths": activation("more"),
    }
    for limit, asked in words.items():
        found = desk.answer_of(desk.call(port, desk.request(*asked)))
        if found != (409, {"code": 15, "error": "limit", "limit": limit}):
            raise desk.Fault(f"one more should be refused by the limit on {limit}, and the answer is {found}")


def run(work, hosts_a_group, keep):
    database, policy = work / "desk.db", work / "policy.toml"
    policy.write_text(desk.POLICY)
    desk.make(database)
    with desk.Desk(database, policy, work / "desk.log") as served:
        table = Table(served)
        make_inventory(table)
        make_zoning(table)
        make_mapping(table, hosts_a_group)
        ask_full(table, shares(hosts_a_group))
        one_more(served.port, shares(hosts_a_group))
    size = sum(place.stat().st_size for place in work.glob("desk.db*"))
    served = desk.Desk(database, policy, work / "desk.log")
    try:
        seconds = served.start(600)
        table.served = served
        table.line(f"opening: {size / (1 << 20):.0f} MiB of tables and log", seconds)
    finally:
        served.end()
    if keep:
        desk.copied(database, keep)


def main():
    words = argparse.ArgumentParser(description="Makes the largest world, and tells what it takes.")
    words.add_argument("--own-groups", action="store_true", help="a storage group for each host")
    words.add_argument("--keep", help="a file for a copy of the database")
    asked = words.parse_args()
    with tempfile.TemporaryDirectory() as folder:
        try:
            run(pathlib.Path(folder), 1 if asked.own_groups else HOSTS_AN_ARRAY, asked.keep)
        except desk.Fault as fault:
            sys.exit(str(fault))


if __name__ == "__main__":
    main()
