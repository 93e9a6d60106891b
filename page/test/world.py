"""The small world and the large one, made through the desk's interface."""

import json
import urllib.error
import urllib.request

OPENER = urllib.request.build_opener(urllib.request.ProxyHandler({}))
GIB = 1 << 30


def initiator(fabric, host, port=0):
    """The name of a port of a host, as a number; fabric A is 0, B is 1."""
    return 0x10 << 56 | fabric << 48 | host << 8 | port


def target(fabric, port):
    """The name of a port of an array."""
    return 0x50 << 56 | fabric << 48 | port


def ask(at, method, path, body=None, token="t-ada", wanted=200):
    """Asks a desk, and gives what it answers; another status than the wanted one ends the test."""
    data = None if body is None else body.encode()
    request = urllib.request.Request(at + path, data, {"Authorization": f"Bearer {token}"}, method=method)
    try:
        with OPENER.open(request, timeout=60) as answer:
            status, told = answer.status, json.loads(answer.read())
    except urllib.error.HTTPError as fault:
        status, told = fault.code, json.loads(fault.read())
    if status != wanted:
        raise SystemExit(f"{method} {path}: {status} {told}")
    return told


def ports(at, fabric, names):
    """Imports a fabric's port list."""
    lines = [f"{name:016x},{name:016x},1,{slot}\n" for slot, name in enumerate(names)]
    ask(at, "POST", f"/imports/{fabric}", "port_name,node_name,domain,port\n" + "".join(lines))


def holder(at, kind, name, names, tenant):
    """Puts a host or an array."""
    ask(at, "PUT", f"/{kind}/{name}", json.dumps({"ports": [f"{one:016x}" for one in names], "tenant": tenant}))


def volume(at, name, tenant, array="arr1", gib=50):
    """Puts a volume."""
    ask(at, "PUT", f"/volumes/{name}", json.dumps({"array": array, "bytes": gib * GIB, "tenant": tenant}))


def plan(at, name, *lines):
    """Stages a plan."""
    ask(at, "PUT", f"/plans/{name}", "\n".join(lines) + "\n")


def approve(at, name):
    """Has a plan approved by two callers."""
    for token in "t-bob", "t-dan":
        ask(at, "POST", f"/plans/{name}/approve", token=token)


def carry_out(at, name, *lines):
    """Stages a plan, has it approved and activates it."""
    plan(at, name, *lines)
    approve(at, name)
    ask(at, "POST", f"/plans/{name}/activate")


def zone(fabric, name, members):
    """A line that puts a zone."""
    return f"zone.put {fabric} {name} " + " ".join(f"wwpn={one:016x}" for one in members)


HOSTS = {"db1": ("blue", ["db1_data", "db1_log"]), "db2": ("green", ["db2_data"]), "app1": ("blue", ["app1_data"])}
SMALL = {
    fabric: [initiator(fabric, host) for host in range(len(HOSTS))] + [target(fabric, 1), target(fabric, 2)] for fabric in (0, 1)
}


def small(at):
    """db1 (blue) over both fabrics, db2 (green), app1 (blue) over A alone; five volumes; plans that do this and that."""
    for fabric, letter in enumerate("AB"):
        ports(at, letter, SMALL[fabric])
    for number, (name, (tenant, _)) in enumerate(HOSTS.items()):
        holder(at, "hosts", name, [initiator(0, number), initiator(1, number)], tenant)
    holder(at, "arrays", "arr1", [target(fabric, port) for fabric in (0, 1) for port in (1, 2)], "store")
    for tenant, volumes in HOSTS.values():
        for name in volumes:
            volume(at, name, tenant)
    volume(at, "spare", "blue")
    carry_out(at, "first", *zoning(), *mapping())
    plans(at)


def zoning():
    """The lines that zone the small world: app1 has no zone in fabric B."""
    lines = []
    for fabric, letter in enumerate("AB"):
        zoned = [name for name in HOSTS if (letter, name) != ("B", "app1")]
        for name in zoned:
            members = [initiator(fabric, list(HOSTS).index(name)), target(fabric, 1), target(fabric, 2)]
            lines.append(zone(letter, name, members))
        lines += [f"set.put {letter} s " + " ".join(zoned), f"activate {letter} s"]
    return lines


def mapping():
    """The lines that map the volumes of the small world."""
    lines = []
    for name, (tenant, volumes) in HOSTS.items():
        lines += [f"hg.put {name}_hg {tenant} {name}", f"sg.new {name}_sg {tenant} arr1", f"sg.host {name}_sg {name}_hg"]
        lines += [f"sg.target {name}_sg {target(fabric, port):016x}" for fabric in (0, 1) for port in (1, 2)]
        lines += [f"sg.map {name}_sg {unit} {one}" for unit, one in enumerate(volumes)] + [f"sg.expose {name}_sg"]
    return lines


def plans(at):
    """The staged plans of the small world."""
    away = [f"sg.untarget db1_sg {target(1, port):016x}" for port in (1, 2)]
    plan(at, "CHG7", "sg.map db1_sg 2 spare", *away)  # spare over A alone, and db1 left on A
    plan(at, "CHG8", zone("A", "db2", [target(0, 1)]), "activate A s")  # db2 loses A; no line names a host
    plan(at, "CHG9", "sg.map db1_sg 3 spare", "sg.map db1_sg 4 nothing")  # refused at line 2
    plan(at, "CHG10", "sg.map db1_sg 5 spare")
    ask(at, "PUT", "/plans/CHG15", "sg.hide db1_sg\n", token="t-bob")


def large(at, hosts=64, units=64):
    """Hosts of 4 initiators, 8 targets and `units` volumes each, 16 paths a volume, in three host groups of 1, 8 and
    the other hosts; half of the targets are in use. With 64 hosts these are 65,536 paths."""
    targets = [[target(fabric, 0x100 + port) for port in range(8)] for fabric in (0, 1)]
    names = [[initiator(fabric, 0x100 + host, port) for host in range(hosts) for port in (0, 1)] for fabric in (0, 1)]
    for fabric, letter in enumerate("AB"):
        ports(at, letter, SMALL[fabric] + names[fabric] + targets[fabric])
    for host in range(hosts):
        holder(at, "hosts", f"esx{host:03}", [initiator(f, 0x100 + host, port) for f in (0, 1) for port in (0, 1)], "blue")
    holder(at, "arrays", "big", targets[0] + targets[1], "store")
    for unit in range(units):
        volume(at, f"lun{unit:03}", "blue", "big", 1024)
    for fabric, letter in enumerate("AB"):
        lines = zone(letter, "all", names[fabric] + targets[fabric]), f"set.put {letter} big all", f"activate {letter} big"
        carry_out(at, f"zones{letter}", *lines)
    for number, (first, last) in enumerate([(0, 1), (1, 17), (17, hosts)]):
        lines = [f"hg.put big{number} blue " + " ".join(f"esx{host:03}" for host in range(first, last))]
        lines += [f"sg.new big{number} blue big", f"sg.host big{number} big{number}"]
        lines += [f"sg.target big{number} {one:016x}" for fabric in (0, 1) for one in targets[fabric][:4]]
        lines += [f"sg.map big{number} {unit} lun{unit:03}" for unit in range(units)]
        carry_out(at, f"map{number}", *lines, f"sg.expose big{number}")
    plan(at, "lose16384", "sg.hide big1")
    plan(at, "lose65536", "sg.hide big0", "sg.hide big1", "sg.hide big2")
    away = [f"sg.untarget big1 {one:016x}" for fabric in (0, 1) for one in targets[fabric][:4]]
    come = [f"sg.target big1 {one:016x}" for fabric in (0, 1) for one in targets[fabric][4:]]
    plan(at, "move16384", *away, *come)
