#!/usr/bin/env python3
"""Makes the worlds that crates/fab_worlds_players plays: a few that were written by hand with their answers,
and 100 random worlds as text, and for each pair of a host and a volume, and for each volume, what two callers
have to be told who ask `why` and `who`: the answer, the pairs of ports, and by what storage groups. The answers
follow from the definitions alone, by sets and loops over all there is, and nothing here calls the desk.

    python3 tools/looks_worlds.py > crates/fab_wire_conformance/data/worlds.txt

The form of a line is told in crates/fab_worlds_players/src/looks.rt."""
import os
import random

WORLDS = 100
TENANTS = ["blue", "green"]
CALLERS = {"all": TENANTS + ["store"], "blue": ["blue"]}

# The worlds that were written by hand. At A the ports are in no zone and the default zone joins them, at B a zone
# does; then no zone has both, and the default zone denies; then the storage group is another's, as is the host group.
# The last is the worked world: what is another's is told as what is not there.
BY_HAND = os.path.join(os.path.dirname(os.path.realpath(__file__)), "looks_by_hand.txt")


def wwn(number):
    text = f"{number:016x}"
    return ":".join(text[i : i + 2] for i in range(0, 16, 2))


class World:
    """What is known, by name: ports with their node and place, holders, volumes, zonings and groups."""

    def __init__(self, rng):
        self.rng, self.lines = rng, []
        self.ports, self.holder_of = {}, {}
        self.hosts, self.arrays, self.volumes = {}, {}, {}
        self.rows, self.permits = {"A": set(), "B": set()}, {"A": False, "B": False}
        self.host_groups, self.groups = {}, {}

    def say(self, *words):
        self.lines.append(" ".join(words))

    # ---- what a world is made of

    def make_ports(self):
        rng, slots = self.rng, set()
        count = rng.randint(8, 16)
        for i in range(count):
            kind = 0x10 if i < count // 2 else 0x50
            name = kind << 56 | i + 1
            while (place := (rng.choice("AB"), rng.randint(1, 2), rng.randint(0, 9))) in slots:
                pass
            slots.add(place)
            # now and then a port's node has another port
            self.ports[name] = [0x20 << 56 | rng.randint(1, count), place]
        self.say_ports()
        gone = [it for it in self.ports if rng.random() < 0.1]
        for name in gone:
            self.ports[name][1] = None
        if gone:
            self.say_ports()

    def say_ports(self):
        for name, (node, place) in sorted(self.ports.items()):
            if place:
                self.say(place[0].lower(), f"{wwn(name)},{wwn(node)},{place[1]},{place[2]}")
        self.say("import")

    def make_holders(self):
        rng = self.rng
        initiators = [it for it in sorted(self.ports) if it >> 56 == 0x10]
        targets = [it for it in sorted(self.ports) if it >> 56 == 0x50]
        count = rng.randint(1, 3)
        for i in range(count):
            own = [it for k, it in enumerate(initiators) if k % (count + 1) == i]
            self.hosts[f"h{i}"] = rng.choice(TENANTS)
            self.hold("host", f"h{i}", self.hosts[f"h{i}"], own)
        for i in range(rng.randint(1, 2)):
            own = [it for it in targets if it not in self.holder_of and rng.random() < 0.8]
            self.arrays[f"r{i}"] = own
            self.hold("array", f"r{i}", "store", own)
        for i in range(rng.randint(1, 4)):
            tenant, array = rng.choice(TENANTS), rng.choice(sorted(self.arrays))
            self.volumes[f"v{i}"] = (tenant, array)
            self.say("volume", f"v{i}", tenant, array)

    def hold(self, kind, name, tenant, own):
        for port in [it for it in self.holder_of if self.holder_of[it] == name]:
            del self.holder_of[port]
        self.holder_of.update({it: name for it in own})
        self.say(kind, name, tenant, *map(wwn, own))

    def member(self):
        """A member of a zone as a text, and as what it stands for."""
        rng, name = self.rng, self.rng.choice(sorted(self.ports))
        node, place = self.ports[name]
        kind = rng.choice(["wwpn", "wwpn", "wwpn", "wwnn", "dp"])
        if kind == "wwnn":
            return f"wwnn={wwn(node)}", ("node", node)
        if kind == "dp":
            at = place[1:] if place else (rng.randint(1, 2), rng.randint(0, 9))
            return f"dp={at[0]},{at[1]}", ("place", at)
        return f"wwpn={wwn(name)}", ("port", name)

    def make_zoning(self, fabric):
        rng, aliases, zones = self.rng, {}, {}
        if rng.random() < 0.2:
            self.permits[fabric] = True
            self.plan(f"default {fabric} permit")
        if rng.random() < 0.15:
            return
        for i in range(rng.randint(0, 2)):
            members = [self.member() for _ in range(rng.randint(1, 2))]
            aliases[f"l{i}"] = [it[1] for it in members]
            self.plan(f"alias.put {fabric} l{i} " + " ".join(it[0] for it in members))
        for i in range(rng.randint(1, 4)):
            members = [self.member() for _ in range(rng.randint(2, 7))]
            texts, parts = [it[0] for it in members], [it[1] for it in members]
            if aliases and rng.random() < 0.5:
                alias = rng.choice(sorted(aliases))
                texts.append(f"alias={alias}")
                parts += aliases[alias]
            zones[f"z{i}"] = parts
            self.plan(f"zone.put {fabric} z{i} " + " ".join(texts))
        chosen = sorted(rng.sample(sorted(zones), rng.randint(1, len(zones))))
        self.plan(f"set.put {fabric} s " + " ".join(chosen))
        self.plan(f"activate {fabric} s")
        self.rows[fabric] = {(zone, part) for zone in chosen for part in zones[zone]}
        # what is active is a copy
        if rng.random() < 0.3:
            self.plan(f"zone.put {fabric} {chosen[0]} dp=9,9")

    def make_groups(self):
        rng = self.rng
        for i in range(rng.randint(1, 3)):
            own = [it for it in sorted(self.hosts) if rng.random() < 0.7] or [sorted(self.hosts)[0]]
            self.host_groups[f"k{i}"] = own
            self.plan(f"hg.put k{i} {rng.choice(TENANTS)} " + " ".join(own))
        for i in range(rng.randint(1, 5)):
            array = rng.choice(sorted(self.arrays))
            group = {"hosts": [], "targets": [], "units": {}, "exposed": rng.random() < 0.8}
            group["tenant"] = rng.choice(TENANTS)
            self.groups[f"g{i}"] = group
            self.plan(f"sg.new g{i} {group['tenant']} {array}")
            for name in sorted(self.host_groups):
                if rng.random() < 0.7:
                    group["hosts"].append(name)
                    self.plan(f"sg.host g{i} {name}")
            for target in self.arrays[array]:
                if rng.random() < 0.7:
                    group["targets"].append(target)
                    self.plan(f"sg.target g{i} {wwn(target)}")
            for place, (volume, (_, there)) in enumerate(sorted(self.volumes.items())):
                # each volume has units of its own, so that none clashes
                for unit in rng.sample(range(4), rng.choice([0, 1, 1, 2])) if there == array else []:
                    group["units"][4 * place + unit] = volume
                    self.plan(f"sg.map g{i} {4 * place + unit} {volume}")
            if group["exposed"]:
                self.plan(f"sg.expose g{i}")

    def plan(self, text):
        self.say("+", text)

    def make(self):
        self.make_ports()
        self.make_holders()
        for fabric in "AB":
            self.make_zoning(fabric)
        self.make_groups()
        if any(it.startswith("+") for it in self.lines):
            self.say("plan")
        for array, own in sorted(self.arrays.items()):
            # a target may leave its array
            if own and self.rng.random() < 0.2:
                self.hold("array", array, "store", own[1:])

    # ---- the definitions

    def is_at(self, name, fabric):
        return bool(self.ports[name][1]) and self.ports[name][1][0] == fabric

    def zones_of(self, name, fabric):
        if not self.is_at(name, fabric):
            return set()
        node, place = self.ports[name]
        own = {("port", name), ("node", node), ("place", place[1:])}
        return {zone for zone, part in self.rows[fabric] if part in own}

    def are_joined(self, p, q, fabric):
        if p == q or not (self.is_at(p, fabric) and self.is_at(q, fabric)):
            return False
        one, other = self.zones_of(p, fabric), self.zones_of(q, fabric)
        return bool(one & other) or (self.permits[fabric] and not one and not other)

    def logins(self, host):
        return [(f, p) for f in "AB" for p in self.ports if self.holder_of.get(p) == host and self.is_at(p, f)]

    def serving(self, host):
        return [g for g in self.groups.values() if any(host in self.host_groups[k] for k in g["hosts"])]

    def paths(self, host, volume):
        return sorted({
            (f, p, q, unit)
            for g in self.serving(host)
            if g["exposed"]
            for f, p in self.logins(host)
            for q in g["targets"]
            if self.holder_of.get(q) in self.arrays and self.are_joined(p, q, f)
            for unit, there in g["units"].items()
            if there == volume
        })

    def missing(self, host, volume):
        """The first link that is missing, of a host and a volume without a path."""
        if host not in self.hosts:
            return "host"
        if not self.logins(host):
            return "login"
        if volume not in self.volumes:
            return "volume"
        left = [g for g in self.groups.values() if volume in g["units"].values()]
        if not left:
            return "mapped"
        left = [g for g in left if g in self.serving(host)]
        if not left:
            return "served"
        left = [g for g in left if g["exposed"]]
        if not left:
            return "exposed"
        met = any(
            self.holder_of.get(q) in self.arrays and self.is_at(q, f)
            for g in left for q in g["targets"] for f, _ in self.logins(host)
        )
        return "joined" if met else "met"

    # ---- what callers are told

    def sees(self, caller, tenant):
        return tenant in CALLERS[caller]

    def ask_why(self, caller, host, volume):
        if host in self.hosts and not self.sees(caller, self.hosts[host]):
            host_there = False
        else:
            host_there = host in self.hosts
        volume_there = volume in self.volumes and self.sees(caller, self.volumes[volume][0])
        if not host_there:
            answer = "host"
        elif not volume_there:
            answer = "volume" if self.logins(host) else "login"
        elif paths := self.paths(host, volume):
            answer = " ".join(f"{f} {wwn(p)} {wwn(q)} {unit}" for f, p, q, unit in paths)
        else:
            answer = self.missing(host, volume)
        self.say("why", caller, host, volume, "=", answer)

    def ask_who(self, caller, volume):
        told = []
        if volume in self.volumes and self.sees(caller, self.volumes[volume][0]):
            for host in sorted(self.hosts):
                paths = self.paths(host, volume)
                if paths and self.sees(caller, self.hosts[host]):
                    told.append(f"{host} {sum(it[0] == 'A' for it in paths)} {sum(it[0] == 'B' for it in paths)}")
        self.say("who", caller, volume, "=", " ".join(told) or "nobody")

    def is_own(self, caller, host, volume):
        hosts = host in self.hosts and self.sees(caller, self.hosts[host])
        return hosts and volume in self.volumes and self.sees(caller, self.volumes[volume][0])

    def zoned(self, name, fabric):
        """The zones of a port: none, one by its name, or how many."""
        zones = sorted(self.zones_of(name, fabric))
        return f"1:{zones[0]}" if len(zones) == 1 else str(len(zones))

    def tie(self, p, q, fabric):
        """Why two ports may communicate, or the zones of each."""
        if not self.are_joined(p, q, fabric):
            return f"apart {self.zoned(p, fabric)} {self.zoned(q, fabric)}"
        both = sorted(self.zones_of(p, fabric) & self.zones_of(q, fabric))
        return f"zone {both[0]}" if both else "default"

    def ask_pairs(self, caller, host, volume):
        pairs = {
            (f, p, q)
            for g in (self.serving(host) if self.is_own(caller, host, volume) else [])
            if volume in g["units"].values() and self.sees(caller, g["tenant"])
            for f, p in self.logins(host)
            for q in g["targets"]
            if self.is_at(q, f)
        }
        told = [f"{f} {wwn(p)} {wwn(q)} {self.tie(p, q, f)}" for f, p, q in sorted(pairs)]
        self.say("pairs", caller, host, volume, "=", ", ".join(told) or "none")

    def ask_by(self, caller, volume):
        told = []
        for host in sorted(self.hosts):
            if not self.is_own(caller, host, volume) or not self.paths(host, volume):
                continue
            serving = self.serving(host)
            own = {
                name: [u for u, there in g["units"].items() if there == volume]
                for name, g in self.groups.items()
                if g in serving and g["exposed"] and volume in g["units"].values() and self.sees(caller, g["tenant"])
            }
            units = ",".join(map(str, sorted({u for us in own.values() for u in us}))) or "-"
            told.append(f"{host} {self.hosts[host]} {units} {','.join(sorted(own)) or '-'}")
        self.say("by", caller, volume, "=", ", ".join(told) or "nobody")

    def ask(self):
        for caller in CALLERS:
            # all there is; and names that are not there, or are an array's
            for volume in [*sorted(self.volumes), "v9"]:
                for host in [*sorted(self.hosts), *(["h9", "r0"] if volume == "v0" else [])]:
                    self.ask_why(caller, host, volume)
                    self.ask_pairs(caller, host, volume)
                self.ask_who(caller, volume)
                self.ask_by(caller, volume)


if __name__ == "__main__":
    print("# worlds by hand and 100 random ones, and what callers are told of them: made by tools/looks_worlds.py")
    with open(BY_HAND, encoding="utf-8") as worlds:
        print(worlds.read())
    for number in range(WORLDS):
        world = World(random.Random(f"looks {number}"))
        world.make()
        world.ask()
        print(f"world {number}")
        print("\n".join(world.lines))
