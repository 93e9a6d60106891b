#!/usr/bin/env python3
"""Makes the histories that crates/fab_worlds_players plays: configurations with the changes of the activations in
force, the oldest first, and of each whether a desk opens with it, or the changes are damaged. The answers of the told
ones stand here as they were written; those of the random ones, and again of the told ones, follow from the definitions
alone: each earlier configuration is made anew as a set of rows and looked at whole. Nothing here calls the desk.

    python3 tools/store_histories.py > crates/fab_wire_conformance/data/histories.txt
    python3 tools/store_histories.py --counts        # how many there are, by what is wrong first

The form of a line is told in crates/fab_worlds_players/src/histories.rt."""
import collections
import random
import sys

HISTORIES = 2000
# so many of the random ones, and the stories, are played with each request for memory refused, too
SCARCE = 20

I1, I2 = "10:00:00:00:00:00:00:01", "10:00:00:00:00:00:00:02"
T1, T2 = "50:00:00:00:00:00:00:01", "50:00:00:00:00:00:00:02"
HOSTS = {"db1": [I1], "db2": [I2]}
ARRAYS = {"arr1": [T1, T2]}
VOLUMES = {"v1": "arr1", "v2": "arr1"}
LAST_UNIT = 16383


# ---- rows, as the entries of the table of changes

def active_set(fabric, name):
    return f"meta active.{fabric} {name}"


def default(fabric, word):
    return f"meta default.{fabric} {word}"


def item(fabric, kind, name, text):
    return f"zoning {fabric} {kind} {name} {text}"


def alias(name, member, fabric="A"):
    return item(fabric, "alias", name, member)


def zone(name, member, fabric="A"):
    return item(fabric, "zone", name, member)


def zone_set(name, member, fabric="A"):
    return item(fabric, "set", name, member)


def active(zone_name, member, fabric="A"):
    return f"active {fabric} {zone_name} {member}"


def host_group(name, tenant="blue"):
    return f"groups host {name} {tenant}  0"


def group(name, exposed=1, tenant="blue", array="arr1"):
    return f"groups storage {name} {tenant} {array} {exposed}"


def host(group_name, name):
    return f"group_parts host {group_name} host {name} "


def serves(name, group_name):
    return f"group_parts storage {name} hostgroup {group_name} "


def target(name, port):
    return f"group_parts storage {name} target {port.replace(':', '')} "


def unit(name, number, volume):
    return f"group_parts storage {name} unit {number} {volume}"


def port(name):
    return f"wwpn={name}"


DISK, TAPE = "alias=disk", "alias=tape"

# all rows that random configurations have
ROWS = [
    *(active_set("A", it) for it in ["", "s1", "s2"]), *(active_set("B", it) for it in ["", "s1"]),
    *(default(fabric, it) for fabric in "AB" for it in ["deny", "permit"]),
    alias("disk", port(T1)), alias("disk", port(T2)), alias("tape", port(T2)), alias("tape", DISK),
    alias("disk", port(T1), "B"),
    zone("z1", port(I1)), zone("z1", DISK), zone("z1", TAPE), zone("z2", port(I1)), zone("z2", DISK),
    zone("z1", port(I1), "B"), zone("z1", DISK, "B"),
    zone_set("s1", "z1"), zone_set("s1", "z2"), zone_set("s2", "z2"), zone_set("s1", "z1", "B"),
    active("z1", port(I1)), active("z1", port(T1)), active("z2", port(I1)), active("z1", DISK),
    active("z1", port(I1), "B"),
    host_group("hosts1"), host_group("hosts1", "green"), host_group("hosts2"),
    *(host(k, h) for k in ["hosts1", "hosts2"] for h in ["db1", "db2"]), host("hosts1", "db9"),
    group("g1"), group("g1", 0), group("g1", 1, "green"), group("g1", 1, "blue", "arr9"), group("g2"), group("g2", 0),
    group("g3"),
    *(serves(g, k) for g in ["g1", "g2"] for k in ["hosts1", "hosts2"]), serves("g3", "hosts1"),
    *(target(g, t) for g in ["g1", "g2"] for t in [T1, T2]), target("g3", T1),
    unit("g1", 0, "v1"), unit("g1", 0, "v2"), unit("g1", 0, "v9"), unit("g1", 1, "v2"), unit("g1", 16383, "v1"),
    unit("g2", 0, "v1"), unit("g2", 0, "v2"), unit("g2", 1, "v1"), unit("g3", 0, "v1"),
    unit("g3", 0, "v2"),
]
NUMBERS = {row: number for number, row in enumerate(ROWS)}
SPLIT = {row: row.split(" ") for row in ROWS}
NEW = {active_set("A", ""), active_set("B", ""), default("A", "deny"), default("B", "deny")}


# ---- the definitions

def words(rows, *first):
    """What stands behind these words in the rows that begin with them."""
    return [SPLIT[row][len(first):] for row in rows if SPLIT[row][:len(first)] == list(first)]


def zoning_fault(rows, fabric):
    aliases, zones, sets = ([tuple(it) for it in words(rows, "zoning", fabric, kind)] for kind in ["alias", "zone", "set"])
    if any(member.startswith("alias=") for _, member in aliases):
        return "an alias in an alias"
    there = {f"alias={name}" for name, _ in aliases}
    if any(member.startswith("alias=") and member not in there for _, member in zones):
        return "a zone names no alias"
    there = {name for name, _ in zones}
    if any(name not in there for _, name in sets):
        return "a zone set names no zone"
    listed = words(rows, "active", fabric)
    if any(member.startswith("alias=") for _, member in listed):
        return "an alias is active"
    if active_set(fabric, "") in rows and listed:
        return "active rows without a name"
    if active_set(fabric, "") not in rows and not listed:
        return "an active name without rows"
    return None


def settings_fault(rows):
    for fabric in "AB":
        for key in ["active", "default"]:
            if len(words(rows, "meta", f"{key}.{fabric}")) != 1:
                return "a setting that is not there once"
    return None


def heads_fault(rows):
    """Groups and parts of them that do not belong together."""
    hosts, groups = ([it[0] for it in words(rows, "groups", kind)] for kind in ["host", "storage"])
    if len(set(hosts)) < len(hosts) or len(set(groups)) < len(groups):
        return "two heads of a group"
    if any(it[0] not in hosts for it in words(rows, "group_parts", "host")):
        return "a part of no host group"
    if any(it[0] not in groups for it in words(rows, "group_parts", "storage")):
        return "a part of no storage group"
    units = [tuple(it[:3]) for it in words(rows, "group_parts", "storage") if it[1] == "unit"]
    return "two volumes under a unit" if len(set(units)) < len(units) else None


def mapping_fault(rows):
    hosts = {it[0] for it in words(rows, "groups", "host")}
    filled = {it[0] for it in words(rows, "group_parts", "host")}
    parts = words(rows, "group_parts", "storage")
    if hosts - filled:
        return "a host group without a host"
    if any(it[1] == "hostgroup" and it[2] not in hosts for it in parts):
        return "no host group is served"
    if any(it[1] == "unit" and int(it[2]) > LAST_UNIT for it in parts):
        return "no unit number"
    return None


def clash(rows):
    """Whether a host would meet two volumes at one target under one unit."""
    members = words(rows, "group_parts", "host")
    parts = words(rows, "group_parts", "storage")
    met = collections.defaultdict(set)
    for name, _, _, exposed in words(rows, "groups", "storage"):
        if exposed == "1":
            own = [it[1:] for it in parts if it[0] == name]
            for kind, hosts, _ in own:
                for h in [it[2] for it in members if kind == "hostgroup" and it[0] == hosts]:
                    for t in [it[1] for it in own if it[0] == "target"]:
                        for _, number, volume in [it for it in own if it[0] == "unit"]:
                            met[h, t, number].add(volume)
    return any(len(it) > 1 for it in met.values())


def fault(rows):
    """Why the rows are of no sound configuration, if they are of none."""
    found = settings_fault(rows) or heads_fault(rows) or zoning_fault(rows, "A") or zoning_fault(rows, "B")
    return found or mapping_fault(rows) or ("a clash" if clash(rows) else None)


def fits(rows):
    """Whether what the configuration names is known: it has to be now, and need not have been."""
    groups = {it[0]: it[2] for it in words(rows, "groups", "storage")}
    known = all(it[2] in HOSTS for it in words(rows, "group_parts", "host")) and set(groups.values()) <= set(ARRAYS)
    for name, kind, text, volume in words(rows, "group_parts", "storage"):
        if kind == "target":
            known = known and text in [it.replace(":", "") for it in ARRAYS[groups[name]]]
        if kind == "unit":
            known = known and VOLUMES.get(volume) == groups[name]
    return known


def history_fault(now, changes):
    """Why the changes, the oldest first, do not lead back from the configuration through sound ones, if they do not."""
    for added, taken in reversed(changes):
        if not added <= now:
            return "an added row that is not there"
        if taken & now:
            return "a taken row that is there"
        now = (now - added) | taken
        if found := fault(now):
            return found
    return None


# ---- told histories

FIRST = {active_set("A", "s1"), alias("disk", port(T1)), zone("z1", port(I1)), zone("z1", DISK), zone_set("s1", "z1"),
         active("z1", port(I1)), active("z1", port(T1))}
HOLD = {host_group("hosts1"), host("hosts1", "db1"), serves("g1", "hosts1"), target("g1", T1)}
SECOND = HOLD | {group("g1"), unit("g1", 0, "v1")}
OTHER = {group("g2"), serves("g2", "hosts1"), target("g2", T1), unit("g2", 0, "v2")}
NONE = active_set("A", "")
V1, V2 = unit("g1", 0, "v1"), unit("g1", 0, "v2")


def after(*changes):
    """The configuration after the changes of a new one, and these."""
    rows = set(NEW)
    for added, taken in changes:
        rows = (rows - taken) | added
    return rows, list(changes)


def worked(third=({V2}, {V1}), second=(SECOND, set()), first=(FIRST, {NONE})):
    """Three activations: a zone set that is active, a storage group, and another volume at its unit."""
    return after(first, second, third)


def beside(more, less=frozenset()):
    """The second activation adds these rows too, without those, and the third takes them away again."""
    return worked(third=({V2}, {V1} | more), second=((SECOND - less) | more, set()))


def spoiled(place, added, taken):
    """The changes of one activation are others than they were."""
    now, changes = worked()
    changes[place] = (added, taken)
    return now, changes


def told():
    """A title, the configuration with its changes, and whether a desk opens with it: each story as it is, and with one
    activation more behind it, since the last one is looked at in another way than those before it."""
    for title, (now, changes), opens in stories():
        yield title, (now, changes), opens
        more = now - {default("B", "deny")} | {default("B", "permit")}
        yield f"{title}; and one more", (more, [*changes, ({default("B", "permit")}, {default("B", "deny")})]), opens


def stories():
    now, changes = worked()
    yield "three activations", (now, changes), True
    yield "none", (now, []), True
    yield "the last two: the configuration before them is sound too", (now, changes[1:]), True
    yield "one that changed nothing", (now, [*changes, (set(), set())]), True

    # by the configuration before the last activation, by what it takes away
    yield "an alias of a port", beside({alias("tape", port(T2))}), True
    yield "an alias in an alias", beside({alias("tape", DISK)}), False
    yield "a zone in a zone set", beside({zone("z2", port(I1)), zone_set("s1", "z2")}), True
    yield "an empty zone in a zone set", beside({zone_set("s1", "z2")}), False
    yield "an alias in a zone that is not there", beside({zone("z1", TAPE)}), False
    yield "an active row more", beside({active("z2", port(I1))}), True
    yield "an active row of an alias", beside({active("z1", DISK)}), False
    yield "a hidden group beside", beside((OTHER - {group("g2")}) | {group("g2", 0)}), True
    yield "a clash", beside(OTHER), False
    yield "no clash at another target", beside((OTHER - {target("g2", T1)}) | {target("g2", T2)}), True
    yield "an empty host group", beside({host_group("hosts2")}), False
    yield "a host group", beside({host_group("hosts2"), host("hosts2", "db2")}), True
    yield "a host group that is not there is served", beside({serves("g1", "hosts2")}), False
    yield "the last unit", beside({unit("g1", 16383, "v1")}), True
    yield "a part of a storage group that is not there", beside({target("g3", T1)}), False
    yield "a host of a host group that is not there", beside({host("hosts2", "db1")}), False
    yield "a host that is gone since", beside({host("hosts1", "db9")}), True
    yield "a volume that is gone since", worked(({V2}, {unit("g1", 0, "v9")}), (HOLD | {group("g1"), unit("g1", 0, "v9")}, set())), True
    yield "an array that is gone since", worked(
        ({group("g1")}, {group("g1", 1, "blue", "arr9")}), (HOLD | {group("g1", 1, "blue", "arr9"), V1}, set())), True
    yield "two heads of a storage group", beside({group("g1", 0)}), False
    yield "a tenant of a group", worked(({group("g1")}, {group("g1", 1, "green")}), (HOLD | {group("g1", 1, "green"), V1}, set())), True
    yield "two volumes under a unit", beside({unit("g1", 0, "v2")} - {V2} | {unit("g1", 0, "v9")}), False
    yield "two settings", beside({default("A", "permit")}), False
    yield "a setting", worked(({default("A", "deny")}, {default("A", "permit")}), (SECOND | {default("A", "permit")}, {default("A", "deny")})), True

    # by what it adds
    yield "an active name without rows", worked(first=(FIRST - {active("z1", port(I1)), active("z1", port(T1))}, {NONE}),
        second=(SECOND | {active("z1", port(I1)), active("z1", port(T1))}, set())), False
    yield "active rows without a name", worked(first=(FIRST - {active_set("A", "s1")}, set()),
        second=(SECOND | {active_set("A", "s1")}, {NONE})), False
    yield "a zone set before its zone", worked(first=(FIRST - {zone("z1", port(I1)), zone("z1", DISK)}, {NONE}),
        second=(SECOND | {zone("z1", port(I1)), zone("z1", DISK)}, set())), False
    yield "a zone before its alias", worked(first=(FIRST - {alias("disk", port(T1))}, {NONE}),
        second=(SECOND | {alias("disk", port(T1))}, set())), False
    yield "a storage group before its host group", worked(({host_group("hosts1"), host("hosts1", "db1")}, set()),
        (SECOND - {host_group("hosts1"), host("hosts1", "db1")}, set())), False
    yield "a host group before its host", worked(({host("hosts1", "db1")}, set()), (SECOND - {host("hosts1", "db1")}, set())), False
    yield "a storage group before its head", worked(({group("g1")}, set()), (SECOND - {group("g1")}, set())), False

    # an earlier one still, where the ones behind it are sound
    yield "a clash before the second", worked(second=(SECOND - HOLD - {group("g1")} | {V1}, OTHER),
        first=(FIRST | HOLD | {group("g1"), unit("g1", 0, "v1")} | OTHER, {NONE})), False
    yield "a clash at the beginning", worked(({V2}, {V1}), (set(), set()), (FIRST | SECOND, {NONE} | OTHER | {group("g3"),
        target("g3", T1), unit("g3", 0, "v1"), serves("g3", "hosts1")})), False
    yield "a clash by a host that comes back", worked(({V2}, {V1, host("hosts1", "db2")}),
        (SECOND | {host("hosts1", "db2"), host_group("hosts2"), host("hosts2", "db2"), *(OTHER - {serves("g2", "hosts1")}),
                   serves("g2", "hosts2")}, set())), False
    yield "no clash without the host", worked(({V2}, {V1}),
        (SECOND | {host_group("hosts2"), host("hosts2", "db2"), *(OTHER - {serves("g2", "hosts1")}), serves("g2", "hosts2")}, set())), True
    beside_hosts = SECOND | {host_group("hosts2"), host("hosts2", "db2")}
    yield "a clash by the host alone", worked((set(), {host("hosts1", "db2")}),
        (beside_hosts | {host("hosts1", "db2"), serves("g2", "hosts2")} | OTHER - {serves("g2", "hosts1")}, set())), False
    yield "a clash by the host group that is served", worked(({serves("g2", "hosts2")}, {serves("g2", "hosts1")}),
        (beside_hosts | OTHER, set())), False
    yield "a clash by the head, which was exposed", worked(({group("g2", 0)}, {group("g2")}), (SECOND | OTHER, set())), False
    yield "no clash by the head at another target", worked(({group("g2", 0)}, {group("g2")}),
        (SECOND | OTHER - {target("g2", T1)} | {target("g2", T2)}, set())), True
    yield "a clash by the target", worked(({target("g2", T2)}, {target("g2", T1)}), (SECOND | OTHER, set())), False
    yield "a clash by the unit", worked(({unit("g2", 0, "v1")}, {unit("g2", 0, "v2")}), (SECOND | OTHER, set())), False
    yield "an alias in an alias at the beginning", worked(first=(FIRST, {NONE, alias("tape", DISK)})), False

    # rows that are not those that were changed
    yield "a row of the last is dropped", spoiled(2, {V2}, set()), False
    yield "another is dropped", spoiled(2, set(), {V1}), False
    yield "a row of the first is dropped", spoiled(0, FIRST - {active_set("A", "s1")}, {NONE}), False
    yield "a row of the second is dropped, and a sound configuration is before it", spoiled(1, SECOND - {alias("tape", port(T2))} - {
        target("g1", T1)}, set()), False
    yield "a row is added that is not there", spoiled(2, {V2, unit("g1", 1, "v2")}, {V1}), False
    yield "a row is added that was there before", spoiled(2, {V2, target("g1", T1)}, {V1}), False
    yield "a row is taken that is there", spoiled(2, {V2}, {V1, target("g1", T1)}), False
    yield "a row is taken that leaves the second as it is", spoiled(2, {V2}, {V1, target("g1", T2)}), False
    yield "a row is exchanged", spoiled(2, {V2}, {unit("g1", 0, "v9")}), False
    yield "a sign is turned", spoiled(2, {V2, V1}, set()), False
    yield "the other sign is turned", spoiled(2, set(), {V1, V2}), False
    yield "both signs are turned", spoiled(2, {V1}, {V2}), False
    yield "a row has both signs", spoiled(2, {V2, V1}, {V1}), False
    yield "a row that stands has both signs", spoiled(2, {V2}, {V1, V2}), False
    yield "the changes of the last two are swapped", (now, [changes[0], changes[2], changes[1]]), False
    yield "the changes of the first two are swapped", (now, [changes[1], changes[0], changes[2]]), True
    yield "the changes of the first and the last are swapped", (now, [changes[2], changes[1], changes[0]]), False
    yield "the last comes twice", (now, [*changes, changes[2]]), False


# ---- random histories

def key_of(row):
    """Rows of one key exclude each other: the values of a setting, the heads of a group, the volumes of a unit."""
    parts = SPLIT[row]
    if parts[0] == "meta":
        return tuple(parts[:2])
    if parts[0] == "groups":
        return tuple(parts[:3])
    return tuple(parts[:-1]) if parts[3:4] == ["unit"] else row


def toggled(rng, rows, count):
    rows = set(rows)
    for _ in range(count):
        row = rng.choice(ROWS)
        if row in rows and not row.startswith("meta"):
            rows.remove(row)
        else:
            rows = {it for it in rows if key_of(it) != key_of(row)} | {row}
    return rows


def larger(rng, rows):
    """A piece that goes well together comes or goes whole."""
    piece = rng.choice([FIRST, SECOND, OTHER, HOLD, {host_group("hosts2"), host("hosts2", "db2"), serves("g2", "hosts2")},
                        {group("g3"), serves("g3", "hosts1"), target("g3", T1), unit("g3", 0, "v2")},
                        {active_set("B", "s1"), zone("z1", port(I1), "B"), zone_set("s1", "z1", "B"), active("z1", port(I1), "B")}])
    if rng.random() < 0.4:
        rows = rows - piece
        return rows | {it for it in NEW if all(key_of(it) != key_of(other) for other in rows)}
    return {it for it in rows if all(key_of(it) != key_of(other) for other in piece)} | piece


def next_one(rng, rows, is_last):
    for _ in range(400):
        found = larger(rng, rows) if rng.random() < 0.4 else rows
        found = toggled(rng, found, rng.choice([0, 1, 1, 2, 3, 4]))
        if fault(found) is None and (fits(found) or not is_last):
            return found
    return None


def chain(rng):
    """Sound configurations, one after the other: what the last names is known."""
    while True:
        found = [set(NEW)]
        for _ in range(rng.randint(2, 4)):
            found.append(next_one(rng, found[-1], False) or found[-1])
        found = found[rng.randint(1, 2):]
        for _ in range(rng.randint(1, 3)):
            found.append(next_one(rng, found[-1], True))
            if found[-1] is None:
                break
        if found[-1] is not None:
            return found


def changes_of(configs):
    return [(new - old, old - new) for old, new in zip(configs, configs[1:])]


FAULTS = ["an alias in an alias", "a zone names no alias", "a zone set names no zone", "an alias is active",
          "active rows without a name", "an active name without rows", "a setting that is not there once",
          "two heads of a group", "a part of no host group", "a part of no storage group", "two volumes under a unit",
          "a host group without a host", "no host group is served", "no unit number", "a clash", "a clash", "a clash", None, None]


def unruly(rng, rows):
    """A row or two come or go, whatever else is there; or a piece."""
    if rng.random() < 0.3:
        return larger(rng, larger(rng, rows))
    rows = set(rows)
    for _ in range(rng.choice([1, 1, 2])):
        rows ^= {rng.choice(ROWS)}
    return rows


def misled(rng, configs):
    """One of the earlier configurations gets a fault of some kind, and the changes around it tell so."""
    wanted = rng.choice(FAULTS)
    for _ in range(500):
        place = rng.randrange(len(configs) - 1)
        found = unruly(rng, configs[place])
        if fault(found) == wanted:
            return configs[:place] + [found] + configs[place + 1:]
    return configs


def spoil(rng, changes):
    """One row of a change is dropped, added, exchanged or gets the other sign, or two changes are swapped."""
    changes = [(set(added), set(taken)) for added, taken in changes]
    place = rng.randrange(len(changes))
    sides = changes[place]
    side = rng.choice([it for it in sides if it] or sides)
    kind = rng.choice(["dropped", "added", "exchanged", "turned", "swapped"])
    if kind == "swapped":
        other = rng.randrange(len(changes))
        changes[place], changes[other] = changes[other], changes[place]
    elif kind == "added":
        sides[rng.randrange(2)].add(rng.choice(ROWS))
    elif side:
        row = rng.choice(sorted(side))
        side.remove(row)
        if kind == "exchanged":
            side.add(rng.choice(ROWS))
        if kind == "turned":
            sides[0 if side is sides[1] else 1].add(row)
    return changes


def random_history(rng):
    configs = chain(rng)
    chance = rng.random()
    if chance < 0.5:
        configs = misled(rng, configs)
    changes = changes_of(configs)
    if chance > 0.75:
        changes = spoil(rng, changes)
    return configs[-1], changes


# ---- the text

def say(now, changes, rng, is_scarce):
    def numbers(rows, sign=""):
        found = [f"{sign}{NUMBERS[row]}" for row in sorted(rows)]
        rng.shuffle(found)
        return found

    print(" ".join(["now", *numbers(now)]))
    for place, (added, taken) in enumerate(changes):
        told_rows = numbers(added, "+") + numbers(taken, "-")
        rng.shuffle(told_rows)
        print(" ".join(["plan", f"p{place + 1}", *told_rows]))
    word = "undo" if history_fault(now, changes) else "opens"
    print(f"scarce {word}" if is_scarce else word)


def say_all():
    print(f"# Told histories, and {HISTORIES} random ones, and whether a desk opens with them: made by tools/store_histories.py")
    for name, ports in HOSTS.items():
        print("host", name, *ports)
    for name, ports in ARRAYS.items():
        print("array", name, *ports)
    for name, array in VOLUMES.items():
        print("volume", name, array)
    for row in ROWS:
        print("row", row)
    for title, (now, changes), opens in told():
        assert fits(now) and fault(now) is None, title
        assert (history_fault(now, changes) is None) == opens, title
        print(f"# {title}")
        print("history")
        say(now, changes, random.Random(title), not title.endswith("; and one more"))
    for number in range(HISTORIES):
        rng = random.Random(f"history {number}")
        now, changes = random_history(rng)
        print(f"# {number}")
        print("history")
        say(now, changes, rng, number < SCARCE)


def count_all():
    found = collections.Counter(
        history_fault(*random_history(random.Random(f"history {number}"))) or "opens" for number in range(HISTORIES))
    for word, count in found.most_common():
        print(f"{count:>6}  {word}")


if __name__ == "__main__":
    count_all() if sys.argv[1:] == ["--counts"] else say_all()
