#!/usr/bin/env python3
"""Times dry runs through the wire under 64 rules that ask for an approval by each touched tenant, beside the
same policy without the key `each_tenant`. There are 256 callers who list 64 tenants each, and the plan
touches 64 tenants.

    python3 bench/each_tenant.py [--turns N]

Each line is one way in which the tenants are signed for: all by the last caller; or each by another one,
whose list names that tenant last and 63 others that nobody touches. The lines say the least and the median
time of a dry run in milliseconds, and how many times as long it takes with the key. The status is 1 where the
median is more than three times as long.
"""
import argparse
import pathlib
import statistics
import sys
import tempfile
import time

from desk import Desk, ask, holder, make

CALLERS, TENANTS, RULES = 256, 64, 64
MOST_TIMES = 3


def caller(name, tenants):
    listed = '"*"' if tenants is None else str(tenants).replace("'", '"')
    return f'[[callers]]\nname = "{name}"\ntoken = "t-{name}"\nroles = []\ntenants = {listed}\n'


def rule(name, actions, more=""):
    return f'[[rules]]\nname = "{name}"\nactions = [{actions}]\n{more}'


def touched():
    return [f"t{number}" for number in range(TENANTS)]


def callers(is_each):
    """Callers by number: each lists all touched tenants, or one of them behind 63 that nobody touches."""
    others = [f"o{number}" for number in range(TENANTS - 1)]
    lists = [[*others, f"t{number % TENANTS}"] if is_each else touched() for number in range(CALLERS - 1)]
    return caller("ada", None) + "".join(caller(f"c{number}", one) for number, one in enumerate(lists))


def policies(is_each):
    """The policy under which all is made ready, and those that are timed: without the key, and with it."""
    who = callers(is_each)
    free = who + rule("all", '"import", "inventory", "stage", "approve", "dryrun"')
    asked = "approvals = 1\n"
    timed = [who + "".join(rule(f"r{number}", '"dryrun"', asked + key) for number in range(RULES))
             for key in ("", "each_tenant = true\n")]
    return free, *timed


def fill(port, is_each):
    """A host of each tenant, a plan that puts a host group of each, and the approvals."""
    for tenant in touched():
        ask(port, "PUT", f"/hosts/h-{tenant}", holder([], tenant))
    lines = "".join(f"hg.put g-{tenant} {tenant} h-{tenant}\n" for tenant in touched())
    ask(port, "PUT", "/plans/p1", lines)
    signers = range(CALLERS - 1 - TENANTS, CALLERS - 1) if is_each else [CALLERS - 2]
    for number in signers:
        ask(port, "POST", "/plans/p1/approve", token=f"t-c{number}")


def times(port, turns):
    """How long so many dry runs take, in milliseconds."""
    taken = []
    for _ in range(turns):
        begun = time.perf_counter()
        ask(port, "GET", "/plans/p1/dryrun")
        taken.append(1000 * (time.perf_counter() - begun))
    return taken


def timed(folder, is_each, turns):
    """The times without the key and with it."""
    database, texts = folder / f"{is_each}.db", policies(is_each)
    paths = [folder / f"{is_each}-{number}.toml" for number in range(len(texts))]
    for path, text in zip(paths, texts):
        path.write_text(text)
    make(database)
    with Desk(database, paths[0], folder / "log") as desk:
        fill(desk.port, is_each)
    found = []
    for path in paths[1:]:
        with Desk(database, path, folder / "log") as desk:
            times(desk.port, turns // 10 + 1)
            found.append(times(desk.port, turns))
    return found


def main():
    parser = argparse.ArgumentParser(description=__doc__, formatter_class=argparse.RawDescriptionHelpFormatter)
    parser.add_argument("--turns", type=int, default=300)
    turns, is_right = parser.parse_args().turns, True
    print(f"{'signed for':24}{'without':>18}{'with':>18}{'times':>8}")
    with tempfile.TemporaryDirectory() as folder:
        for is_each, words in ((False, "by one caller"), (True, "each by another caller")):
            without, with_key = timed(pathlib.Path(folder), is_each, turns)
            ratio = statistics.median(with_key) / statistics.median(without)
            told = [f"{min(one):.3f}, {statistics.median(one):.3f}" for one in (without, with_key)]
            print(f"{words:24}{told[0]:>18}{told[1]:>18}{ratio:8.2f}")
            is_right = is_right and ratio <= MOST_TIMES
    return 0 if is_right else 1


if __name__ == "__main__":
    sys.exit(main())
