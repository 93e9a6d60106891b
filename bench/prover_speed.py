#!/usr/bin/env python3
"""Times the prover on the zoning as it was when the gate's goal was set.

Its 50 functions took 105 seconds of an idle processor from nothing then. Prints what they take here, by
the toolchain and the processors of today, and how many times as long that is, by which docs/GATE.md tells
what the gate takes. Run it by hand on an idle machine, in a clone that has the history; it takes four to
seven minutes, most of them for the two libraries below.
"""
import os
import pathlib
import subprocess
import sys
import tempfile

TOP = pathlib.Path(__file__).resolve().parent.parent
COMMIT = "ad090ca"
THEN = 105
FUNCTIONS = 50
BELOW = {"fab_names": [], "fab_inventory": ["fab_names"], "fab_zoning": ["fab_names", "fab_inventory"]}


def prove(kit, crates, libs, name, words):
    """Proves a crate in one job, and returns the processor seconds that it took and what was printed."""
    command = [kit / "bin" / "rattle", words[0], "--crate-name", name, "src/lib.rt"]
    command += ["--extern", f"std={kit / 'rlibs' / 'std.rlib'}", "-L", f"dependency={kit / 'rlibs'}"]
    for lib in BELOW[name]:
        command += ["--extern", f"{lib}={libs / lib}.rlib"]
    command += ["-L", f"dependency={libs}", "--links", f"{name}=", "--jobs", "1"]
    command += ["--antt-project", kit / "rattle" / "logic" / "antt-project.json"]
    command += ["--logic-built", kit / "logic_built", *words[1:]]
    before = os.times()
    ran = subprocess.run(command, cwd=crates / name, capture_output=True, text=True)
    after = os.times()
    if ran.returncode:
        sys.exit(f"{name} was not proved:\n{ran.stdout}{ran.stderr}")
    spent = after.children_user - before.children_user + after.children_system - before.children_system
    return spent, ran.stdout + ran.stderr


def main():
    kit = pathlib.Path(subprocess.run(["rt", "doc"], capture_output=True, text=True, check=True).stdout.strip()).parent
    with tempfile.TemporaryDirectory() as room:
        tree, libs = pathlib.Path(room) / "tree", pathlib.Path(room) / "libs"
        libs.mkdir()
        tree.mkdir()
        files = subprocess.run(["git", "archive", COMMIT, "crates"], cwd=TOP, capture_output=True, check=True).stdout
        subprocess.run(["tar", "-x"], cwd=tree, input=files, check=True)
        for name in ("fab_names", "fab_inventory"):
            prove(kit, tree / "crates", libs, name, ["build", "--statements", "-o", libs / f"{name}.rlib"])
        spent, said = prove(kit, tree / "crates", libs, "fab_zoning", ["check"])
    if f"functions={FUNCTIONS} " not in said:
        sys.exit(f"not {FUNCTIONS} functions:\n{said}")
    print(f"{FUNCTIONS} functions: {spent:.0f} s of a processor, where they took {THEN}: {spent / THEN:.2f} times as long")


if __name__ == "__main__":
    main()
