#!/usr/bin/env python3
"""Tries the wrong bodies that the gate leaves out: `must-fail/NAME.md`, of the same form as
`must-fail/NAME.edit`. With names of crates those of these crates alone, else those of all.

They are tried by `rt must-fail` in a copy of the repository, in a folder for temporary files, over
what checks on this machine have kept. The prover has to refuse each; the exit status is 0 where it
does. It takes minutes for each crate, and is no part of the gate."""
import os
import shutil
import subprocess
import sys
import tempfile

TOP = os.path.dirname(os.path.dirname(os.path.realpath(__file__)))


def tracked():
    """The files of the repository, by their paths below its top."""
    said = subprocess.run(["git", "ls-files", "-z"], cwd=TOP, capture_output=True, check=True)
    return [path for path in said.stdout.decode().split("\0") if path]


def is_wrong_body(path, crates):
    """Whether the file is a wrong body that the gate leaves out, of one of these crates if there are any."""
    parts = path.split("/")
    if len(parts) != 4 or parts[2] != "must-fail" or not path.endswith(".md"):
        return False
    return not crates or parts[1] in crates


def lay_out(room, crates):
    """Copies the repository. The wrong bodies to be tried are its only edits; tells whose they are."""
    found = set()
    for path in tracked():
        to = f"{room}/{path}"
        if path.endswith(".edit"):
            continue
        if is_wrong_body(path, crates):
            to = f"{to[:-3]}.edit"
            found.add(path.split("/")[1])
        os.makedirs(os.path.dirname(to), exist_ok=True)
        shutil.copyfile(f"{TOP}/{path}", to)
    os.mkdir(f"{room}/.git")
    return sorted(found)


def main(crates):
    with tempfile.TemporaryDirectory(prefix="sandesk-wrong-bodies-") as room:
        found = lay_out(room, crates)
        if not found:
            print("no wrong body to try", file=sys.stderr)
            return 2
        return subprocess.run(["rt", "must-fail", *found], cwd=room).returncode


if __name__ == "__main__":
    sys.exit(main(sys.argv[1:]))
