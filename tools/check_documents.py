#!/usr/bin/env python3
"""Looks whether the documents are true of the repository: each crate is under a room's heading in crates.txt,
names each crate that its line there has below it, is reached by few enough ways, and has one line in docs/house.md, each contract is told in
docs/CONTRACTS.md alone and is in the file that is named, what documents name is there, there are as many recorded
requests and wrong bodies as they say, each wrong body fits the code that it changes, and the README is short.
Commands that are shown with what they answer are run by examples/readme.sh and examples/session.sh.

A line for each fault, and status 1 where there is one."""
import collections
import functools
import pathlib
import re
import subprocess
import sys

TOP = pathlib.Path(__file__).resolve().parent.parent
MOST_LINES = 150
# So many words of a contract in a row are the contract told again.
SAME_WORDS = 14
# Before and after a library's proof one kit sums the crates below it, along each way down anew: 3 ms a way.
MOST_WAYS = 24_000
# Names in it may be gone: a figure stays that of its day.
DATED = "docs/measurements.md"
CONTRACTS = "docs/CONTRACTS.md"
# Each word of them that has the form of a name is one of the code.
NAMING = ("docs/model.md", "docs/house.md", CONTRACTS, "CONTRIBUTING.md")
FILE = r"[\w./-]+\.(rt|antt|py|sh|md|toml|http|plan|csv|edit)"

listed = subprocess.run(["git", "ls-files", "-co", "--exclude-standard"], cwd=TOP, capture_output=True, text=True, check=True)
files = [it for it in listed.stdout.splitlines() if (TOP / it).is_file()]
places = {str(it) for file in files for it in [pathlib.Path(file), *pathlib.Path(file).parents]}
names = {pathlib.Path(it).name for it in files}
documents = {it: (TOP / it).read_text() for it in files if re.fullmatch(r"(docs/)?[^/]+\.md", it)}
known, items, used = set(), collections.defaultdict(set), collections.defaultdict(set)
for file in files:
    if file.endswith((".rt", ".antt")):
        text = (TOP / file).read_text()
        words = set(re.findall(r"\w+", text))
        known |= words
        used[file.split("/")[1]] |= words
        for item in re.findall(r"\b(?:fn|struct|enum|trait) (\w+)", text):
            items[item].add(file)
crates, faults, lines = [], [], {}


def runs(text):
    """Each run of so many words that are the same contract."""
    words = re.findall(r"[\w':`-]+", text)
    return {" ".join(words[i : i + SAME_WORDS]) for i in range(len(words) - SAME_WORDS + 1)}


def check_rooms():
    heading = None
    for line in (TOP / "crates.txt").read_text().splitlines():
        if line.startswith("#"):
            heading = heading or re.fullmatch(r"# [a-z]+: .+", line)
        elif found := re.match(r"(\w+)[ \w=+]*:(.*)", line):
            crates.append(found[1])
            known.add(found[1])
            if not heading:
                faults.append(f"crates.txt: {found[1]} is under no room: a group begins with '# ROOM: sentence'")
            lines[found[1]] = found[2].split(), "staticlib" in line.partition(":")[0].split()
            for below in set(found[2].split()) & set(crates) - used[found[1]]:
                faults.append(f"crates.txt: {found[1]} uses nothing of {below}")
        else:
            heading = None
    for crate in crates:
        if documents["docs/house.md"].count(f"- `{crate}`: ") != 1:
            faults.append(f"docs/house.md: {crate} has not one line")


@functools.cache
def ways(crate):
    """How many ways lead down from a crate, each of its line's crates being the first step of some."""
    return 1 + sum(ways(it) for it in lines[crate][0] if it in lines)


def is_program(crate):
    return f"crates/{crate}/src/main.rt" in places


def check_ways():
    """What only a program stands on may have more: it is one library, and the last one."""
    for crate, (_, is_static) in lines.items():
        users = [it for it, (below, _) in lines.items() if crate in below]
        is_last = users and all(is_program(it) for it in users)
        if not is_static and not is_program(crate) and not is_last and ways(crate) > MOST_WAYS:
            faults.append(f"crates.txt: {ways(crate)} ways lead down from {crate}: name less there, and have a crate of its line hand it on by 'pub use'")


def check_contracts():
    told = {other: runs(text) for other, text in documents.items() if other != CONTRACTS}
    for calls, file, sentence in re.findall(r"^\| (`[^|]+) \| `([^|]+)` \| ([^|]+) \|$", documents[CONTRACTS], re.M):
        for name in re.findall(r"`(?:\w+::)?(\w+)`", calls):
            if not any(it == f"crates/{file}" or it.startswith(f"crates/{file}/") for it in items[name]):
                faults.append(f"{CONTRACTS}: {name} is not in {file}")
        for other in (it for it in told if told[it] & runs(sentence)):
            faults.append(f"{other}: the contract of {calls} is told in {CONTRACTS}")


def is_there(word, line):
    """Whether there is a file of this name: at the top, in crates/, or in a crate that the line names."""
    below = re.findall(r"\bfab_\w+", line) or crates
    return word in names or any(it + word.rstrip("/") in places for it in ["", "crates/", *(f"crates/{it}/" for it in below)])


def check_names(name, line):
    for crate in re.findall(r"\bfab_\w+", line):
        if crate not in crates:
            faults.append(f"{name}: there is no crate {crate}")
    for word in re.findall(r"`([^`\s]+)`", line):
        is_path = re.fullmatch(FILE, word) or re.match(r"(crates|docs|bench|tools|examples)/", word)
        if is_path and "NAME" not in word and not is_there(word, line):
            faults.append(f"{name}: there is no {word}")
        elif name in NAMING and re.fullmatch(r"[A-Z]\w*[a-z]\w*|[a-z]+_\w+", word) and word not in known:
            faults.append(f"{name}: nothing is called {word}")


def those(form):
    return [it for it in files if re.fullmatch(form, it)]


def check_counts():
    texts = [(TOP / it).read_text() for it in those(r"crates/fab_wire_conformance/data/\w+\.txt")]
    tried, by_hand = those(r"crates/\w+/must-fail/\w+\.edit"), those(r"crates/\w+/must-fail/\w+\.md")
    rooms = {it.split("/")[1] for it in tried}
    for name, told in (
        ("README.md", f"{sum(it.count(chr(10) + '@ ') for it in texts):,} recorded requests"),
        ("docs/GATE.md", f"{len(tried)} that the gate tries, in {len(rooms)} crates"),
        ("docs/GATE.md", f"{len(by_hand)} that are tried by hand"),
    ):
        if told not in documents[name]:
            faults.append(f"{name}: there are {told}")


def misfit(path):
    """Why a wrong body does not fit the code, if it does not: each 'old:' text stands once in its file, after those
    before it were replaced. `rt ci` passes over one that does not fit."""
    crate, texts, file, old = path.split("/must-fail/")[0], {}, "", ""
    for line in (TOP / path).read_text().splitlines():
        word, _, rest = line.partition(": ")
        if word == "file":
            file = f"{crate}/{rest.strip()}"
            if file not in places:
                return f"there is no {file}"
        elif word == "old":
            old = rest
        elif line.startswith("new:"):
            text = texts.get(file) or (TOP / file).read_text()
            if text.count(old) != 1:
                return f"{file} has {text.count(old)} times, and not once: {old.strip()}"
            texts[file] = text.replace(old, rest)
    return None if texts else "it changes nothing"


def check_wrong_bodies():
    for path in those(r"crates/\w+/must-fail/\w+\.(edit|md)"):
        if why := misfit(path):
            faults.append(f"{path}: {why}")


check_rooms()
check_ways()
check_contracts()
check_counts()
check_wrong_bodies()
for name, text in documents.items():
    for line in [] if name == DATED else text.splitlines():
        check_names(name, line)
if documents["README.md"].count("\n") > MOST_LINES:
    faults.append(f"README.md: it has more than {MOST_LINES} lines")
print("\n".join(dict.fromkeys(faults)) or f"{len(documents)} documents are true of {len(crates)} crates")
sys.exit(bool(faults))
