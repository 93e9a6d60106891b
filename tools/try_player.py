#!/usr/bin/env python3
"""Shows what the player of recorded texts does with texts that are not of the form, and with an
answer that differs: what it writes, and its status. PLAYER names the built player; without it the one
is taken that `rt run` leaves in its crate. Each case is compared; the status is 1 where one is not as
it has to be."""
import os
import subprocess
import sys
import tempfile

sys.dont_write_bytecode = True
TOP = os.path.dirname(os.path.dirname(os.path.realpath(__file__)))
CRATE = os.path.join(TOP, "crates", "fab_wire_conformance")
PLAYER = os.path.abspath(
    os.environ.get("PLAYER") or os.path.join(CRATE, "out", "fab_wire_conformance")
)

POLICY = """| [[callers]]
| name = "ada"
| token = "t-ada"
| roles = []
| tenants = "*"
| [[rules]]
| name = "all"
| actions = ["stage"]
"""

ASKED = """@ 0
> GET /paths/db9 HTTP/1.1\\r
> Authorization: Bearer t-ada\\r
> \\r
"""

ANSWERED = """< HTTP/1.1 404 Not Found\\r
< Content-Type: application/json\\r
< Content-Length: 30\\r
< Connection: close\\r
< \\r
< {"code":9,"error":"not-found"}\\
"""

NOBODY = """< HTTP/1.1 401 Unauthorized\\r
< Content-Type: application/json\\r
< Content-Length: 30\\r
< WWW-Authenticate: Bearer\\r
< Connection: close\\r
< \\r
< {"code":1,"error":"no-caller"}\\
"""

STORY = """; DROP TABLE paths
^ store
* store
? SELECT key FROM meta WHERE key = 'schema'
- schema
; DELETE FROM meta
& damaged meta
"""

GOOD = f"# A text.\n= one host\n{POLICY}{ASKED}{ANSWERED}"
OTHER = ANSWERED.replace("404 Not Found", "200 OK").replace("not-found", "not\\\\found")


def difference(way, recorded=OTHER, answered=ANSWERED, outcome="404"):
    """What is told of the answer that differs, where it is played in this way."""
    return (
        f"text, line 11: one host, request 1, {way}: {outcome}\n"
        f"recorded:\n{recorded}answered:\n{answered}\n"
    )


# What it is, the bytes of the text, the status, and what is written on standard output and error.
CASES = (
    ("what is recorded", GOOD.encode(), 0, "text: 8 answers as recorded, 0 otherwise\n", ""),
    (
        "an answer that differs",
        f"# A text.\n= one host\n{POLICY}{ASKED}{OTHER}{ASKED}{ANSWERED}".encode(),
        1,
        difference("read whole") + difference("read byte by byte")
        + difference("read behind reads that fail")
        + difference("answered until a write fails", "< HTTP/1.1 200 OK\\r\n< Content-Type: \\\n",
                     "< HTTP/1.1 404 Not Found\\r\n< Content\\\n", "unsent")
        + difference("served in a list")
        + difference("asked about every pair")
        + difference("asked a desk that is opened anew")
        + "text: 9 answers as recorded, 7 otherwise\n",
        "",
    ),
    ("no first line", GOOD[10:].encode(), 3, "", "text: line 1 is not of the form\n"),
    ("no text", b"", 3, "", "text: line 1 is not of the form\n"),
    ("a second first line", f"{GOOD}# end\n".encode(), 3, "", "text: line 21 is not of the form\n"),
    ("an empty line", f"{GOOD}\n{ASKED}".encode(), 3, "", "text: line 21 is not of the form\n"),
    ("another mark", f"{GOOD}! x\n".encode(), 3, "", "text: line 21 is not of the form\n"),
    ("a mark alone", f"{GOOD}@\n".encode(), 3, "", "text: line 21 is not of the form\n"),
    ("no moment", f"{GOOD}@ now\n".encode(), 3, "", "text: line 21 is not of the form\n"),
    ("no scenario", f"# A text.\n{ASKED}".encode(), 3, "", "text: line 2 is not of the form\n"),
    ("no count of calls", b"# A text.\n= a\n% x\n", 3, "", "text: line 3 is not of the form\n"),
    ("a refused call too late", f"{GOOD}% 1\n".encode(), 3, "", "text: line 21 is not of the form\n"),
    (
        "a desk that is not opened", f"# A text.\n= a\n{POLICY}% 0\n{ASKED}".encode(), 3, "",
        "text: the scenario of line 2 gets no desk\n",
    ),
    ("a policy too late", f"{GOOD}| x\n".encode(), 3, "", "text: line 21 is not of the form\n"),
    ("a request too late", f"{GOOD}> x\n".encode(), 3, "", "text: line 21 is not of the form\n"),
    (
        "an answer to nothing", f"# A text.\n= a\n{ANSWERED}".encode(), 3, "",
        "text: line 3 is not of the form\n",
    ),
    ("no escape", f"{GOOD}@ 0\n> \\q\n".encode(), 3, "", "text: line 22 is not of the form\n"),
    ("half a byte", f"{GOOD}@ 0\n> \\x0\n".encode(), 3, "", "text: line 22 is not of the form\n"),
    (
        "no policy, in which nobody is a caller", f"# A text.\n= a\n{ASKED}{NOBODY}".encode(), 0,
        "text: 8 answers as recorded, 0 otherwise\n", "",
    ),
    ("a policy that is none", b"# A text.\n= a\n| x\n", 3, "", "text: the scenario of line 2 has no policy\n"),
    ("a story of tables", f"{GOOD}{STORY}".encode(), 0, "text: 5 answers as recorded, 0 otherwise\n", ""),
    (
        "what comes of tables differs", f"{GOOD}{STORY}".replace("^ store", "^ serves").encode(), 1,
        "text, line 22: one host, its tables\nrecorded:\n^ serves\nanswered:\n^ store\n\n"
        "text: 4 answers as recorded, 1 otherwise\n",
        "",
    ),
    (
        "rows that differ", f"{GOOD}{STORY}".replace("- schema", "- revision").encode(), 1,
        "text, line 24: one host, its tables\nrecorded:\n- revision\nanswered:\n- schema\n\n"
        "text: 4 answers as recorded, 1 otherwise\n",
        "",
    ),
    (
        "statements that are none", f"{GOOD}; DROP\n".encode(), 3, "",
        "text: line 21 is not of the form, or can not be done or told\n",
    ),
    ("a request where no desk is", f"{GOOD}{STORY}{ASKED}".encode(), 3, "", "text: line 28 is not of the form\n"),
    ("a row of no query", f"{GOOD}- x\n".encode(), 3, "", "text: line 21 is not of the form\n"),
    ("no UTF-8", GOOD.encode() + b"@ 0\n> \xff\n", 3, "", "text: it cannot be read\n"),
)

UNDONE = "is not of the form, or can not be done or told\n"

# The same of worlds and of histories, which the player knows by the names of their files.
WORLDS = (
    (
        "nobody in a new world", b"# A text.\nworld 1\nwho all v1 = nobody\n", 0,
        "worlds.txt: 1 answers as recorded, 0 otherwise\n", "",
    ),
    (
        "a look that differs", b"# A text.\nworld 1\nwho all v1 = db1 1 0\nwho all v1 = nobody\n", 1,
        "worlds.txt, line 3: who all v1: nobody\nworlds.txt: 1 answers as recorded, 1 otherwise\n", "",
    ),
    ("no word of worlds", b"world 1\nhosts db1\n", 3, "", f"worlds.txt: line 2 {UNDONE}"),
    ("a plan of no step", b"world 1\n+ nothing\nplan\n", 3, "", f"worlds.txt: line 3 {UNDONE}"),
)
HISTORIES = (
    ("no history", b"# A text.\n", 0, "histories.txt: 0 answers as recorded, 0 otherwise\n", ""),
    ("a row that is not known", b"history\nplan p1 +7\n", 3, "", f"histories.txt: line 2 {UNDONE}"),
)


def is_so(folder, name, case):
    """Whether the player does with the text, in a file of this name, what the case says."""
    what, text, status, output, errors = case
    with open(os.path.join(folder, name), "wb") as file:
        file.write(text)
    run = subprocess.run([PLAYER, name], cwd=folder, capture_output=True, check=False)
    found = (run.returncode, run.stdout.decode(), run.stderr.decode())
    if found == (status, output, errors):
        print(f"{what}: as it has to be")
        return True
    print(f"{what}: status {found[0]}\n{found[1]}{found[2]}in place of status {status}\n{output}{errors}")
    return False


if __name__ == "__main__":
    with tempfile.TemporaryDirectory() as scratch:
        files = (("text", CASES), ("worlds.txt", WORLDS), ("histories.txt", HISTORIES))
        sys.exit(0 if all([is_so(scratch, name, case) for name, cases in files for case in cases]) else 1)
