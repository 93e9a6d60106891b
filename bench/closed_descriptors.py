#!/usr/bin/env python3
"""Starts the built program with standard input, output and error closed in every combination: a database
is made, a request is answered on standard output, and connections are served over loopback. What the
program opens gets no number of a closed one, so an answer is whole, nothing of the log goes into a
connection, and the database stays one.

    python3 bench/closed_descriptors.py
"""
import itertools
import os
import subprocess
import tempfile

from desk import Fault, call, free_port, program, request, POLICY

ASKED = request("GET", "/active/A")
BODY = b'{"active":null,"default":"deny","fabric":"A","zones":[]}'
ANSWER = (b"HTTP/1.1 200 OK\r\nContent-Type: application/json\r\nContent-Length: %d\r\nConnection: close\r\n\r\n%s"
          % (len(BODY), BODY))
CONNECTIONS = 3


def started(closed, words, sent=b""):
    """The program, which finds these descriptors closed."""
    def close():
        for descriptor in closed:
            os.close(descriptor)

    given = tempfile.TemporaryFile()
    given.write(sent)
    given.seek(0)
    return subprocess.Popen([program(), *words], stdin=given, stdout=subprocess.PIPE, stderr=subprocess.PIPE,
                            preexec_fn=close)


def ended(closed, words, sent=b""):
    """What the program wrote, when it has ended, which it has to do with status 0."""
    process = started(closed, words, sent)
    output, errors = process.communicate(timeout=60)
    if process.returncode:
        raise Fault(f"{words[0]} ends with status {process.returncode} {errors!r}")
    return output, errors


def is_whole(what, found, wanted):
    if found != wanted:
        raise Fault(f"{what} is {found!r}")


def try_once(closed, over):
    """One request; where standard input is closed there is none, and where standard output is, nobody sees its answer."""
    output, errors = ended(closed, ["once", *over], ASKED)
    is_whole("an answer", output, b"" if {0, 1} & closed else ANSWER)
    is_whole("standard error", errors, b"")


def try_serve(closed, over):
    """Connections, each of which gets its answer and nothing else. The log has a line for each."""
    port = free_port()
    process = started(closed, ["serve", *over, "--listen", f"127.0.0.1:{port}", "--count", str(CONNECTIONS)])
    try:
        answers = []
        while len(answers) < CONNECTIONS:
            try:
                answers.append(call(port, ASKED))
            except ConnectionRefusedError:
                if process.poll() is not None:
                    raise Fault(f"serve ends with status {process.returncode}") from None
        output, errors = process.communicate(timeout=60)
    finally:
        process.kill()
        process.wait()
    for answer in answers:
        is_whole("an answer", answer, ANSWER)
    is_whole("the status", process.returncode, 0)
    is_whole("standard error", errors, b"")
    is_whole("the log's length", output.count(b"\n"), 0 if 1 in closed else CONNECTIONS)


def try_all(closed, folder):
    """A new database, a request and connections, and a request over the database with nothing closed."""
    over = ["--db", f"{folder}/{len(closed)}{sum(closed)}.db", "--policy", f"{folder}/policy.toml"]
    ended(closed, ["init", *over[:2]])
    try_once(closed, over)
    try_serve(closed, over)
    try_once(set(), over)


def main():
    with tempfile.TemporaryDirectory() as folder:
        with open(f"{folder}/policy.toml", "w", encoding="utf-8") as file:
            file.write(POLICY)
        for count in range(4):
            for closed in itertools.combinations(range(3), count):
                try_all(set(closed), folder)
                print("closed:", *(closed or ["none"]), "- whole", flush=True)


if __name__ == "__main__":
    main()
