#!/usr/bin/env python3
"""Times the built program on imports of 512 to 4,096 records and on questions.

Prints a table: the least time of each case, its ratio to the case of half its size, and what share of
the call starting the process takes (a run on an empty input). Run it by hand from the top, after
`./sandesk once < examples/import.http` has built the program.
"""
import pathlib
import subprocess
import sys
import time

TOP = pathlib.Path(__file__).resolve().parent.parent
PROGRAM = TOP / "crates" / "fab_program" / "out" / "fab_program"
RUNS = 41


def import_request(records):
    lines = ["port_name,node_name,domain,port"]
    for number in range(1, records + 1):
        name = f"10{number:014x}"
        lines.append(f"{name},20{number // 4 + 1:014x},{number % 239 + 1},{number % 4096}")
    body = ("\n".join(lines) + "\n").encode()
    head = f"POST /imports/A HTTP/1.1\r\nAuthorization: Bearer t-ada\r\nContent-Length: {len(body)}\r\n\r\n"
    return head.encode() + body


def question():
    return (TOP / "examples" / "joined.http").read_bytes()


def timed(request, expected):
    times = []
    for _ in range(RUNS):
        start = time.perf_counter()
        answer = subprocess.run([PROGRAM, "once"], input=request, capture_output=True, check=True)
        times.append(time.perf_counter() - start)
        if not answer.stdout.startswith(expected):
            sys.exit(f"unexpected answer: {answer.stdout[:200]!r} {answer.stderr[:200]!r}")
    return min(times)


def main():
    if not PROGRAM.exists():
        sys.exit("build the program first: ./sandesk once < examples/import.http")
    start = timed(b"", b"")
    print(f"{'case':<24}{'least ms':>10}{'to half':>9}{'start %':>9}")
    print(f"{'empty input':<24}{start * 1e3:>10.2f}{'':>9}{100:>9.0f}")
    half = None
    for records in (512, 1024, 2048, 4096):
        least = timed(import_request(records), b"HTTP/1.1 200 OK")
        ratio = "" if half is None else f"{(least - start) / (half - start):.2f}"
        print(f"{f'import of {records}':<24}{least * 1e3:>10.2f}{ratio:>9}{100 * start / least:>9.0f}")
        half = least
    least = timed(question(), b"HTTP/1.1 404")
    print(f"{'question':<24}{least * 1e3:>10.2f}{'':>9}{100 * start / least:>9.0f}")


if __name__ == "__main__":
    main()
