#!/usr/bin/env python3
"""Makes a text of recorded exchanges, as `fab_wire_conformance` plays them, of a list of requests and
their answers.

The answers are written by hand, as the definitions ask for them, or taken from something that was
written from the definitions alone. They never come from the desk: a text that repeats what the desk
says tests nothing. So this script asks no desk. It writes what nobody should count or spell by hand:
heads, lengths and escapes.

    tools/record.py LIST >TEXT            the text that a list stands for
    tools/record.py LIST >>data/more.txt  the same, behind what is there: without the list's first line
                                          where that does not begin with `# `
    tools/record.py --list TEXT           the list that stands for a text
    tools/record.py --self-test           tries both over the exchanges of the crate, and bad lists

A list has a line for each of these:

    # WHAT THE FILE IS                    first, or not at all
    = NAME                                a scenario: a new desk
    | LINE                                a line of its policy; without any, that of the one before
    % COUNT                               its store hands on so many calls and refuses the next one
    @ MOMENT METHOD TARGET TOKEN          a request: no TOKEN where nobody asks
    > LINE                                a line of its body, whose length is told then
    < STATUS JSON                         the answer: its body without spaces, keys in their order
    < 405 JSON METHOD, METHOD             the same, with the methods that the path takes
    @ MOMENT                              a request whose `>` lines are all of its bytes; where it has
                                          none, it has no `<` line either
    ; STATEMENTS                          somebody else changes the tables; no desk is open then
    ^ WORDS                               a desk is opened over them: `serves`, and then it is asked what
                                          follows, or a fault
    & WORDS                               they are brought to the present schema
    * WORDS                               the tables of a new desk are made
    ? QUERY                               it shows these rows:
    - ROW

The words of `^`, `&` and `*` are those of `crates/fab_worlds_players/src/texts.rt`.

A `|`, `>`, `;`, `?` or `-` line stands for its text and a line feed; `\\r` is CR, `\\\\` a backslash, `\\xHH` any byte,
and a `\\` at the end means that no line feed follows. For instance

    = a host that is not there
    @ 0 GET /paths/db9 t-ada
    < 404 {"code":9,"error":"not-found"}
    @ 0 PUT /plans/d1 t-ada
    > default A permit
    < 200 {"plan":"d1","steps":1}
"""
import glob
import json
import os
import re
import sys

sys.dont_write_bytecode = True
TOP = os.path.dirname(os.path.dirname(os.path.realpath(__file__)))
DATA = os.path.join(TOP, "crates", "fab_wire_conformance", "data")
# What lies there too, and tells no exchanges.
OTHERS = ("worlds.txt", "histories.txt")

PHRASES = {
    200: "OK", 400: "Bad Request", 401: "Unauthorized", 403: "Forbidden", 404: "Not Found",
    405: "Method Not Allowed", 409: "Conflict", 411: "Length Required", 413: "Payload Too Large",
    503: "Service Unavailable",
}


# The marks of what is done with tables while no desk is open.
STEPS = (";", "^", "&", "*", "?")

# A piece of a line: plain text, an escape, or the backslash at its end.
PIECE = re.compile(r"[^\\]+|\\r|\\\\|\\x[0-9a-f]{2}|\\$")


class Bad(Exception):
    """A list or a text that is not of its form."""


def lines_of(text):
    """The lines of a text, each of which ends with a line feed."""
    return text.removesuffix("\n").split("\n")


def spelled_byte(byte):
    """What stands for a byte that is no line feed."""
    if byte == 0x0D:
        return "\\r"
    if byte == 0x5C:
        return "\\\\"
    return chr(byte) if 0x20 <= byte <= 0x7E else f"\\x{byte:02x}"


def spelled(mark, bytes_):
    """The lines that stand for bytes, each behind a mark."""
    lines = bytes_.split(b"\n")
    last = lines.pop()
    text = [f"{mark} {''.join(map(spelled_byte, line))}\n" for line in lines]
    if last:
        text.append(f"{mark} {''.join(map(spelled_byte, last))}\\\n")
    return "".join(text)


def meant(line):
    """The bytes that a line stands for."""
    bytes_, place = b"", 0
    while place < len(line):
        found = PIECE.match(line, place)
        if not found:
            raise Bad("an escape that is none")
        piece, place = found[0], found.end()
        if piece == "\\":
            return bytes_
        if piece[0] != "\\":
            bytes_ += piece.encode()
        elif piece[1] == "x":
            bytes_ += bytes.fromhex(piece[2:])
        else:
            bytes_ += b"\r" if piece[1] == "r" else b"\\"
    return bytes_ + b"\n"


def request_of(method, target, token, body):
    """The bytes of a request; `body` is None where no length is told."""
    head = f"{method} {target} HTTP/1.1\r\n"
    if token:
        head += f"Authorization: Bearer {token}\r\n"
    if body is not None:
        head += f"Content-Length: {len(body)}\r\n"
    return f"{head}\r\n".encode() + (body or b"")


def answer_of(status, body, allow):
    """The bytes of an answer."""
    head = f"HTTP/1.1 {status} {PHRASES[status]}\r\nContent-Type: application/json\r\n"
    head += f"Content-Length: {len(body.encode())}\r\n"
    if status == 401:
        head += "WWW-Authenticate: Bearer\r\n"
    if allow:
        head += f"Allow: {allow}\r\n"
    return f"{head}Connection: close\r\n\r\n{body}".encode()


def told_answer(text):
    """The bytes of the answer that a `<` line of a list tells."""
    found = re.fullmatch(r"([0-9]{3}) (\{.*)", text)
    if not found or int(found[1]) not in PHRASES:
        raise Bad("no status and JSON")
    status, rest = int(found[1]), found[2]
    try:
        value, end = json.JSONDecoder().raw_decode(rest)
    except ValueError as why:
        raise Bad(f"no JSON: {why}") from None
    body, allow = rest[:end], rest[end:].strip()
    if json.dumps(value, sort_keys=True, separators=(",", ":"), ensure_ascii=False) != body:
        raise Bad("spaces in the JSON, or keys out of order")
    if bool(allow) != (status == 405):
        raise Bad("methods belong to 405")
    return answer_of(status, body, allow)


class Exchange:
    """What a list tells of a request."""

    def __init__(self, text):
        found = re.fullmatch(r"([0-9]+)(?: ([^ ]+) ([^ ]+)(?: ([^ ]+))?)?", text)
        if not found:
            raise Bad("no moment, method, target and token")
        self.moment, self.method, self.target, self.token = found.groups()
        self.body, self.answer = None, None

    def text(self):
        """Its lines in a text."""
        if self.method:
            request = request_of(self.method, self.target, self.token, self.body)
        else:
            request = self.body or b""
        if bool(request) != (self.answer is not None):
            raise Bad("a request without an answer, or an answer without a request")
        return f"@ {self.moment}\n" + spelled(">", request) + spelled("<", self.answer or b"")


def text_of(listed):
    """The text that a list stands for."""
    text, exchange, place = [], None, "nothing"

    def end():
        if exchange:
            text.append(exchange.text())

    for number, line in enumerate(lines_of(listed), 1):
        mark, _, rest = line.partition(" ")
        try:
            if mark == "#" and number == 1:
                text.append(f"{line}\n")
            elif mark == "=":
                end()
                exchange, place = None, "policy"
                text.append(f"{line}\n")
            elif mark == "|" and place == "policy":
                meant(rest)
                text.append(f"{line}\n")
            elif mark == "%" and place == "policy":
                if not rest.isdecimal():
                    raise Bad("no count of calls")
                text.append(f"{line}\n")
            elif mark in STEPS and place != "nothing":
                end()
                meant(rest)
                exchange, place = None, "opened" if line == "^ serves" else f"behind {mark}"
                text.append(f"{line}\n")
            elif mark == "-" and place == "behind ?":
                meant(rest)
                text.append(f"{line}\n")
            elif mark == "@" and place in ("policy", "request", "answer", "opened"):
                end()
                exchange, place = Exchange(rest), "request"
            elif mark == ">" and place == "request":
                exchange.body = (exchange.body or b"") + meant(rest)
            elif mark == "<" and place == "request":
                exchange.answer, place = told_answer(rest), "answer"
            else:
                raise Bad("a line that is out of place")
        except Bad as why:
            raise Bad(f"line {number}: {why}") from None
    try:
        end()
    except Bad as why:
        raise Bad(f"the last request: {why}") from None
    return "".join(text)


def listed_request(moment, request):
    """The lines of a list that stand for a request."""
    found = re.fullmatch(
        rb"([^ \r\n]+) ([!-~]+) HTTP/1\.1\r\n(?:Authorization: Bearer ([!-~]+)\r\n)?"
        rb"(?:Content-Length: ([0-9]+)\r\n)?\r\n((?s:.*))",
        request,
    )
    if found:
        method, target, token, length, body = found.groups()
        words = [it.decode() for it in (method, target, token) if it]
        body = None if length is None and not body else body
        if request_of(*words[:2], token and words[2], body) == request:
            empty = "> \\\n" if body == b"" else ""
            return f"@ {moment} {' '.join(words)}\n" + spelled(">", body or b"") + empty
    return f"@ {moment}\n" + spelled(">", request)


def listed_answer(answer):
    """The line of a list that stands for an answer."""
    if not answer:
        return ""
    head, _, body = answer.decode().partition("\r\n\r\n")
    allow = re.search(r"\r\nAllow: (.*)", head)
    line = f"{head[9:12]} {body}" + (f" {allow[1].strip()}" if allow else "")
    if told_answer(line) != answer:
        raise Bad("an answer with another head")
    return f"< {line}\n"


def list_of(text):
    """The list that stands for a text."""
    listed, moment, request, answer = [], None, b"", b""

    def end():
        if moment is not None:
            listed.append(listed_request(moment, request) + listed_answer(answer))

    for number, line in enumerate(lines_of(text), 1):
        mark, _, rest = line.partition(" ")
        try:
            if mark in ("=", "@", *STEPS):
                end()
                moment, request, answer = (rest if mark == "@" else None), b"", b""
            if mark in ("#", "=", "|", "%", "-", *STEPS):
                listed.append(f"{line}\n")
            elif mark == ">":
                request += meant(rest)
            elif mark == "<":
                answer += meant(rest)
            elif mark != "@":
                raise Bad("a line without a mark")
        except Bad as why:
            raise Bad(f"line {number}: {why}") from None
    end()
    return "".join(listed)


# Lists that are none, and what is said of them.
BAD_LISTS = (
    ("@ 0 GET /hosts/db1 t-ada\n", "line 1: a line that is out of place"),
    ("= a\n@ now\n", "line 2: no moment, method, target and token"),
    ("= a\n@ 0 GET /hosts/db1\n= b\n",
     "line 3: a request without an answer, or an answer without a request"),
    ("= a\n@ 0\n< 200 {}\n",
     "the last request: a request without an answer, or an answer without a request"),
    ('= a\n@ 0 GET /hosts/db1\n< 200 {"b":1,"a":2}\n',
     "line 3: spaces in the JSON, or keys out of order"),
    ("= a\n@ 0 GET /hosts/db1\n< 405 {}\n", "line 3: methods belong to 405"),
    ("= a\n@ 0 GET /hosts/db1\n> \\q\n", "line 3: an escape that is none"),
    ("= a\n| x\n@ 0 GET / t\n< 200 {}\n> y\n", "line 5: a line that is out of place"),
    ("= a\n% x\n", "line 2: no count of calls"),
    ("= a\n^ store\n@ 0\n", "line 3: a line that is out of place"),
    ("= a\n^ serves\n- x\n", "line 3: a line that is out of place"),
)


def are_same(text, other):
    """Whether two texts stand for the same: a byte may be spelled in more than one way."""
    lines, others = lines_of(text), lines_of(other)
    return len(lines) == len(others) and all(
        line == it or (line[:2] == it[:2] and line[0] in "><" and meant(line[2:]) == meant(it[2:]))
        for line, it in zip(lines, others)
    )


def self_test():
    """Each text of exchanges comes back from its list, and bad lists are told."""
    for path in sorted(glob.glob(os.path.join(DATA, "*.txt"))):
        if os.path.basename(path) in OTHERS:
            continue
        text = open(path, encoding="utf-8", newline="").read()
        assert are_same(text_of(list_of(text)), text), path
        print(f"{os.path.basename(path)}: {text.count(chr(10) + '@ ')} requests, there and back")
    for listed, why in BAD_LISTS:
        try:
            text_of(listed)
        except Bad as found:
            assert str(found) == why, (listed, str(found))
        else:
            raise AssertionError(listed)
    print(f"{len(BAD_LISTS)} bad lists are told")


def main(words):
    if words in (["--help"], ["-h"], []):
        print(__doc__.strip())
    elif words == ["--self-test"]:
        self_test()
    else:
        turn = list_of if words[0] == "--list" else text_of
        try:
            sys.stdout.write(turn(open(words[-1], encoding="utf-8", newline="").read()))
        except Bad as why:
            sys.exit(f"{words[-1]}, {why}")


if __name__ == "__main__":
    main(sys.argv[1:])
