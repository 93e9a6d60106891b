"""Requests to a desk, good ones of every kind, and alterations of them, for `bench/mutated_requests.py`.

All chance comes from the given generator of random numbers, so the same seed makes the same requests.
"""
import dataclasses
import string

LONG = 0.004        # the share of requests whose heads or bodies are near their limits
KEPT = 0.1          # the share of requests that are not altered
FABRICS = ["A", "B"]
PORTS = [f"{side}0000000000000{number:02x}" for side in "15" for number in range(1, 13)]
TOKENS = ["t-ada"] * 12 + ["t-bob", "t-bob", "t-cyd", "t-dan", "t-eve", "t-zed"]
HEADER = "port_name,node_name,domain,port"
ADDRESSED = f"{HEADER},address"


# ---- requests

@dataclasses.dataclass
class Asked:
    """A request in its parts, all of them bytes; `length` is what `Content-Length` says."""
    method: bytes
    path: bytes
    lines: list
    body: bytes = b""
    length: bytes = None

    def text(self):
        lines = self.lines + ([b"Content-Length: " + self.length] if self.length is not None else [])
        return b"\r\n".join([self.method + b" " + self.path + b" HTTP/1.1", *lines, b"", b""]) + self.body

    def measured(self, body):
        """The same with another body, and its length."""
        return dataclasses.replace(self, body=body, length=str(len(body)).encode())

    def filled(self, size):
        """The same with one line more, by which the head has so many bytes."""
        missing = size - len(dataclasses.replace(self, body=b"").text()) - len(b"x: \r\n")
        return dataclasses.replace(self, lines=self.lines + [b"x: " + b"a" * missing])


def asked(method, path, body=None, token="t-ada"):
    made = Asked(method.encode(), path.encode(), [b"Authorization: Bearer " + token.encode()])
    return made if body is None else made.measured(body.encode())


def name(rng, letter, count=6):
    return f"{letter}{rng.randrange(count)}"


def pairs(digits):
    return ":".join(digits[place:place + 2] for place in range(0, 16, 2))


def port_text(rng):
    digits = rng.choice(PORTS)
    return rng.choice([digits, pairs(digits), pairs(digits), f"0x{digits}", pairs(digits).upper()])


def address_text(rng):
    digits = f"{rng.randint(1, 239):02x}{rng.randrange(4):04x}"
    return rng.choice([digits, digits, f"0x{digits}", digits.upper()])


def some_ports(rng):
    rows = [f"{port_text(rng)},{port_text(rng)},{rng.randint(1, 239)},{rng.randrange(4096)}"
            for _ in range(rng.randrange(30))]
    header, rows = rng.choice([(HEADER, rows), (ADDRESSED, [f"{row},{told_address(rng)}" for row in rows])])
    return rng.choice(["\n", "\n", "\r\n"]).join([header, *rows, ""])


def told_address(rng):
    return address_text(rng) if rng.random() < 0.7 else ""


def all_ports():
    """A list of all ports of a fabric, so that what else is asked can be done."""
    rows = [f"{port},2000000000000001,1,{slot}" for slot, port in enumerate(PORTS)]
    return "\n".join([HEADER, *rows, ""])


def member(rng):
    return rng.choice([f"wwpn={port_text(rng)}", f"wwpn={port_text(rng)}", f"wwnn={port_text(rng)}",
                       f"dp={rng.randint(1, 239)},{rng.randrange(4096)}", f"id={address_text(rng)}"])


def members(rng):
    return " ".join(member(rng) for _ in range(rng.randint(1, 6)))


def zoning_line(rng):
    fabric, alias, zone, set_name = rng.choice(FABRICS), name(rng, "al"), name(rng, "z"), name(rng, "s")
    return rng.choice([
        f"alias.put {fabric} {alias} {members(rng)}", f"alias.drop {fabric} {alias}",
        f"zone.put {fabric} {zone} {members(rng)}", f"zone.drop {fabric} {zone}",
        f"zone.put {fabric} {zone} {members(rng)} alias={alias}", f"set.drop {fabric} {set_name}",
        f"set.put {fabric} {set_name} {zone} {name(rng, 'z')}", f"activate {fabric} {set_name}",
        f"deactivate {fabric}", f"default {fabric} permit", f"default {fabric} deny"])


def mapping_line(rng):
    group, hosts, unit, port = name(rng, "g"), name(rng, "k"), rng.randrange(4), port_text(rng)
    return rng.choice([
        f"hg.put {hosts} blue {name(rng, 'h')}", f"hg.drop {hosts}", f"sg.new {group} blue {name(rng, 'r', 2)}",
        f"sg.drop {group}", f"sg.host {group} {hosts}", f"sg.unhost {group} {hosts}", f"sg.target {group} {port}",
        f"sg.untarget {group} {port}", f"sg.map {group} {unit} {name(rng, 'v')}", f"sg.unmap {group} {unit}",
        f"sg.expose {group}", f"sg.hide {group}"])


def plan_text(rng):
    """Some lines; in every third plan lines that give a host a path, if its ports and volume are there."""
    if rng.random() < 0.67:
        return "".join(f"{rng.choice([zoning_line, mapping_line])(rng)}\n" for _ in range(rng.randint(1, 5)))
    host, group, array = name(rng, "h"), f"g{rng.randrange(1000)}", rng.randrange(2)
    return (f"default A permit\nhg.put k{host} blue {host}\nsg.new {group} blue r{array}\n"
            f"sg.host {group} k{host}\nsg.target {group} 500000000000000{array + 1}\n"
            f"sg.map {group} {rng.randrange(16384)} v{array + 2 * rng.randrange(3)}\nsg.expose {group}\n")


def put_holder(rng):
    kind, letter, count, side = rng.choice([("hosts", "h", 6, "1"), ("arrays", "r", 2, "5")])
    number = rng.randrange(count)
    ports = [f"{side}00000000000000{number + 1}"] if rng.random() < 0.7 else [port_text(rng)]
    listed = ",".join(f'"{port}"' for port in ports * rng.choice([1, 1, 2]))
    tenant = rng.choice(["blue", "blue", "green"])
    return asked("PUT", f"/{kind}/{letter}{number}", f'{{"ports":[{listed}],"tenant":"{tenant}"}}')


def put_volume(rng):
    volume = rng.randrange(6)
    size = rng.choice([512, 1 << 40, rng.randrange(1 << 63), (1 << 63) - 1])
    body = f'{{"array":"r{volume % 2}","bytes":{size},"tenant":"blue"}}'
    return asked("PUT", f"/volumes/v{volume}", body)


def put_list(rng):
    return asked("POST", f"/imports/{rng.choice(FABRICS)}", all_ports() if rng.random() < 0.8 else some_ports(rng))


def stage(rng):
    return asked("PUT", f"/plans/p{rng.randrange(10 ** 6)}", plan_text(rng))


def read(rng):
    fabric = rng.choice(FABRICS)
    return asked("GET", rng.choice([
        f"/ports/{port_text(rng)}", f"/hosts/{name(rng, 'h')}", f"/arrays/{name(rng, 'r', 2)}",
        f"/volumes/{name(rng, 'v')}", f"/paths/{name(rng, 'h')}", f"/paths/{name(rng, 'h')}",
        f"/joined/{port_text(rng)}/{port_text(rng)}", f"/active/{fabric}",
        f"/aliases/{fabric}/{name(rng, 'al')}", f"/zones/{fabric}/{name(rng, 'z')}",
        f"/sets/{fabric}/{name(rng, 's')}", f"/hostgroups/{name(rng, 'k')}", f"/groups/{name(rng, 'g')}"]))


def drop(rng):
    return asked("DELETE", rng.choice([f"/hosts/{name(rng, 'h')}", f"/arrays/{name(rng, 'r', 2)}",
                                       f"/volumes/{name(rng, 'v')}"]))


def on_plan(rng, staged):
    """A command on a plan that was staged, mostly one of the last."""
    plan = rng.choice(staged[-8:] if rng.random() < 0.9 else staged)
    method, end = rng.choice([("GET", ""), ("DELETE", ""), ("GET", "/dryrun")] + 2 * [("POST", "/approve")]
                             + 3 * [("POST", "/activate"), ("POST", "/rollback")])
    tokens = ["t-bob", "t-dan"] if end == "/approve" else ["t-ada"]
    return asked(method, f"/plans/{plan}{end}", token=rng.choice(tokens))


def long_one(rng):
    """A request with a head or a body near its limit."""
    kind = rng.randrange(4)
    if kind == 0:
        return read(rng).filled(rng.choice([8192, 8193, 8000]))
    if kind == 1:
        made = read(rng)
        return dataclasses.replace(made, lines=made.lines + [b"a:1"] * rng.choice([1600, 2600]))
    made = rng.choice([put_holder, put_volume, put_list, stage])(rng)
    missing = rng.choice([1048576, 1048577]) - len(made.body)
    return made.measured(made.body + rng.choice([b" ", b"\n"]) * missing)


def good(rng, staged):
    """A good request of some kind, by some caller."""
    if rng.random() < LONG:
        return long_one(rng)
    if staged and rng.random() < 0.25:
        return on_plan(rng, staged)
    made, = rng.choices([put_holder, put_volume, put_list, stage, read, drop], [12, 12, 6, 16, 25, 3])
    altered = made(rng)
    altered.lines[0] = b"Authorization: Bearer " + rng.choice(TOKENS).encode()
    return altered


# ---- alterations of parts

ADDED = [
    b"Authorization: Bearer t-ada", b"authorization:bearer   t-ada", b"Authorization: Basic t-ada",
    b"Authorization:", b"Transfer-Encoding: chunked", b"transfer-encoding:", b"Host: localhost",
    b"Content-Length: 0", b"content-length: 5, 5", b"Content-Length: +5", b"Expect: 100-continue",
    b"Connection: keep-alive", b" folded", b"\tfolded", b"no colon", b": no name", b"a b: c", b"x:\x00",
    b"x: \xc3\xa9", b"x: \xff\xfe", b"x: " + b"y" * 9000, b"", b"x:\ry", b"X-\xc3\xa9: 1"]
LENGTHS = [b"0", b"1", b"-1", b"+1", b"", b" ", b"0x10", b"1e3", b"1048576", b"1048577", b"18446744073709551615",
           b"18446744073709551616", b"9" * 20, b"0" * 20, b"0" * 21, b"1" * 21, b"5, 5", b"\xd9\xa1"]
METHODS = [b"GET", b"PUT", b"POST", b"DELETE", b"HEAD", b"OPTIONS", b"PATCH", b"get", b"", b"G\x00T", b"X" * 300]
LETTERS = ["\u00e9", "\u20ac", "\U0001f600", "\u0661", "\u2028", "\ufeff", "\u0130", "\x00", "\x7f"]
KEYS = [b'"ports"', b'"tenant"', b'"array"', b'"bytes"', b'"name"', b'"Ports"', b'""', b'"ten\\u0061nt"']
VALUES = [b"null", b"true", b"1", b"-1", b"1.0", b"1e3", b'"blue"', b"[]", b"{}", b"9223372036854775808", b"0",
          b'"\\ud800"', b'"\\u0000"', b"[" * 200, b'"1000000000000001"', b"18446744073709551616", b"1" * 400]
ESCAPES = [b"%zz", b"%", b"%4", b"%00", b"%2f", b"%2F", b"%C3%A9", b"%ff", b"%25", b"?", b"#", b"/", b"//",
           b"{name}", b"*"]
BETWEEN = [b" ", b"  ", b"\t", b'"', b'""', b"#", b",", b"-1,"]
BEHIND = [b"\r", b" ", b",", b" x", b"\r\r", b'"', b" 16384", b" " + b"x" * 70]
NUMBERS = [b"0", b"240", b"4096", b"16384", b"00000000000000000001", b"18446744073709551617", b"-1", b"1" * 21]


def other_method(rng, made, _):
    return dataclasses.replace(made, method=rng.choice(METHODS))


def other_length(rng, made, _):
    size = len(made.body)
    near = [str(max(0, size + rng.randint(-3, 3))).encode(), None, str(size).zfill(20).encode()]
    return dataclasses.replace(made, length=rng.choice(LENGTHS + near * 4))


def more_lines(rng, made, _):
    lines = list(made.lines)
    for _ in range(rng.choice([1, 1, 1, 2, 100])):
        lines.insert(rng.randint(0, len(lines)), rng.choice(ADDED))
    return dataclasses.replace(made, lines=lines)


def fewer_lines(rng, made, _):
    return dataclasses.replace(made, lines=made.lines[:rng.randrange(len(made.lines) + 1)])


def other_body(rng, made, staged):
    """The body of another request, with its length or with the old one."""
    body = good(rng, staged).body
    return made.measured(body) if rng.random() < 0.8 else dataclasses.replace(made, body=body)


def other_key(rng, made, _):
    """A JSON key renamed, or one that is added, perhaps a second time, before or behind the others."""
    pair = rng.choice(KEYS) + b":" + rng.choice(VALUES)
    old, new = rng.choice(KEYS), rng.choice(KEYS)
    return made.measured(rng.choice([
        made.body.replace(old, new, 1), made.body.replace(b"{", b"{" + pair + b",", 1),
        made.body.replace(b"}", b"," + pair + b"}", 1), made.body.replace(b'"blue"', rng.choice(VALUES), 1)]))


def other_wwn(rng, made, _):
    """A world-wide name altered, in the path and in the body."""
    old = rng.choice(PORTS)
    long = pairs(old)
    new = rng.choice([
        rng.choice(PORTS), "0" * 16, "f" * 16, f"0x{old}", f"0X{old}", old[:15], f"{old}0", f"g{old[1:]}",
        long.upper(), f"{long}:", long.replace(":", "-"), f"0x{long}"]).encode()

    def altered(text):
        return text.replace(old.encode(), new).replace(long.encode(), new)
    body = made.measured(altered(made.body)) if made.body else made
    return dataclasses.replace(body, path=altered(made.path))


def other_lines(rng, made, _):
    """Lines of a plan or a port list repeated, taken out, changed over, or altered."""
    lines = made.body.split(b"\n")
    place, other = rng.randrange(len(lines)), rng.randrange(len(lines))
    kind = rng.randrange(6)
    if kind == 0:
        lines[place:place] = lines[place:place + 1] * rng.choice([1, 5, 250])
    elif kind == 1:
        del lines[place]
    elif kind == 2:
        lines[place], lines[other] = lines[other], lines[place]
    elif kind == 3:
        lines[place] = lines[place].replace(b" ", rng.choice(BETWEEN))
    elif kind == 4:
        lines[place] += rng.choice(BEHIND)
    else:
        lines[place] = lines[place].replace(b"1", rng.choice(NUMBERS))
    return made.measured(b"\n".join(lines))


def escapes(rng, made, _):
    """Some bytes of the path as percent escapes, good ones and others."""
    path = bytearray(made.path)
    for _ in range(rng.randint(1, 4)):
        place = rng.randrange(1, len(path) + 1)
        plain = (bytes(path[place:place + 1]) or b"x")[0]
        path[place:place + 1] = rng.choice([b"%%%02X" % plain, b"%%%02x" % plain] * 7 + ESCAPES)
    return dataclasses.replace(made, path=bytes(path))


def letters(rng, made, _):
    """Letters beyond ASCII, or NULs, in the path, a header line or the body."""
    letter = rng.choice(LETTERS).encode() * rng.choice([1, 1, 1, 70])
    part = rng.randrange(3)
    if part == 0:
        return dataclasses.replace(made, path=put_in(rng, made.path, letter))
    if part == 1 and made.lines:
        return dataclasses.replace(made, lines=[put_in(rng, made.lines[0], letter), *made.lines[1:]])
    return made.measured(put_in(rng, made.body, letter))


def put_in(rng, text, piece):
    place = rng.randint(0, len(text))
    return text[:place] + piece + text[place:]


def bytes_of_body(rng, made, _):
    """The body altered as bytes are, with its length."""
    return made.measured(rng.choice(OF_BYTES)(rng, made.body)) if made.body else made


# What alters bodies stands here more than once, since what is wrong in a head hides all else.
OF_PARTS = [other_method, other_length, more_lines, fewer_lines, escapes, letters] + 2 * [
    other_body, other_key, other_wwn, other_lines, letters] + 4 * [bytes_of_body]


# ---- alterations of bytes, of which there is one at least

def changed(rng, text):
    made = bytearray(text)
    for _ in range(rng.randint(1, 8)):
        made[rng.randrange(len(made))] = rng.choice([rng.randrange(256), ord(rng.choice(string.printable))])
    return bytes(made)


def cut(rng, text):
    return text[:rng.randrange(len(text) + 1)]


def repeated(rng, text):
    begin = rng.randrange(len(text))
    piece = text[begin:begin + rng.randint(1, 200)]
    return text[:begin] + piece * rng.choice([2, 2, 3, 50]) + text[begin + len(piece):]


def taken_out(rng, text):
    begin = rng.randrange(len(text))
    return text[:begin] + text[begin + rng.randint(1, 20):]


def other_ends(rng, text):
    """Other line ends, in the first lines or everywhere."""
    end = rng.choice([b"\n", b"\r", b"\n\r", b"\r\r\n", b"\x0b", b"\r\n "])
    return text.replace(b"\r\n", end, rng.choice([1, 2, -1]))


def with_nul(rng, text):
    return put_in(rng, text, b"\x00")


def doubled(rng, text):
    """Something behind the text, or before it."""
    return rng.choice([text + text, b"\r\n" + text, text + b"x", b"\n\n" + text, b" " + text])


def other_version(rng, text):
    version = rng.choice([b"HTTP/1.0", b"HTTP/2.0", b"HTTP/1.2", b"http/1.1", b"", b"HTTP/1.1 "])
    return text.replace(b"HTTP/1.1", version, 1)


OF_BYTES = [changed, changed, cut, repeated, taken_out, other_ends, with_nul, doubled, other_version]


def mutated(rng, staged):
    """The bytes of a request that is altered, or, one in ten, as it is. `staged` has names of plans."""
    made = good(rng, staged)
    if rng.random() < KEPT:
        return made.text()
    turns = rng.choice([1, 1, 1, 2, 2, 3, 4])
    in_bytes = max(0, rng.randint(-2, turns))
    for _ in range(turns - in_bytes):
        made = rng.choice(OF_PARTS)(rng, made, staged)
    text = made.text()
    for _ in range(in_bytes):
        text = rng.choice(OF_BYTES)(rng, text) if text else text
    return text
