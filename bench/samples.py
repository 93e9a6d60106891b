"""Where a serving process spends its processor time: samples that `perf` takes, each as the names of the functions that
were at work, the innermost first.

The program keeps no frame pointers and no tables of frames, so `perf` can not tell who has called whom. It copies the
top of the stack with each sample, and the callers are found there: a word is a return address where just before it is
a direct call of the function that is at work below. The program has next to no other calls.
"""
import bisect
import contextlib
import os
import pathlib
import signal
import struct
import subprocess
import tempfile

# How many samples are taken in a second of the process, by several clocks, so that not all of them keep step with what
# is asked; and how much of the stack is copied, in bytes.
CLOCKS, STACK = [1999, 1699, 1399, 1201, 1009], 8192

CALL, JUMP = b"\xe8", b"\xe9"

# The kind of a record that is a sample, and the bits of what it has (perf_event_open(2)): the words that stand before
# all else, each of eight bytes, and the callers that `perf` believes in. Behind them are the registers and the stack.
SAMPLE, FIXED, CHAIN = 9, [0, 1, 2, 3, 6, 7, 8, 9, 16], 5

# The place in the mask of registers of that which tells where the instruction is.
INSTRUCTION = 8


# ---- the program

class Program:
    """The functions of a built program, and who calls whom from where. Addresses are those of the file."""

    def __init__(self, path):
        data = pathlib.Path(path).read_bytes()
        parts = sections(data)
        self.is_moved = struct.unpack_from("<H", data, 16)[0] == 3
        self.names = functions(data, parts)
        self.entries = sorted(self.names)
        start, offset, size = parts[".plt"]
        self.outside = range(start, start + size)
        start, offset, size = parts[".text"]
        self.text = range(start, start + size)
        text = data[offset:offset + size]
        self.calls = {place + 5: target for place, target in self.branches(text, CALL)}
        self.jumps = {}
        for place, target in self.branches(text, JUMP):
            self.jumps.setdefault(self.entry(place), set()).add(target)
        self.ends = {target: self.ends_of(target) for target in set(self.calls.values())}

    def branches(self, text, code):
        """The calls or jumps to the first instruction of a function: from where, and to where."""
        found, place = [], text.find(code)
        while place >= 0:
            step = int.from_bytes(text[place + 1:place + 5], "little", signed=True)
            target = self.text.start + place + 5 + step
            if target in self.names or target in self.outside:
                found.append((self.text.start + place, target))
            place = text.find(code, place + 1)
        return found

    def entry(self, address):
        """The function that an address is in; none outside the program's own code."""
        if address not in self.text:
            return None
        return self.entries[bisect.bisect_right(self.entries, address) - 1]

    def ends_of(self, target):
        """Where a call of this target may be at work: there, or where jumps lead on to. Libraries and the kernel
        are none, and are reached by the program's table of outer functions."""
        found, left = set(), [target]
        while left:
            place = left.pop()
            if place not in found:
                found.add(place)
                left += self.jumps.get(place, ())
        return {self.entry(place) for place in found}

    def frames(self, address, behind):
        """The names of the functions at work, the innermost first: at this address, where the stack has these addresses
        that are right behind calls."""
        here = self.entry(address)
        found = [] if here is None else [here]
        for place in behind:
            if here in self.ends[self.calls[place]]:
                here = self.entry(place - 1)
                found.append(here)
        return [self.names[entry] for entry in found]


def sections(data):
    """The sections of an ELF file: address, offset and size by name."""
    table, = struct.unpack_from("<Q", data, 40)
    size, count, names = struct.unpack_from("<HHH", data, 58)
    heads = [struct.unpack_from("<IIQQQQ", data, table + number * size) for number in range(count)]
    start = heads[names][4]
    return {text_at(data, start + head[0]): head[3:] for head in heads}


def text_at(data, place):
    return data[place:data.index(b"\0", place)].decode()


def functions(data, parts):
    """The names of the functions by address. Of several at one address the first by name is taken."""
    _, table, size = parts[".symtab"]
    _, names, _ = parts[".strtab"]
    found = {}
    for place in range(table, table + size, 24):
        name, info, _, section, address = struct.unpack_from("<IBBHQ", data, place)
        if info & 15 == 2 and section:
            text = text_at(data, names + name)
            found[address] = min(found.get(address, text), text)
    return found


# ---- the samples

def moments(path):
    """The samples in a file of `perf`: the address at work outside the kernel, and the stack as words."""
    data = pathlib.Path(path).read_bytes()
    attributes, _, place, size = struct.unpack_from("<QQQQ", data, 24)
    kinds, = struct.unpack_from("<Q", data, attributes + 24)
    mask, = struct.unpack_from("<Q", data, attributes + 80)
    end = place + size
    while place < end:
        kind, _, length = struct.unpack_from("<IHH", data, place)
        if kind == SAMPLE:
            yield moment(data, place + 8, kinds, mask)
        place += length


def moment(data, place, kinds, mask):
    """A sample of these kinds of fields and these registers, which begins at a place."""
    place += 8 * sum(kinds >> bit & 1 for bit in FIXED)
    if kinds >> CHAIN & 1:
        place += 8 + 8 * struct.unpack_from("<Q", data, place)[0]
    address = 0
    if struct.unpack_from("<Q", data, place)[0]:
        before = bin(mask & ((1 << INSTRUCTION) - 1)).count("1")
        address, = struct.unpack_from("<Q", data, place + 8 + 8 * before)
        place += 8 * bin(mask).count("1")
    place += 8
    size, = struct.unpack_from("<Q", data, place)
    used = struct.unpack_from("<Q", data, place + 8 + size)[0] if size else 0
    return address, struct.unpack_from(f"<{used // 8}Q", data, place + 8)


def base_of(process, program):
    """How far the program's addresses are moved in a process."""
    if not program.is_moved:
        return 0
    file = os.readlink(f"/proc/{process}/exe")
    lines = pathlib.Path(f"/proc/{process}/maps").read_text().splitlines()
    return min(int(line.split("-")[0], 16) for line in lines if line.endswith(file))


def seconds_of(process):
    """How long a process had a processor so far."""
    return int(pathlib.Path(f"/proc/{process}/schedstat").read_text().split()[0]) / 1e9


def recording(*more):
    """The words of a command that takes samples."""
    clocks = sum((["-e", f"cpu-clock/freq={number}/"] for number in CLOCKS), [])
    return ["perf", "record", "-q", *clocks, "--call-graph", f"dwarf,{STACK}", "-m", "16M", *more]


def is_possible():
    """Whether `perf` is there and can take samples."""
    with contextlib.suppress(OSError), tempfile.NamedTemporaryFile() as file:
        words = recording("-o", file.name, "true")
        return subprocess.run(words, stdin=subprocess.DEVNULL, capture_output=True, check=False).returncode == 0
    return False


class Recorder:
    """Takes samples of a process while the block runs; tells them and its seconds of a processor then."""

    def __init__(self, process, program):
        self.process, self.program = process, program
        self.folder = tempfile.TemporaryDirectory()
        self.file = pathlib.Path(self.folder.name) / "samples"
        self.seconds = 0.0

    def __enter__(self):
        control, told = (pathlib.Path(self.folder.name) / name for name in ("control", "told"))
        os.mkfifo(control)
        os.mkfifo(told)
        words = recording("-p", str(self.process), "-D", "-1", "--control", f"fifo:{control},{told}", "-o", self.file)
        self.perf = subprocess.Popen(words, stdin=subprocess.DEVNULL, stderr=subprocess.PIPE)
        self.control, self.told = open(control, "w"), open(told)
        self.ask("enable")
        self.seconds = -seconds_of(self.process)
        return self

    def ask(self, word):
        print(word, file=self.control, flush=True)
        self.told.readline()

    def __exit__(self, *_):
        self.seconds += seconds_of(self.process)
        self.ask("disable")
        self.perf.send_signal(signal.SIGINT)
        self.perf.communicate()
        self.control.close()
        self.told.close()

    def frames(self):
        """The names of the functions at work in each sample, the innermost first."""
        base = base_of(self.process, self.program)
        moved = {place + base: place for place in self.program.calls}
        found = [self.program.frames(address - base, [moved[word] for word in words if word in moved])
                 for address, words in moments(self.file)]
        self.folder.cleanup()
        return found
