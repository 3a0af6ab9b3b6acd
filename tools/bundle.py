#!/usr/bin/env python3
"""Makes a trace bundle (version 1) from text, and shows a bundle as such text.

    bundle.py make FILE.txt > FILE.bundle
    bundle.py show FILE.bundle > FILE.txt

One line each; '#' begins a comment. Addresses and words are hexadecimal, counts decimal.

    scheme OFFSET WIDTH...           up to four widths; `scheme OFFSET count N WIDTH...` for another count
    tlb entries N ways N policy lru|mru|fifo|lfu|clock|random hit N miss N
    switches [enabled] [force] [tlb]
    satp WORD
    map relative|absolute identity|offset MIB flags [rwxug]|- root ADDRESS window START END
    ram N zeros | ram hex BYTES | ram file NAME       (NAME beside the text file)
    word ADDRESS VALUE               a little-endian word of the RAM above
    fetch|load|store U|S|M ADDRESS
    flush [ADDRESS]
    byte POSITION VALUE              overwrites one byte of the finished file, to try a broken layout

Without a map line there is no map. What `show` prints, `make` turns into the same bytes.
"""
import os
import re
import struct
import sys

POLICIES = ["lru", "mru", "fifo", "lfu", "clock", "random"]
SWITCHES = {"enabled": 1, "force": 2, "tlb": 4}
FLAGS = {"r": 2, "w": 4, "x": 8, "u": 0x10, "g": 0x20}
RULES = ["relative", "absolute"]
KINDS = ["identity", "offset"]
ACCESSES = ["fetch", "load", "store"]
MODES = {"U": 0, "S": 1, "M": 3}
MAX_RAM, MAX_ACCESSES = 32768, 3000
HEAD = 52  # version and count, then four rows of twelve bytes


class Bad(Exception):
    """What was expected, where something else was found."""


class Words:
    """The words of one line, taken from the left."""

    def __init__(self, words):
        self.words = words

    def more(self):
        return bool(self.words)

    def take(self, expected):
        if not self.words:
            raise Bad(f"expected {expected}, found the end of the line")
        return self.words.pop(0)

    def one_of(self, choices, what):
        expected = f"{what} ({', '.join(choices)})"
        word = self.take(expected)
        if word not in choices:
            raise Bad(f"expected {expected}, found {word}")
        return word

    def keyword(self, word):
        self.one_of([word], "the word")

    def count(self, what, most, least=0):
        expected = f"{what} (decimal, {least} to {most})"
        word = self.take(expected)
        if not re.fullmatch(r"-?[0-9]{1,10}", word) or not least <= int(word) <= most:
            raise Bad(f"expected {expected}, found {word}")
        return int(word)

    def hexa(self, what, digits=8):
        expected = f"{what} (up to {digits} hexadecimal digits)"
        word = self.take(expected)
        if not re.fullmatch(r"[0-9a-fA-F]{1,%d}" % digits, word):
            raise Bad(f"expected {expected}, found {word}")
        return int(word, 16)

    def end(self):
        if self.words:
            raise Bad(f"expected the end of the line, found {self.words[0]}")


class Text:
    """Gathers the parts of a bundle from the lines."""

    def __init__(self, folder):
        self.folder = folder
        self.parts = {}
        self.accesses = []
        self.patches = []

    def line(self, words, number):
        name = words.take("a setting or an access")
        if name in ("scheme", "tlb", "switches", "satp", "map", "ram"):
            if name in self.parts:
                raise Bad(f"expected one {name} line, found a second")
            self.parts[name] = getattr(self, name)(words)
        elif name == "word":
            self.word(words)
        elif name == "byte":
            # the length is not known yet: bytes() tests the position
            self.patches.append((number, words.hexa("a position in the file"), words.hexa("a byte", 2)))
        elif name == "flush" or name in ACCESSES:
            if len(self.accesses) == MAX_ACCESSES:
                raise Bad(f"expected at most {MAX_ACCESSES} accesses, found one more")
            self.accesses.append(self.access(name, words))
        else:
            raise Bad("expected scheme, tlb, switches, satp, map, ram, word, fetch, load, "
                      f"store, flush or byte, found {name}")
        words.end()

    def scheme(self, words):
        offset = words.count("the page offset width", 255)
        count = None
        if words.words[:1] == ["count"]:
            words.keyword("count")
            count = words.count("the level count", 255)
        widths = []
        while words.more() and len(widths) < 4:
            widths.append(words.count("an index width", 255))
        if count is None:
            count = len(widths)
        return struct.pack("<6B", offset, count, *(widths + [0] * 4)[:4])

    def tlb(self, words):
        words.keyword("entries")
        entries = words.count("the entries", 65535)
        words.keyword("ways")
        ways = words.count("the ways", 255)
        words.keyword("policy")
        policy = POLICIES.index(words.one_of(POLICIES, "a policy"))
        words.keyword("hit")
        hit = words.count("the hit latency", 255)
        words.keyword("miss")
        miss = words.count("the miss penalty", 255)
        return struct.pack("<HBBBB", entries, ways, policy, hit, miss)

    def switches(self, words):
        bits = 0
        while words.more():
            bits |= SWITCHES[words.one_of(SWITCHES, "a switch")]
        return struct.pack("<B3x", bits)

    def satp(self, words):
        return struct.pack("<I", words.hexa("satp"))

    def map(self, words):
        rule = RULES.index(words.one_of(RULES, "a rule"))
        kind = KINDS.index(words.one_of(KINDS, "a kind"))
        mib = words.count("the offset in MiB", 2**31 - 1, -2**31) if kind else 0
        words.keyword("flags")
        expected = "flags (letters of rwxug, or -)"
        letters = words.take(expected)
        if letters != "-" and (set(letters) - set(FLAGS) or len(set(letters)) != len(letters)):
            raise Bad(f"expected {expected}, found {letters}")
        flags = 0 if letters == "-" else sum(FLAGS[c] for c in letters)
        words.keyword("root")
        root = words.hexa("the root")
        words.keyword("window")
        start, end = words.hexa("the window's start"), words.hexa("the window's end")
        return struct.pack("<BBBxiIII", rule, kind, flags, mib, root, start, end)

    def ram(self, words):
        how = words.take("hex, file or a number of bytes")
        if how == "hex":
            digits = words.take("bytes") if words.more() else ""
            if not re.fullmatch(r"([0-9a-fA-F]{2})*", digits):
                raise Bad("expected bytes of two hexadecimal digits each")
            ram = bytearray.fromhex(digits)
        elif how == "file":
            name = words.take("a file's name")
            try:
                with open(os.path.join(self.folder, name), "rb") as f:
                    ram = bytearray(f.read())
            except OSError as e:
                raise Bad(f"expected a file that can be read, found {name}: {e.strerror}")
        else:
            words.words.insert(0, how)
            ram = bytearray(words.count("hex, file or a number of bytes", MAX_RAM))
            words.keyword("zeros")
        if len(ram) > MAX_RAM:
            raise Bad(f"expected at most {MAX_RAM} bytes of RAM, found {len(ram)}")
        return ram

    def word(self, words):
        if "ram" not in self.parts:
            raise Bad("expected a ram line before the first word line")
        ram = self.parts["ram"]
        address, value = words.hexa("an address"), words.hexa("a word")
        if address + 4 > len(ram):
            raise Bad(f"expected an address with four bytes in the RAM of {len(ram)}, found {address:x}")
        ram[address:address + 4] = struct.pack("<I", value)

    def access(self, name, words):
        if name != "flush":
            mode = MODES[words.one_of(MODES, "a privilege")]
            return struct.pack("<I4B", words.hexa("an address"), ACCESSES.index(name), mode, 0, 0)
        if words.more():
            return struct.pack("<I4B", words.hexa("an address"), 0, 0, 2, 0)
        return struct.pack("<I4B", 0, 0, 0, 1, 0)

    def bytes(self):
        for name in ("scheme", "tlb", "switches", "satp", "ram"):
            if name not in self.parts:
                raise Bad(f"expected a {name} line before the end of the file")
        p = self.parts
        settings = p["scheme"] + p["tlb"] + p["switches"] + p["satp"]
        bodies = [settings, p.get("map", b""), bytes(p["ram"]), b"".join(self.accesses)]
        out = struct.pack("<HH", 1, 4)
        start = HEAD
        for kind, body in enumerate(bodies, 1):
            out += struct.pack("<III", kind, start, len(body))
            start += len(body)
        return bytearray(out + b"".join(bodies))


def make(lines, folder):
    text = Text(folder)
    number = 0
    try:
        for number, line in enumerate(lines, 1):
            words = line.split("#")[0].split()
            if words:
                text.line(Words(words), number)
        out = text.bytes()
        for number, position, value in text.patches:
            if position >= len(out):
                raise Bad(f"expected a position below the file's length {len(out):x}, found {position:x}")
            out[position] = value
    except Bad as e:
        raise Bad(f"line {number}: {e}")
    return bytes(out)


def name_of(names, number):
    """A name for a field; where the number has none, any: a byte line then mends it."""
    return names[number] if number < len(names) else names[0]


def show(data):
    """The text of a bundle. Fields the text has no word for come out as byte lines."""
    if len(data) < HEAD:
        raise Bad(f"expected at least {HEAD} bytes, found {len(data)}")
    lengths = [struct.unpack_from("<I", data, 4 + 12 * k + 8)[0] for k in range(4)]
    if lengths[0] != 20 or lengths[1] not in (0, 20) or lengths[3] % 8:
        raise Bad(f"expected lengths 20, 0 or 20, any, a multiple of 8, found {lengths}")
    if lengths[2] > MAX_RAM or lengths[3] > 8 * MAX_ACCESSES:
        raise Bad(f"expected at most {MAX_RAM} bytes of RAM and {MAX_ACCESSES} accesses, found {lengths}")
    if HEAD + sum(lengths) != len(data):
        raise Bad(f"expected {HEAD + sum(lengths)} bytes by the contents, found {len(data)}")
    offset, count, *rest = struct.unpack_from("<6BHBBBBB3xI", data, HEAD)
    widths, (entries, ways, policy, hit, miss, switches, satp) = rest[:4], rest[4:]
    lines = []
    # the short form says the count by the widths it lists
    if count <= 4 and not any(widths[count:]):
        lines.append(" ".join(map(str, ["scheme", offset] + widths[:count])))
    else:
        lines.append(" ".join(map(str, ["scheme", offset, "count", count] + widths)))
    lines.append(f"tlb entries {entries} ways {ways} policy {name_of(POLICIES, policy)} hit {hit} miss {miss}")
    lines.append(" ".join(["switches"] + [n for n, bit in SWITCHES.items() if switches & bit]))
    lines.append(f"satp {satp:08x}")
    if lengths[1]:
        rule, kind, flags, mib, root, start, end = struct.unpack_from("<BBBxiIII", data, HEAD + 20)
        letters = "".join(c for c, bit in FLAGS.items() if flags & bit) or "-"
        kind_words = f"offset {mib}" if kind == 1 else "identity"
        lines.append(f"map {name_of(RULES, rule)} {kind_words} flags {letters} "
                     f"root {root:x} window {start:x} {end:x}")
    at = HEAD + 20 + lengths[1]
    ram = data[at:at + lengths[2]]
    if len(ram) < 4:
        lines.append(f"ram hex {ram.hex()}".rstrip())
    else:
        lines.append(f"ram {len(ram)} zeros")
        # the last word may overlap the one before it: the same bytes twice
        for a in sorted({min(a, len(ram) - 4) for a in range(0, len(ram), 4)}):
            if any(ram[a:a + 4]):
                lines.append(f"word {a:x} {struct.unpack_from('<I', ram, a)[0]:08x}")
    modes = {number: name for name, number in MODES.items()}
    for address, access, mode, op, _ in struct.iter_unpack("<I4B", data[at + lengths[2]:]):
        if op == 1:
            lines.append("flush")
        elif op == 2:
            lines.append(f"flush {address:x}")
        else:
            lines.append(f"{name_of(ACCESSES, access)} {modes.get(mode, 'U')} {address:x}")
    again = make(lines, "")
    lines += [f"byte {k:x} {data[k]:02x}" for k in range(len(data)) if data[k] != again[k]]
    return "\n".join(lines) + "\n"


def main(args):
    if len(args) != 2 or args[0] not in ("make", "show"):
        sys.stderr.write("usage: bundle.py make FILE.txt | bundle.py show FILE.bundle\n")
        return 1
    try:
        if args[0] == "make":
            with open(args[1], encoding="utf-8", errors="replace") as f:
                sys.stdout.buffer.write(make(f.read().split("\n"), os.path.dirname(args[1])))
        else:
            with open(args[1], "rb") as f:
                sys.stdout.write(show(f.read()))
    except OSError as e:
        sys.stderr.write(f"{args[1]}: {e.strerror}\n")
        return 1
    except Bad as e:
        sys.stderr.write(f"{args[1]}: {e}\n")
        return 1
    return 0


if __name__ == "__main__":
    sys.exit(main(sys.argv[1:]))
