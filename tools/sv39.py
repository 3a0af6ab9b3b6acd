#!/usr/bin/env python3
"""Sv39 by document 02 and the privileged manual, said as plainly as Python can, for the scripts of the test programs.

    sv39.py answers walk|mmu [exports] < SCRIPT     the lines owed for a script, from its line '# Sv39' on
    sv39.py draw walk|mmu COUNT SEED                a script of about COUNT random accesses

A script is one of crates/walk_cases or crates/mmu_cases; their first lines say what the letters stand for. `exports` leaves
out of a walk's line what the exported function does not tell. It shares nothing with the crates. The TLB's rules are
document 01's, in model.py; the walk, satp and the refusals are worked out here. Comments quote document 02.
"""
import random
import struct
import sys

sys.dont_write_bytecode = True  # the tree stays as it is checked out
import model

KINDS, MODES = ("fetch", "load", "store"), {0: "U", 1: "S", 3: "M"}
RAM = 65536
WIDTH, OFFSET, LEVELS = 9, 12, 3
CLASSES = [0, 9, 18]
HIT, MISS = 1, 20
BARE, SV39 = 0, 8
SCHEME = (12, 3, 0x09090900)


def hexed(n):
    return f"{n:08x}" if n < 2**32 else f"{n:016x}"


# ---- the walk

class Fault(Exception):
    """A page fault: its reason, its level, and how many words were asked for."""


def walk(ram, root, va, kind, mode):
    """The leaf's word, its level and the words asked for, with the marks made in RAM."""
    # 'address bits 63-39 all equal to bit 38 or a page fault, tested as the walk's first step'
    if va >> 38 not in (0, 2**26 - 1):
        raise Fault("wrong top", 0, 0)
    ppn = root
    for level in range(LEVELS):
        shift = OFFSET + WIDTH * (LEVELS - 1 - level)
        place = (ppn * 4096 + 8 * (va >> shift & 511)) % 2**56  # a root is a number of 64 bits; 44 of them are looked at
        words = level + 1
        if place + 8 > len(ram):
            raise Fault("not readable", level, words)
        word = struct.unpack_from("<Q", ram, place)[0]
        if not word & 1:
            raise Fault("not valid", level, words)
        if word & model.W and not word & model.R:
            raise Fault("W without R", level, words)
        # 'Bits 63-54 set in an entry fault next after W without R'
        if word >> 54:
            raise Fault("high bits", level, words)
        ppn = word >> 10
        if word & (model.R | model.W | model.X):
            if ppn % (1 << shift - 12):
                raise Fault("misaligned", level, words)
            if not word & model.NEEDS[kind]:
                raise Fault("no right", level, words)
            if not model.permits(word, kind, mode):
                raise Fault("privilege", level, words)
            struct.pack_into("<Q", ram, place, word | model.A | (model.D if kind == model.STORE else 0))
            return word, level, words
    raise Fault("out of levels", LEVELS - 1, LEVELS)


def send(ppn, bits, va):
    """'Frames are not cut to 32 bits'"""
    low = 1 << bits
    return ppn * 4096 // low * low + va % low


# ---- the scripts

class Script:
    """What both programs have: RAM, and who asks."""

    def __init__(self):
        self.ram = bytearray(RAM)

    def put(self, wide, at, word):
        form = "<Q" if wide else "<I"
        if at + struct.calcsize(form) <= RAM:
            struct.pack_into(form, self.ram, at, word)

    def who(self, va, kind, mode):
        return f" {hexed(va)} {KINDS[kind]} {MODES[mode]}"


class Walks(Script):
    def __init__(self, exports):
        super().__init__()
        self.size, self.root, self.valid, self.exports = 0, 0, False, exports

    def walked(self, wide, va, kind, mode, leaf):
        ram = self.ram[:self.size]
        who, end, reason = self.who(va, kind, mode), "", ""
        if not self.valid:
            end = "refused 1"
        else:
            try:
                word, level, words = walk(ram, self.root, va, kind, mode)
                bits = OFFSET + WIDTH * (LEVELS - 1 - level)
                size = "" if self.exports else f" {bits} {level}"
                end = f"ok {hexed(send(word >> 10, bits, va))}{size} words {words}"
            except Fault as fault:
                why, level, words = fault.args
                end = f"fault {model.CAUSES[kind]} words {words}"
                reason = "" if self.exports else f" {why} at {level}"
        self.ram[:self.size] = ram
        form = "<Q" if wide else "<I"
        there = hexed(struct.unpack_from(form, ram, leaf)[0]) if leaf + struct.calcsize(form) <= len(ram) else "-"
        return f"{who} {end} {there}{reason}"

    def perform(self, op, wide, a, b, c, d):
        if op == "a":
            return self.walked(wide, a, b, c, d)
        if op == "w":
            self.put(wide, a, b)
        elif op == "z":
            self.ram = bytearray(RAM)
        elif op == "m":
            self.size = a
        elif op == "r":
            self.root = a
        elif op == "p":
            self.valid = (a, b, c) == SCHEME
        else:
            return "bad line"


class Calls(Script):
    def __init__(self, exports):
        super().__init__()
        self.start(32, 4, 0)

    def start(self, entries, ways, policy):
        self.tlb = model.Tlb(entries, ways, policy)
        self.satp, self.switches, self.paged, self.unfit = 0, 4, False, False
        self.hits = self.misses = self.faults = 0

    # the fields: 'mode in 63-60 (8 for Sv39, 0 for Bare), ASID 59-44, PPN 43-0'
    def mode(self):
        return self.satp >> 60

    def asid(self):
        return self.satp >> 44 & 0xFFFF

    def root(self):
        return self.satp % 2**44

    def served(self, va, kind, mode):
        """The address, the stall and the words asked for."""
        if not self.switches & 1 or self.mode() == BARE or mode == model.MACHINE and not self.switches & 2:
            return va, 0, 0
        on = self.switches & 4
        # 'a cached VPN keeps those bits'
        vpn, asid = va >> OFFSET, self.asid()
        found = self.tlb.probe(vpn, asid, CLASSES) if on else None
        if found and (kind != model.STORE or found.dirty):
            if not model.permits(found.flags, kind, mode):
                self.faults += 1
                raise Fault("", 0, 0)
            self.hits += 1
            return send(found.ppn, OFFSET + found.size, va), HIT, 0
        self.misses += 1
        try:
            word, level, words = walk(self.ram, self.root(), va, kind, mode)
        except Fault:
            self.faults += 1
            raise
        size = WIDTH * (LEVELS - 1 - level)
        if on:
            self.tlb.install(vpn, size, asid, word, kind == model.STORE)
        return send(word >> 10, OFFSET + size, va), MISS, words

    def access(self, va, kind, mode):
        who = self.who(va, kind, mode)
        assert self.paged, "only Sv39 is modelled"
        # '10, from translate, enabled or not, for a satp mode that is neither'
        if self.mode() not in (BARE, SV39):
            return f"{who} refused 10 words 0"
        try:
            pa, stall, words = self.served(va, kind, mode)
            return f"{who} ok {hexed(pa)} {stall} words {words}"
        except Fault as fault:
            return f"{who} fault {model.CAUSES[kind]} words {fault.args[2]}"

    def slot(self, i):
        slots = [slot for row in self.tlb.sets for slot in row]
        s = slots[i] if i < len(slots) else model.Slot()
        if not hasattr(s, "vpn"):
            return "  slot no 00000000 00000000 0 0 00000000 no no"
        yes = lambda b: "yes" if b else "no"
        return (f"  slot {yes(s.valid)} {hexed(s.vpn)} {hexed(s.ppn)} {s.asid} {s.size} {s.age:08x} "
                f"{yes(s.dirty)} {yes(s.hand_bit)}")

    def scheme(self, offset, levels, widths):
        if (offset, levels, widths) == SCHEME:
            self.paged = True
            return " granted"
        listed = [widths >> 8 * k & 255 for k in (3, 2, 1, 0)][:levels]
        try:
            model.Scheme(offset, levels, listed)
        except model.Refused as number:
            return f" refused {number}"
        assert False, "only Sv39 is modelled"

    def geometry(self, op, entries, ways, policy):
        try:
            if op == "n":
                self.start(entries, ways, policy)
            else:
                self.tlb = model.Tlb(entries, ways, policy)
                self.hits = self.misses = self.faults = 0
        except model.Refused as number:
            if op == "n":
                self.start(32, 4, 0)
            return f" refused {number}"
        return " granted"

    def flush(self, every, va):
        vpn = va >> OFFSET
        rows = [s for row in self.tlb.sets for s in row] if every else self.tlb.probed(vpn, CLASSES)
        for s in rows:
            if every or s.valid and s.vpn >> s.size == vpn >> s.size:
                s.valid = False
        return " granted"

    def perform(self, op, wide, a, b, c, d):
        if self.unfit and op in "aprfv":
            return f"{self.who(a, b, c)} refused 3 words 0" if op == "a" else " refused 3"
        if op == "a":
            return self.access(a, b, c)
        if op == "i":
            return self.slot(a)
        if op == "c":
            t = self.tlb
            return f"  hits {self.hits} misses {self.misses} faults {self.faults} evictions {t.evictions}"
        if op in "nr":
            return self.geometry(op, a, b, c)
        if op == "p":
            return self.scheme(a, b, c)
        if op in "fv":
            return self.flush(op == "f", a)
        if op == "w":
            self.put(wide, a, b)
        elif op == "z":
            self.ram = bytearray(RAM)
        elif op == "s":
            self.satp = a
        elif op == "e":
            self.switches = a
        elif op == "q":
            self.unfit = a != sum(map(len, self.tlb.sets))
        else:
            return "bad line"


def answers(script, program):
    """The lines owed. A line of the script has 80 bytes; after a capital letter its columns have eighteen."""
    lines = [script[k:k + 80] for k in range(0, len(script), 80)]
    first = next(k for k, line in enumerate(lines) if line.startswith("# Sv39"))
    out = ""
    for line in lines[first:]:
        if line[0] == "#":
            continue
        if line[0] == "t":
            out += line[2:].rstrip()
            continue
        wide = line[0].isupper()
        size = 18 if wide else 9
        columns = [line[1 + k * size:1 + (k + 1) * size] for k in range(4)]
        numbers = [int(column.replace(" ", "0"), 16) for column in columns]
        said = program.perform(line[0].lower(), wide, *numbers)
        out += f"{said}\n" if said is not None else ""
    return out


# ---- random tables and accesses

class Draw:
    INDICES = (0, 1, 2, 255, 256, 510, 511)

    def __init__(self, seed):
        self.rng = random.Random(seed)
        self.lines = ["# Sv39, drawn"]

    def line(self, op, *numbers):
        size = 18 if op.isupper() else 9
        self.lines.append(op + "".join(f"{n:{size}x}" for n in numbers))

    def one_in(self, n):
        return self.rng.randrange(n) == 0

    def entry(self, below, level, user):
        """A word for an entry of a table at a level: mostly one that leads on, to one of the tables below."""
        rng, r = self.rng, self.rng.random() * (0.85 if self.tidy else 1)
        flags = 1 | rng.choice((2, 6, 8, 10, 14, 14)) | (0x10 if user != self.one_in(8) else 0) | rng.choice((0, 0, 0x20))
        flags |= rng.choice((0, 0, 0x40, 0x80, 0xC0))
        low = WIDTH * (LEVELS - 1 - level)
        ppn = rng.choice((rng.randrange(2**20), rng.randrange(2**44), rng.randrange(16))) >> low << low
        if level < 2 and r < 0.6:
            return rng.choice(below) << 10 | 1 | (rng.randrange(256) & 0xF0 if self.one_in(6) else 0)
        if r < 0.85:
            word = ppn << 10 | flags
        elif r < 0.88:
            word = (ppn | 1 << rng.randrange(low or 1)) << 10 | flags
        elif r < 0.91:
            word = rng.choice((rng.randrange(16, 2**44), 2**44 - 1)) << 10 | 1
        elif r < 0.94:
            word = ppn << 10 | flags & ~2 | 4
        elif r < 0.96:
            word = ppn << 10 | flags & ~1
        else:
            word = rng.choice(below) << 10 | 1
        if not self.tidy and self.one_in(12):
            word |= rng.randrange(1, 1024) << 54
        return word

    def tables(self, user, tidy):
        """Some tables of RAM, their frames told; the first is the root's. Tidy tables lead to pages, or to too deep a table."""
        self.tidy = tidy
        frames = self.rng.sample(range(16), self.rng.randrange(3, 8))
        levels = [k if k < LEVELS else self.rng.randrange(LEVELS) for k in range(len(frames))]
        self.line("z")
        self.used = []
        for frame, level in zip(frames, levels):
            below = [f for f, other in zip(frames, levels) if other == level + 1]
            for index in self.INDICES:
                if tidy or not self.one_in(12):
                    place = 4096 * frame + 8 * index
                    self.used.append(place)
                    self.line("W", place, self.entry(frames if self.one_in(8) or not below else below, level, user))
        return frames

    def address(self):
        va = 0
        for level in range(LEVELS):
            va = va << WIDTH | self.rng.choice(self.INDICES)
        va = va << OFFSET | self.rng.randrange(4096)
        if va >> 38:
            va |= 2**64 - 2**39
        if self.one_in(12):
            va ^= 1 << self.rng.randrange(38, 64)
        return va

    def mode(self, user):
        return self.rng.choice((0, 0, 0, 0, 1, 3) if user else (1, 1, 1, 1, 0, 3))

    def walks(self, count):
        self.line("p", *SCHEME)
        while count > 0:
            user = self.one_in(2)
            frames = self.tables(user, False)
            self.line("m", self.rng.choice((RAM, RAM, RAM, RAM, RAM, RAM - 4, 0x8004, 0x9000)))
            self.line("R", frames[0])
            for _ in range(self.rng.randrange(10, 60)):
                other = self.one_in(20)
                if other:
                    self.line("R", self.rng.choice((self.rng.choice(frames), self.rng.randrange(2**44))))
                self.line("A", self.address(), self.rng.randrange(3), self.mode(user), self.rng.choice(self.used))
                count -= 1
                if other:
                    self.line("R", frames[0])

    def satp(self, frames):
        rng = self.rng
        mode = rng.choice((SV39,) * 12 + (BARE, rng.choice((1, 7, 9, 10, 15))))
        root = frames[0] if not self.one_in(8) else rng.choice((rng.choice(frames), rng.randrange(2**44)))
        self.line("S", mode << 60 | rng.choice((0x1234, 0x1234, 0xFFFE, 0x0034)) << 44 | root)

    def calls(self, count):
        while count > 0:
            rng, user = self.rng, self.one_in(2)
            frames = self.tables(user, not self.one_in(4))
            self.line("n", rng.choice((1, 2, 4, 8, 16, 32, 33, 128)), rng.choice((0, 1, 2, 3, 4)), rng.randrange(6))
            self.line("p", *SCHEME)
            self.satp(frames)
            self.line("e", rng.choice((5, 5, 5, 7, 7, 7, 1)))
            pages = [self.address() for _ in range(rng.randrange(2, 12))]
            for _ in range(rng.randrange(20, 90)):
                what = rng.randrange(40)
                if what <= 1:
                    self.satp(frames)
                elif what == 2 and self.one_in(2):
                    self.line("f")
                elif what == 2:
                    self.line("V", rng.choice(pages))
                elif what == 3:
                    self.line("e", rng.choice((5, 5, 7, 7, 7, 7, 0, 1, 4)))
                elif what == 4:
                    self.line("i", rng.randrange(8))
                elif what == 5 and self.one_in(4):
                    self.line("r", rng.choice((2, 4, 16)), rng.choice((1, 2, 4)), rng.randrange(6))
                elif what == 6:
                    self.line("W", rng.choice(self.used), self.entry(frames, 2, user))
                else:
                    page = rng.choice(pages) if not self.one_in(6) else self.address()
                    self.line("A", page & ~4095 | rng.randrange(4096), rng.choice((0, 1, 1, 1, 2)), self.mode(user))
                    count -= 1
            for slot in range(3):
                self.line("i", slot)
            self.line("c")

    def text(self):
        return "".join(f"{line:<79}\n" for line in self.lines)


PROGRAMS = {"walk": (Walks, Draw.walks), "mmu": (Calls, Draw.calls)}


def main(words):
    match words:
        case ["answers", program, *rest] if program in PROGRAMS and rest in ([], ["exports"]):
            sys.stdout.write(answers(sys.stdin.read(), PROGRAMS[program][0](bool(rest))))
        case ["draw", program, count, seed] if program in PROGRAMS:
            drawn = Draw(int(seed))
            PROGRAMS[program][1](drawn, int(count))
            sys.stdout.write(drawn.text())
        case _:
            sys.exit(__doc__)


if __name__ == "__main__":
    main(sys.argv[1:])
