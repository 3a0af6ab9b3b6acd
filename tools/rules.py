#!/usr/bin/env python3
"""The second list of stored bundles: the absolute rule and the refusals, which the bought Rust has no answers for.

    rules.py bundles                     the cases as a stream, each bundle after its length as a little-endian u32
    rules.py answers                     the lines that the trace program owes for them
    rules.py compare STREAM ANSWERS      holds model.py to a stream and answers made elsewhere, as by the oracle

The cases stand in cases/*.txt. A line at the margin begins one: what it gives, a colon, and why. `refused N` is the whole
answer; `runs` has the answer of each access behind its '#', and below them the tallies. All were worked out by hand.
The indented lines are the text that bundle.py takes, and

    no map | no accesses             leaves the base's away
    times N ACCESS                   the access N times; only the first has its answer written
    drop POSITION N                  takes N bytes of the finished file away, both hexadecimal
    insert POSITION BYTES            puts bytes in before a position

What a case does not say is as in BASE, or as in the last `base` before it in its file. model.py works every answer out
again, and it is an error if the two differ.
"""
import glob
import os
import re
import struct
import sys

sys.dont_write_bytecode = True  # the tree stays as it is checked out
import bundle
import model

HERE = os.path.dirname(os.path.abspath(__file__))
BASE = {
    "scheme": "scheme 30 1 1",
    "tlb": "tlb entries 32 ways 4 policy lru hit 1 miss 20",
    "switches": "switches enabled force tlb",
    "satp": "satp 80000000",
    "map": "map absolute identity flags rwxu root 0 window 0 0",
    "ram": "ram 8 zeros",
}
ACCESS = "load U 40000000"
TALLIES = r"hits \d+ misses \d+ faults \d+ evictions \d+"


class Case:
    def __init__(self, place, head, base):
        self.place, (self.gives, self.why) = place, head.split(": ", 1)
        self.texts, self.accesses, self.patches, self.edits = dict(base), [ACCESS], [], []
        self.own_accesses, self.hand = False, []

    def add(self, line):
        """Takes one indented line."""
        text, _, note = (part.strip() for part in line.partition("#"))
        name, *rest = text.split() or [""]
        if re.match(TALLIES, note):
            self.hand.append(note)
        elif text == "no map":
            del self.texts["map"]
        elif text == "no accesses":
            self.accesses = []
        elif name in BASE:
            self.texts[name] = text
        elif name in ("word", "byte"):
            self.patches.append(text)
        elif name in ("drop", "insert"):
            self.edits.append((name, *rest))
        elif text:
            self.access(text, note)

    def access(self, text, note):
        if not self.own_accesses:
            self.own_accesses, self.accesses = True, []
        times, text = re.fullmatch(r"(?:times (\d+) )?(.*)", text).groups()
        self.accesses += [text] * int(times or 1)
        self.hand.append(note.split(":")[0])
        self.hand += [None] * (int(times or 1) - 1)

    def bytes(self):
        data = bundle.make([*self.texts.values(), *self.patches, *self.accesses], HERE)
        for name, position, what in self.edits:
            at = int(position, 16)
            if name == "drop":
                data = data[:at] + data[at + int(what, 16):]
            else:
                data = data[:at] + bytes.fromhex(what) + data[at:]
        return data

    def answer(self):
        """The model's lines, once they are seen to be those worked out by hand."""
        lines = model.lines_of(self.bytes())
        hand = self.hand if self.gives == "runs" else [self.gives]
        if len(hand) != len(lines) or any(h is not None and not agrees(line, h) for line, h in zip(lines, hand)):
            sys.exit(f"{self.place}: {self.why}: by hand {hand}, by the model {lines}")
        return lines


def agrees(line, hand):
    """An access's line begins with its address, which the answer by hand leaves out; a flush has none by hand."""
    return hand == "" if line.startswith("flush") else hand in (line, line.partition(" ")[2])


def cases():
    found = []
    for name in sorted(glob.glob(os.path.join(HERE, "cases", "*.txt"))):
        base = BASE
        with open(name, encoding="utf-8") as lines:
            for number, line in enumerate(lines, 1):
                if line[0] == " ":
                    case.add(line)
                elif line[0] not in "#\n":
                    case = Case(f"{os.path.basename(name)}:{number}", line.strip(), BASE if line.startswith("base") else base)
                    if case.gives == "base":
                        base = case.texts
                    else:
                        found.append(case)
    return found


def bundles_in(stream):
    at = 0
    while at < len(stream):
        length = struct.unpack_from("<I", stream, at)[0]
        yield stream[at + 4:at + 4 + length]
        at += 4 + length


def compare(stream, answers):
    lines, at = answers.decode().splitlines(), 0
    for number, data in enumerate(bundles_in(stream), 1):
        ours = model.lines_of(data)
        if lines[at:at + len(ours)] != ours:
            sys.exit(f"bundle {number}: the model gives {ours}")
        at += len(ours)
    if at != len(lines):
        sys.exit(f"{len(lines) - at} lines too many")
    print(f"{number} bundles, no difference")


def main(args):
    if args == ["bundles"]:
        for case in cases():
            data = case.bytes()
            sys.stdout.buffer.write(struct.pack("<I", len(data)) + data)
    elif args == ["answers"]:
        for case in cases():
            sys.stdout.write("".join(line + "\n" for line in case.answer()))
    elif len(args) == 3 and args[0] == "compare":
        stream, answers = (open(name, "rb").read() for name in args[1:])
        compare(stream, answers)
    else:
        sys.exit(__doc__)


if __name__ == "__main__":
    main(sys.argv[1:])
