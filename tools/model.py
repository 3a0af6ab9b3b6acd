"""The trace program by document 01, said as plainly as Python can: a file's bytes in, its output out.

It is a second reading of the document, made to work out answers that the bought Rust has none for. It shares nothing
with the crates and is slow. Comments quote the document. Where it is silent docs/DECISIONS.md 13 is followed.
"""
import struct

R, W, X, U, G, A, D = (1 << k for k in range(1, 8))
LRU, MRU, FIFO, LFU, CLOCK, RANDOM = range(6)
FETCH, LOAD, STORE = range(3)
NEEDS, CAUSES = (X, R, W), (12, 13, 15)
USER, SUPERVISOR, MACHINE = 0, 1, 3
MOST_RAM, MOST_ACCESSES, MOST_ENTRIES = 32768, 3000, 128


class Refused(Exception):
    """Its argument is the number."""


def refuse_if(test, number):
    if test:
        raise Refused(number)


# ---- the bundle: 8

def bodies_of(data):
    """The four bodies. 'kinds 1 to 4 in order; bodies follow at 52 without gaps, and the file ends with the last.'"""
    refuse_if(len(data) < 52, 8)
    refuse_if(struct.unpack_from("<HH", data) != (1, 4), 8)
    bodies, at = [], 52
    for kind in range(1, 5):
        length = struct.unpack_from("<I", data, 12 * kind)[0]
        refuse_if(struct.unpack_from("<II", data, 12 * kind - 8) != (kind, at), 8)
        bodies.append(data[at:at + length])
        at += length
    refuse_if(at != len(data), 8)
    return bodies


class Bundle:
    def __init__(self, data):
        settings, the_map, self.ram, accesses = bodies_of(data)
        refuse_if(len(settings) != 20 or len(the_map) not in (0, 20) or len(self.ram) > MOST_RAM, 8)
        refuse_if(len(accesses) % 8 or len(accesses) > 8 * MOST_ACCESSES, 8)
        (self.offset, self.count, *widths, self.entries, self.ways, self.policy, self.hit, self.miss,
         switches, zero, zeros, self.satp) = struct.unpack("<6BH6BHI", settings)
        # 'an unused width not 0 is 8; a count above 4 leaves none unused'
        refuse_if(any(widths[self.count:]), 8)
        refuse_if(self.policy > RANDOM or switches > 7 or zero or zeros, 8)
        self.widths = widths[:self.count]
        self.enabled, self.force, self.tlb_on = (bool(switches & bit) for bit in (1, 2, 4))
        self.map = Map(the_map) if the_map else None
        self.accesses = list(struct.iter_unpack("<I4B", accesses))
        refuse_if(not all(map(good_access, self.accesses)), 8)


class Map:
    def __init__(self, body):
        rule, kind, self.flags, zero, self.mib, self.root, self.start, self.end = struct.unpack("<4Bi3I", body)
        refuse_if(rule > 1 or kind > 1 or self.flags & ~(R | W | X | U | G) or zero, 8)
        refuse_if(kind == 0 and self.mib != 0, 8)
        self.absolute = rule == 1


def good_access(record):
    """'Unused fields are 0': a flush uses none, a flush of an address that alone."""
    address, access, privilege, operation, zero = record
    used = {0: access <= STORE and privilege in (USER, SUPERVISOR, MACHINE),
            1: (address, access, privilege) == (0, 0, 0),
            2: (access, privilege) == (0, 0)}
    return zero == 0 and used.get(operation, False)


# ---- schemes: 1

class Scheme:
    """'Valid: offset 12 to 30, each used width 1 to 12, all together 32.' The bundle stays with these; Sv39 is in sv39.py."""

    def __init__(self, offset, count, widths):
        refuse_if(not 1 <= count <= 4 or not 12 <= offset <= 30, 1)
        refuse_if(not all(1 <= width <= 12 for width in widths) or offset + sum(widths) != 32, 1)
        self.offset, self.widths, self.last = offset, widths, count - 1
        self.shifts = [offset + sum(widths[level + 1:]) for level in range(count)]
        self.classes = sorted(shift - offset for shift in self.shifts)

    def index(self, level, address):
        return address >> self.shifts[level] & (1 << self.widths[level]) - 1


# ---- the installer: 4, 5, 6, 7

class Tables:
    """The words that a map writes, by their addresses."""

    def __init__(self, scheme, m):
        self.scheme, self.map, self.words, self.free = scheme, m, {}, m.root
        self.fill(m.root, 0, 0)

    def fill(self, table, level, parent):
        span = 1 << self.scheme.shifts[level]
        for index in range(1 << self.scheme.widths[level]):
            # 'Relative, as bought: index << shift, and nothing of the parents. Absolute: the parent's base plus that.'
            base = index * span + (parent if self.map.absolute else 0)
            meets = self.map.start < self.map.end and base < self.map.end and self.map.start < base + span
            word = self.child(level + 1, base) if meets and level < self.scheme.last else self.leaf(base, span)
            self.words[table + 4 * index] = word

    def child(self, level, base):
        """'Children are taken downward from the root in the order met, depth first, each rounded up to 4096.'"""
        self.free -= -(-(4 << self.scheme.widths[level]) // 4096) * 4096
        refuse_if(self.free < 0, 7)
        table = self.free
        self.fill(table, level, base)
        return table // 4096 << 10 | 1

    def leaf(self, base, span):
        """'its base plus delta, cut down to the leaf's page size', the delta mod 2^32"""
        frame = (base + self.map.mib * 2**20) % 2**32 // span * span
        return frame // 4096 << 10 | self.map.flags | 1


def install(scheme, m, ram):
    refuse_if(m.root % 4096, 4)
    refuse_if(m.root + (4 << scheme.widths[0]) > min(len(ram), 2**32), 5)
    refuse_if(not m.flags & (R | W | X) or m.flags & W and not m.flags & R, 6)
    for address, word in Tables(scheme, m).words.items():
        struct.pack_into("<I", ram, address, word)


# ---- the walk

def permits(flags, access, mode):
    """'X, R or W as the access needs; U must be set in user mode, clear in supervisor mode'"""
    return bool(flags & NEEDS[access]) and (mode == MACHINE or bool(flags & U) == (mode == USER))


def send(ppn, bits, va):
    """'the frame, PPN times 4096 kept to 32 bits, with the low bits taken from the virtual address'"""
    low = 1 << bits
    return ppn * 4096 % 2**32 // low * low + va % low


def walk(scheme, satp, ram, va, access, mode):
    """The leaf's word and its level, with the marks made in RAM; None for a fault."""
    ppn = satp % 2**22
    for level, shift in enumerate(scheme.shifts):
        place = (ppn * 4096 + 4 * scheme.index(level, va)) % 2**32
        if place + 4 > len(ram):
            return None
        word = struct.unpack_from("<I", ram, place)[0]
        ppn = word >> 10
        if not word & 1 or word & W and not word & R:
            return None
        if word & (R | W | X):
            if ppn % (1 << shift - 12) or not permits(word, access, mode):
                return None
            struct.pack_into("<I", ram, place, word | A | (D if access == STORE else 0))
            return word, level
    return None


# ---- the TLB: 2

class Slot:
    valid = False
    age = hand_bit = 0

    def matches(self, vpn, asid):
        """'by its own class, and by ASID unless global'"""
        return self.valid and self.vpn >> self.size == vpn >> self.size and (self.flags & G or self.asid == asid)


class Tlb:
    def __init__(self, entries, ways, policy):
        self.ways, self.policy = max(ways, 1), policy
        power = 1
        while power < max(entries, 1):
            power *= 2
        count = -(-max(power, self.ways) // self.ways) * self.ways
        refuse_if(count > MOST_ENTRIES, 2)
        self.sets = [[Slot() for _ in range(self.ways)] for _ in range(count // self.ways)]
        self.hands = [0] * len(self.sets)
        self.counter = self.evictions = 0

    def number(self, vpn, size):
        """'A class-m entry lives in set (vpn >> m) mod sets.'"""
        return (vpn >> size) % len(self.sets)

    def probed(self, vpn, classes):
        """'each class's set once, in class order'"""
        numbers = []
        for size in classes:
            if self.number(vpn, size) not in numbers:
                numbers.append(self.number(vpn, size))
        return [slot for number in numbers for slot in self.sets[number]]

    def tick(self):
        self.counter = (self.counter + 1) % 2**32

    def probe(self, vpn, asid, classes):
        found = next((slot for slot in self.probed(vpn, classes) if slot.matches(vpn, asid)), None)
        if found:
            self.tick()
            if self.policy in (LRU, MRU, LFU):
                found.age = self.counter
            found.hand_bit |= self.policy == CLOCK
        return found

    def victim(self, number):
        slots = self.sets[number]
        ages = [slot.age for slot in slots]
        if self.policy == MRU:
            return max(range(self.ways), key=lambda way: (ages[way], way))
        if self.policy == RANDOM:
            return self.counter % self.ways
        if self.policy == CLOCK:
            way = self.hands[number] % self.ways
            while slots[way].hand_bit:
                slots[way].hand_bit = 0
                way = (way + 1) % self.ways
            self.hands[number] = (way + 1) % self.ways
            return way
        return ages.index(min(ages))

    def install(self, vpn, size, asid, word, dirty):
        vpn = vpn >> size << size
        number = self.number(vpn, size)
        ways = range(self.ways)
        way = next((w for w in ways if self.sets[number][w].matches(vpn, asid)), None)
        if way is None:
            way = next((w for w in ways if not self.sets[number][w].valid), None)
        if way is None:
            way = self.victim(number)
            self.evictions += 1
        self.tick()
        slot = self.sets[number][way] = Slot()
        slot.valid, slot.vpn, slot.size, slot.asid = True, vpn, size, asid
        slot.flags, slot.ppn, slot.dirty, slot.age = word % 1024, word >> 10, dirty, self.counter
        slot.hand_bit = int(self.policy == CLOCK)


# ---- translate

class Mmu:
    def __init__(self, b):
        self.scheme = Scheme(b.offset, b.count, b.widths)
        self.tlb = Tlb(b.entries, b.ways, b.policy)
        self.ram = bytearray(b.ram)
        if b.map:
            install(self.scheme, b.map, self.ram)
        self.b, self.hits, self.misses, self.faults = b, 0, 0, 0

    def translate(self, va, access, mode):
        """The address and the stall, or None for a fault."""
        b, scheme = self.b, self.scheme
        if not b.enabled or not b.satp >> 31 or mode == MACHINE and not b.force:
            return va, 0
        vpn, asid = va >> scheme.offset, b.satp >> 22 & 511
        found = self.tlb.probe(vpn, asid, scheme.classes) if b.tlb_on else None
        # 'a store on a non-dirty entry, which walks and counts as a miss'
        if found and (access != STORE or found.dirty):
            if not permits(found.flags, access, mode):
                self.faults += 1
                return None
            self.hits += 1
            return send(found.ppn, scheme.offset + found.size, va), b.hit
        self.misses += 1
        ended = walk(scheme, b.satp, self.ram, va, access, mode)
        if ended is None:
            self.faults += 1
            return None
        word, level = ended
        if b.tlb_on:
            # 'Installed dirty means only that this access was a store.'
            self.tlb.install(vpn, scheme.shifts[level] - scheme.offset, asid, word, access == STORE)
        return send(word >> 10, scheme.shifts[level], va), b.miss

    def flush(self, slots):
        for slot in slots:
            slot.valid = False

    def flush_vaddr(self, va):
        """'all matching entries in the probed sets, for every ASID'"""
        vpn = va >> self.scheme.offset
        self.flush(s for s in self.tlb.probed(vpn, self.scheme.classes) if s.valid and s.vpn >> s.size == vpn >> s.size)

    def line(self, va, access, mode, operation):
        if operation == 1:
            self.flush(slot for slots in self.tlb.sets for slot in slots)
            return "flush"
        if operation == 2:
            self.flush_vaddr(va)
            return f"flush {va:08x}"
        sent = self.translate(va, access, mode)
        return f"{va:08x} ok {sent[0]:08x} {sent[1]}" if sent else f"{va:08x} fault {CAUSES[access]}"


def lines_of(data):
    """The lines that a file gives. 'The program tests 8, 1, 2, then the installer's.'"""
    try:
        b = Bundle(data)
        m = Mmu(b)
    except Refused as number:
        return [f"refused {number}"]
    lines = [m.line(*record[:4]) for record in b.accesses]
    return lines + [f"hits {m.hits} misses {m.misses} faults {m.faults} evictions {m.tlb.evictions}"]
