//! A state as its image: 3,416 bytes, little-endian, laid out as examples/muntesulca.h says. Which images are whole and
//! which are fit is decided here by document 01, in code of its own.

use oracle::bundle::{config_at, u16_at, u32_at};
use oracle::rules::{Scheme, tlb_entries};
use oracle::{Entry, Oracle, State};

pub const BYTES: usize = 3416;
pub const SWITCHES: usize = 6;
pub const SCHEME: usize = 8;
pub const SATP: usize = 16;
pub const COUNTER: usize = 24;
pub const COUNT: usize = 28;
pub const SETS: usize = 36;
pub const CLASS_COUNT: usize = 44;
pub const TALLIES: usize = 52;
pub const CLASSES: usize = 84;
pub const HANDS: usize = 88;
pub const ENTRIES: usize = 216;
/// Bytes of one entry, and its PPN, its age, its ASID, its class, its flags and its reference bit among them. VPN and
/// PPN have eight bytes; the bought Rust has numbers for their low halves, and the high ones are 0 here.
pub const ENTRY: usize = 25;
pub const PPN: usize = 8;
pub const AGE: usize = 16;
pub const ASID: usize = 20;
pub const CLASS: usize = 22;
pub const FLAGS: usize = 23;
pub const REFERENCE: usize = 24;

/// Where an entry's bytes begin.
pub fn entry(i: usize) -> usize {
    ENTRIES + ENTRY * i
}

pub fn u64_at(b: &[u8], at: usize) -> u64 {
    u64::from_le_bytes(b[at..at + 8].try_into().unwrap())
}

pub fn put(b: &mut [u8], at: usize, bytes: &[u8]) {
    b[at..at + bytes.len()].copy_from_slice(bytes);
}

/// A state in which nothing has happened. The geometry must have 128 entries or fewer.
pub fn fresh(config: &[u8], switches: u8, scheme: &Scheme, satp: u32) -> Vec<u8> {
    let mut b = vec![0; BYTES];
    put(&mut b, 0, config);
    b[SWITCHES] = switches;
    put(&mut b, SATP, &satp.to_le_bytes());
    put_scheme(&mut b, &scheme.bytes());
    let c = config_at(config, 0);
    let (count, ways) = (tlb_entries(c) as u64, c.ways.max(1) as u64);
    put(&mut b, COUNT, &count.to_le_bytes());
    put(&mut b, SETS, &(count / ways).to_le_bytes());
    b
}

/// What a valid scheme's six bytes change.
pub fn put_scheme(b: &mut [u8], bytes: &[u8]) {
    let scheme = Scheme::valid(bytes).unwrap();
    let mut classes = scheme.classes();
    put(b, SCHEME, bytes);
    b[14] = scheme.offset;
    put(b, CLASS_COUNT, &(classes.len() as u64).to_le_bytes());
    classes.resize(4, 0);
    put(b, CLASSES, &classes);
}

/// Whether the bytes are an image at all: refusal 8.
pub fn whole(b: &[u8]) -> bool {
    b.len() == BYTES
        && b[3] <= 5
        && b[SWITCHES] <= 7
        && b[7] == 0
        && b[15] == 0
        && (0..128).all(|i| b[entry(i) + REFERENCE] <= 1)
}

/// Whether a whole image holds a fit state: refusal 3.
pub fn fit(b: &[u8]) -> bool {
    let Some(scheme) = Scheme::valid(&b[SCHEME..SCHEME + 6]) else { return false };
    let config = config_at(b, 0);
    let count = tlb_entries(config) as usize;
    let (classes, levels) = (scheme.classes(), scheme.widths.len());
    count <= 128
        && u64_at(b, COUNT) == count as u64
        && u64_at(b, SETS) == count as u64 / config.ways.max(1) as u64
        && b[14] == scheme.offset
        && u64_at(b, CLASS_COUNT) == levels as u64
        && b[CLASSES..CLASSES + levels] == classes
        && (0..count).all(|i| b[entry(i) + CLASS] <= 19)
}

/// What a call on these bytes is refused with before it is looked at itself.
pub fn refusal(b: &[u8]) -> Option<u32> {
    if !whole(b) { Some(8) } else { (!fit(b)).then_some(3) }
}

fn entry_of(b: &[u8]) -> Entry {
    let flag = |i: u8| b[FLAGS] >> i & 1 == 1;
    Entry {
        valid: flag(0),
        vpn: u32_at(b, 0),
        ppn: u32_at(b, PPN),
        asid: u16_at(b, ASID),
        perms: [flag(1), flag(2), flag(3), flag(4)],
        global: flag(5),
        accessed: flag(6),
        dirty: flag(7),
        class: b[CLASS],
        age: u32_at(b, AGE),
        ref_bit: b[REFERENCE] == 1,
    }
}

fn put_entry(b: &mut [u8], e: &Entry) {
    let [r, w, x, u] = e.perms;
    let flags = [e.valid, r, w, x, u, e.global, e.accessed, e.dirty];
    put(b, 0, &e.vpn.to_le_bytes());
    put(b, PPN, &e.ppn.to_le_bytes());
    put(b, AGE, &e.age.to_le_bytes());
    put(b, ASID, &e.asid.to_le_bytes());
    b[CLASS] = e.class;
    b[FLAGS] = (0..8).map(|i| (flags[i] as u8) << i).sum();
    b[REFERENCE] = e.ref_bit as u8;
}

/// The bought Rust in the state of a fit image.
pub fn oracle(b: &[u8], ram: &[u8]) -> Oracle {
    let scheme = Scheme::valid(&b[SCHEME..SCHEME + 6]).unwrap();
    let mut o = Oracle::new(config_at(b, 0), ram);
    o.set_scheme(scheme.offset, &scheme.widths);
    o.set_switches(b[SWITCHES]);
    o.set_satp(u32_at(b, SATP));
    let (count, sets) = (u64_at(b, COUNT) as usize, u64_at(b, SETS) as usize);
    let tally = |k: usize| u64_at(b, TALLIES + 8 * k);
    o.set_state(&State {
        entries: (0..count).map(|i| entry_of(&b[entry(i)..entry(i + 1)])).collect(),
        clock_hands: b[HANDS..HANDS + sets].iter().map(|&h| h as usize).collect(),
        age_counter: u32_at(b, COUNTER),
        tallies: [tally(0), tally(1), tally(3), tally(2)],
        offset: scheme.offset,
        classes: scheme.classes(),
    });
    o
}

/// Puts all that the bought Rust's cache holds into an image; what it does not have stays.
pub fn put_state(b: &mut [u8], s: &State) {
    let [hits, misses, faults, evictions] = s.tallies;
    put(b, COUNTER, &s.age_counter.to_le_bytes());
    put(b, COUNT, &(s.entries.len() as u64).to_le_bytes());
    put(b, SETS, &(s.clock_hands.len() as u64).to_le_bytes());
    put(b, CLASS_COUNT, &(s.classes.len() as u64).to_le_bytes());
    for (k, tally) in [hits, misses, evictions, faults].iter().enumerate() {
        put(b, TALLIES + 8 * k, &tally.to_le_bytes());
    }
    b[14] = s.offset;
    put(b, CLASSES, &s.classes);
    for (i, &hand) in s.clock_hands.iter().enumerate() {
        b[HANDS + i] = hand.try_into().unwrap();
    }
    for (i, e) in s.entries.iter().enumerate() {
        put_entry(&mut b[entry(i)..entry(i + 1)], e);
    }
}

/// The name of the field that a byte lies in.
pub fn field(at: usize) -> String {
    let names = [
        (0, "entries"),
        (2, "ways"),
        (3, "policy"),
        (4, "hit latency"),
        (5, "miss penalty"),
        (6, "switches"),
        (7, "the first zero"),
        (8, "scheme"),
        (14, "the TLB's offset"),
        (15, "the second zero"),
        (16, "satp"),
        (24, "age counter"),
        (28, "count"),
        (36, "sets"),
        (44, "count of classes"),
        (52, "hits"),
        (60, "misses"),
        (68, "evictions"),
        (76, "page faults"),
        (84, "classes"),
    ];
    if at >= ENTRIES {
        let parts = [(0, "vpn"), (8, "ppn"), (16, "age"), (20, "asid"), (22, "class"), (23, "flags"), (24, "reference bit")];
        let (i, rest) = ((at - ENTRIES) / ENTRY, (at - ENTRIES) % ENTRY);
        return format!("entry {i}: {}", parts.iter().rfind(|p| p.0 <= rest).unwrap().1);
    }
    if at >= HANDS {
        return format!("hand {}", at - HANDS);
    }
    names.iter().rfind(|n| n.0 <= at).unwrap().1.to_string()
}
