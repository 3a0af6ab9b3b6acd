//! Draws the bundles that the bought Rust is compared on. None of them is refused and none uses the absolute rule,
//! so each can be compared.

use crate::bundle::{Parts, Settings};
use crate::rules::Scheme;

/// Entries and ways. All give 128 entries or fewer; 32 and 3 give 33, 0 and 0 give 1.
const GEOMETRIES: [(u16, u8); 13] = [
    (32, 3),
    (0, 0),
    (2, 2),
    (128, 128),
    (4, 2),
    (3, 3),
    (32, 4),
    (4, 4),
    (8, 2),
    (0, 5),
    (128, 4),
    (2, 1),
    (65, 0),
];

/// xorshift64*: small, and the same everywhere.
pub struct Rng(pub u64);

impl Rng {
    pub fn next(&mut self) -> u32 {
        self.0 ^= self.0 >> 12;
        self.0 ^= self.0 << 25;
        self.0 ^= self.0 >> 27;
        (self.0.wrapping_mul(0x2545_F491_4F6C_DD1D) >> 32) as u32
    }
    pub fn below(&mut self, n: u32) -> u32 {
        self.next() % n
    }
    pub fn one_in(&mut self, n: u32) -> bool {
        self.below(n) == 0
    }
    pub fn pick<T: Copy>(&mut self, from: &[T]) -> T {
        from[self.below(from.len() as u32) as usize]
    }
}

impl Scheme {
    /// Of `levels` levels; draws until the widths fill 32 bits.
    pub fn draw(rng: &mut Rng, levels: usize) -> Scheme {
        loop {
            let widths: Vec<u8> = (0..levels).map(|_| 1 + rng.below(12) as u8).collect();
            let sum: u8 = widths.iter().sum();
            if (2..=20).contains(&sum) {
                return Scheme { offset: 32 - sum, widths };
            }
        }
    }
}

fn settings(rng: &mut Rng, k: usize, scheme: Scheme, table: u32) -> Settings {
    let (entries, ways) = GEOMETRIES[k / 6 % GEOMETRIES.len()];
    // a PPN's two highest bits fall out of the 32-bit address
    let ppn = table >> 12 | if rng.one_in(4) { rng.below(4) << 20 } else { 0 };
    let bare = rng.one_in(30);
    Settings {
        scheme,
        entries,
        ways,
        policy: (k % 6) as u8,
        latencies: [rng.below(4) as u8, rng.pick(&[20, 0, 255, 7])],
        switches: if rng.one_in(6) { rng.below(8) as u8 } else { rng.pick(&[7, 5]) },
        satp: (!bare as u32) << 31 | rng.below(512) << 22 | ppn,
    }
}

/// Meets every policy and every geometry with one to four levels.
pub fn levels(k: usize) -> usize {
    1 + (k + k / 6) % 4
}

pub fn access(va: u32, access: u8, privilege: u8, operation: u8) -> [u8; 8] {
    let a = va.to_le_bytes();
    [a[0], a[1], a[2], a[3], access, privilege, operation, 0]
}

/// Comes back to a few pages, so that there are hits; `near` is where the pages lie.
pub fn accesses(rng: &mut Rng, count: u32, user: bool, mut near: impl FnMut(&mut Rng) -> u32) -> Vec<u8> {
    let pages: Vec<u32> = (0..4 + rng.below(12)).map(|_| near(rng)).collect();
    // mostly the mode the leaves are for
    let modes = if user { [0, 0, 0, 0, 0, 0, 1, 3] } else { [1, 1, 1, 1, 1, 1, 0, 3] };
    let mut out = Vec::new();
    for _ in 0..count {
        let va = if rng.one_in(12) { near(rng) } else { rng.pick(&pages) ^ rng.below(4096) };
        out.extend(match rng.below(24) {
            0 => access(0, 0, 0, 1),
            1 => access(va, 0, 0, 2),
            _ => access(va, rng.pick(&[0, 1, 1, 2, 2]), rng.pick(&modes), 0),
        });
    }
    out
}

/// The body of a map of the relative rule.
pub fn map_body(mib: i32, flags: u8, root: u32, (start, end): (u32, u32)) -> Vec<u8> {
    let mut map = vec![0, 1, flags, 0];
    for word in [mib as u32, root, start, end] {
        map.extend(word.to_le_bytes());
    }
    map
}

/// A window: now and then empty, else up to two entries of the last level but one.
pub fn window(rng: &mut Rng, scheme: &Scheme) -> (u32, u32) {
    let shift = scheme.shift(scheme.widths.len().saturating_sub(2));
    let start = match rng.below(3) {
        0 => 0,
        1 => rng.below(4) << shift,
        _ => rng.next(),
    };
    let most = 2 << shift.min(29);
    let end = match rng.below(8) {
        0 => start,
        1 => rng.below(start.saturating_add(1)),
        _ => start.saturating_add(rng.below(1 + most)),
    };
    (start, end)
}

/// A map by the relative rule, most with a window, many with no byte to spare; None where it would be big.
pub fn installed_in(rng: &mut Rng, k: usize, scheme: &Scheme) -> Option<Parts> {
    let (start, end) = window(rng, scheme);
    let children = scheme.child_bytes(false, (start, end));
    let spare = rng.pick(&[0, 0, 4096]);
    let length = children + (spare + scheme.top_bytes()) as u64;
    // keeps the list short; the big ones are seldom
    if length > 32_768 || (length > 12_288 && !rng.one_in(8)) {
        return None;
    }
    let root = children as u32 + spare;
    let mib = rng.pick(&[0, -1, 1, 4, 4096, i32::MIN, i32::MAX, -1000]);
    let flags = rng.pick(&[0x1E, 0x1E, 0x1E, 0x0E, 0x3E, 0x12, 0x18, 0x36]);
    let accesses = accesses(rng, 50, flags & 0x10 != 0, |rng| match rng.below(3) {
        0 => rng.next(),
        1 => start.wrapping_add(rng.below(1 << 14)),
        _ => end.wrapping_sub(rng.below(1 << 14)),
    });
    let settings = settings(rng, k, scheme.clone(), root);
    Some(Parts { settings, map: map_body(mib, flags, root, (start, end)), ram: vec![0; length as usize], accesses })
}

pub fn installed(rng: &mut Rng, k: usize) -> Parts {
    loop {
        let scheme = Scheme::draw(rng, levels(k));
        if let Some(parts) = installed_in(rng, k, &scheme) {
            return parts;
        }
    }
}

/// One word of a table: mostly good pointers and leaves, and each kind of fault.
pub fn pte(rng: &mut Rng, s: &Scheme, user: bool, frames: u32) -> u32 {
    let kind = rng.below(30);
    let frame = rng.below(frames) | if rng.one_in(6) { rng.below(4) << 20 } else { 0 };
    // aligned for a leaf at this level and all below it
    let shift = s.shift(if rng.one_in(3) { rng.below(s.widths.len() as u32) as usize } else { 0 });
    let aligned = rng.next() << (shift - 12) & 0x3F_FFFF;
    let mode = if user { 0x10 } else { 0 };
    let marks = rng.pick(&[0, 0, 0x40, 0xC0, 0x20]);
    match kind {
        0 => rng.next() & !1,                                // not valid
        1 => aligned << 10 | rng.pick(&[0x5, 0xD, 0x15]),    // W without R
        2 => rng.next() << 10 | 0xF | mode,                  // most often not aligned
        3 => aligned << 10 | rng.pick(&[0x3, 0x9]) | mode,   // a right is missing
        4 => aligned << 10 | 0xF | (mode ^ 0x10),            // the other mode's page
        5 => rng.below(1 << 22) << 10 | 1,                   // a table outside RAM
        6..=13 => frame << 10 | 1 | rng.pick(&[0, 0, 0x20, 0xD0]), // a table
        _ => aligned << 10 | 0xF | mode | marks,
    }
}

/// RAM of some frames of tables, written word by word: all levels share them, so each word is met at several.
pub fn table_words(rng: &mut Rng, scheme: &Scheme, user: bool, length: u32, frames: u32) -> Vec<u8> {
    let mut ram = Vec::new();
    while ram.len() < length as usize {
        ram.extend(pte(rng, scheme, user, frames).to_le_bytes());
    }
    ram.truncate(length as usize);
    ram
}

/// An address that leads to words at the start, at the end of RAM's first or second frame, or anywhere.
pub fn table_address(rng: &mut Rng, scheme: &Scheme, length: u32) -> u32 {
    let mut va = rng.next() & ((1 << scheme.offset) - 1);
    for (level, &width) in scheme.widths.iter().enumerate() {
        let index = match rng.below(12) {
            0 => length / 4 + rng.below(3) - 1,
            1 => (length % 4096) / 4 + rng.below(3),
            2 => rng.next(),
            _ => rng.below(8),
        };
        va |= (index & ((1 << width) - 1)) << scheme.shift(level);
    }
    va
}

/// Tables written word by word, in one frame or two.
pub fn tables_in(rng: &mut Rng, k: usize, scheme: &Scheme) -> Parts {
    let user = !rng.one_in(3);
    // the last word may be cut off after any of its bytes
    let length = rng.pick(&[64, 1024, 4096, 4096, 4096, 4096 + 2, 4096 + 256, 4096 + 512]) + rng.below(8);
    let frames = 1 + (length > 4200) as u32;
    let ram = table_words(rng, scheme, user, length, frames);
    let table = match rng.below(12) {
        0 => 0xFFFF_F000, // a table over the end of the addresses goes on at 0
        1 => 0x1000, // in a short RAM a table outside it
        _ => rng.below(frames) << 12,
    };
    let accesses = accesses(rng, 60, user, |rng| table_address(rng, scheme, length));
    Parts { settings: settings(rng, k, scheme.clone(), table), map: vec![], ram, accesses }
}

pub fn tables(rng: &mut Rng, k: usize) -> Parts {
    let scheme = Scheme::draw(rng, levels(k));
    tables_in(rng, k, &scheme)
}

/// Many pages of both sizes of Sv32 in a cache of several sets, so that it evicts. The root is its own only child:
/// its odd words point to itself, its even words are leaves, at either level. `k` is below 12.
pub fn busy(rng: &mut Rng, k: usize) -> Parts {
    let word = |i: u32| if i % 2 == 1 { 1 } else { i << 20 | 0x1F };
    let ram: Vec<u8> = (0..1024).flat_map(|i| word(i).to_le_bytes()).collect();
    let mut set = settings(rng, k, Scheme::sv32(), 0);
    (set.entries, set.ways) = [(32, 3), (128, 4)][k / 6];
    (set.switches, set.satp) = (7, 0x8000_0000);
    let places = set.entries as u32 * 3 / 2;
    let mut body = Vec::new();
    for _ in 0..500 {
        // big pages at even places, small ones at odd; the first come again more often
        let (near, far) = (rng.below(places / 3), rng.below(places));
        let i = rng.pick(&[near, far]);
        let va = i << 22 | (rng.below(2) * (i % 2)) << 13 | rng.below(4096);
        body.extend(match rng.below(100) {
            0 => access(0, 0, 0, 1),
            1..5 => access(va, 0, 0, 2),
            _ => access(va, rng.pick(&[0, 1, 1, 2]), 0, 0),
        });
    }
    Parts { settings: set, map: vec![], ram, accesses: body }
}

/// Document 01's edges, and the smallest bundles.
pub fn edges(rng: &mut Rng) -> Vec<Parts> {
    let plain = |scheme, satp| Settings {
        scheme,
        entries: 32,
        ways: 4,
        policy: 0,
        latencies: [1, 20],
        switches: 7,
        satp,
    };
    let leaf = |ppn: u32| (ppn << 10 | 0x1F).to_le_bytes();
    let load = |va| access(va, 1, 0, 0);
    // index 1024 of a table at FFFFF000 is the word at 0
    let wrap = plain(Scheme { offset: 12, widths: vec![12, 8] }, 0x803F_FFFF);
    let wrap_ram = [leaf(0), leaf(0x100)].concat();
    let wrap_loads = [load(0x4000_0000), load(0x4010_0000), load(0x4020_0000), load(0)].concat();
    // the same one level down: the root's word 0 points to FFFFF000
    let wrap_below = plain(Scheme { offset: 12, widths: vec![8, 12] }, 0x8000_0000);
    let below_ram = [0xFFFF_FC01u32.to_le_bytes(), leaf(0x123), leaf(0x456)].concat();
    let below_loads = [load(0x40_1000), load(0x40_2000), load(0x40_0000), load(0x3F_F000)].concat();
    // the word at 4096 has only two of its bytes, the one before it all four
    let mut cut = vec![0; 4098];
    cut[4092..4096].copy_from_slice(&leaf(0x400));
    cut[4096] = 0x1F;
    let cut_loads = [load(0), load(0xFFC0_0000)].concat();
    let end = plain(Scheme::sv32(), 0x8000_0000);
    // many pages, so that the largest cache evicts too
    let mut many = plain(Scheme { offset: 20, widths: vec![12] }, 0x8000_0000);
    (many.entries, many.ways, many.policy) = (128, 128, 4);
    let many_ram: Vec<u8> = (0..1024).flat_map(|i| leaf(i << 8)).collect();
    let many_loads: Vec<u8> = (0..600).flat_map(|_| load(rng.below(200) << 20 | 4)).collect();
    let parts = |settings: &Settings, ram: &[u8], accesses: &[u8]| Parts {
        settings: settings.clone(),
        map: vec![],
        ram: ram.to_vec(),
        accesses: accesses.to_vec(),
    };
    vec![
        parts(&wrap, &wrap_ram, &wrap_loads),
        parts(&wrap_below, &below_ram, &below_loads),
        parts(&plain(Scheme::sv32(), 0x8000_0001), &cut, &cut_loads),
        parts(&end, &cut, &cut_loads),
        parts(&end, &[], &[]),
        parts(&many, &many_ram, &many_loads),
    ]
}
