//! Document 01's rules that the bought Rust does not have, in code of their own: which schemes are valid, how many
//! entries a cache has, what a map is refused with, and which bytes are records.

use crate::{Config, Map};

/// A page offset width and the index widths, top first.
#[derive(Clone, Debug, PartialEq, Eq)]
pub struct Scheme {
    pub offset: u8,
    pub widths: Vec<u8>,
}

impl Scheme {
    pub fn sv32() -> Scheme {
        Scheme { offset: 12, widths: vec![10, 10] }
    }

    /// The scheme of the six bytes offset, count, four widths, or None: refusal 1.
    pub fn valid(bytes: &[u8]) -> Option<Scheme> {
        let (offset, count) = (bytes[0], bytes[1]);
        if !(1..=4).contains(&count) || !(12..=30).contains(&offset) {
            return None;
        }
        let widths = bytes[2..2 + count as usize].to_vec();
        let sum: u32 = widths.iter().map(|&w| w as u32).sum();
        let good = widths.iter().all(|w| (1..=12).contains(w)) && offset as u32 + sum == 32;
        good.then_some(Scheme { offset, widths })
    }

    /// All 5,682 valid ones.
    pub fn all() -> Vec<Scheme> {
        let mut found = Vec::new();
        let mut heads: Vec<Vec<u8>> = vec![vec![]];
        for _ in 0..4 {
            let longer = |h: Vec<u8>| (1..=12).map(move |w| [&h[..], &[w]].concat());
            heads = heads.into_iter().flat_map(longer).collect();
            for widths in &heads {
                let sum: u8 = widths.iter().sum();
                if (2..=20).contains(&sum) {
                    found.push(Scheme { offset: 32 - sum, widths: widths.clone() });
                }
            }
        }
        found
    }

    /// Six bytes, the unused widths 0.
    pub fn bytes(&self) -> [u8; 6] {
        let mut b = [0; 6];
        (b[0], b[1]) = (self.offset, self.widths.len() as u8);
        b[2..2 + self.widths.len()].copy_from_slice(&self.widths);
        b
    }

    pub fn shift(&self, level: usize) -> u32 {
        self.offset as u32 + self.widths[level + 1..].iter().map(|&w| w as u32).sum::<u32>()
    }

    pub fn top_bytes(&self) -> u32 {
        4 << self.widths[0]
    }

    /// The page classes, ascending.
    pub fn classes(&self) -> Vec<u8> {
        (0..self.widths.len()).rev().map(|level| self.shift(level) as u8 - self.offset).collect()
    }

    /// Bytes of the child tables that a window opens, each rounded up to 4096. By the relative rule each table of a
    /// level opens the same entries; by the absolute rule they are the spans that the window meets.
    pub fn child_bytes(&self, absolute: bool, (start, end): (u32, u32)) -> u64 {
        if end <= start {
            return 0;
        }
        let (start, end) = (start as u64, end as u64);
        let (mut tables, mut bytes) = (1, 0);
        for level in 0..self.widths.len() - 1 {
            let span = 1u64 << self.shift(level);
            let met = |i: &u64| (i + 1) * span > start && i * span < end;
            let opened = (0..1u64 << self.widths[level]).filter(met).count() as u64;
            tables = if absolute { (end - 1) / span - start / span + 1 } else { tables * opened };
            bytes += tables * (4u64 << self.widths[level + 1]).next_multiple_of(4096);
        }
        bytes
    }

    /// Where a map of either rule is the same: one level, or a window that is empty or ends no higher than the span of
    /// one entry of the last level but one.
    pub fn rules_agree(&self, (start, end): (u32, u32)) -> bool {
        let levels = self.widths.len();
        levels == 1 || end <= start || end as u64 <= 1 << self.shift(levels - 2)
    }

    /// Refusals 4 to 7, in this order.
    pub fn map_refusal(&self, absolute: bool, map: &Map, ram: usize) -> Option<u8> {
        let top_end = map.root as u64 + self.top_bytes() as u64;
        let rights = map.flags & 0xE;
        let tests = [
            (4, map.root % 4096 != 0),
            (5, top_end > (ram as u64).min(1 << 32)),
            (6, rights == 0 || (rights & 4 != 0 && rights & 2 == 0)),
            (7, self.child_bytes(absolute, map.window) > map.root as u64),
        ];
        tests.iter().find(|t| t.1).map(|t| t.0)
    }
}

/// Refusal 2 is given above 128.
pub fn tlb_entries(c: Config) -> u32 {
    let ways = (c.ways as u32).max(1);
    let power = (c.entries as u32).max(1).next_power_of_two();
    power.max(ways).div_ceil(ways) * ways
}

/// Whole records of 8 bytes, at most 3,000, the fields that an operation does not use 0.
pub fn records_ok(records: &[u8]) -> bool {
    let good = |a: &[u8]| {
        let (access, privilege, operation) = (a[4], a[5], a[6]);
        let fields = match operation {
            0 => access <= 2 && matches!(privilege, 0 | 1 | 3),
            1 => a[..6] == [0; 6],
            2 => access == 0 && privilege == 0,
            _ => false,
        };
        fields && a[7] == 0
    };
    records.len() % 8 == 0 && records.len() <= 8 * 3_000 && records.chunks(8).all(good)
}
