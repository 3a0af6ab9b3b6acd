//! The lists that are timed: a cache, its page tables, and 3,000 loads that do as the list's name says.

use against::{image, ours};
use oracle::bundle::{config_at, written};
use oracle::draw::{access, map_body};
use oracle::rules::Scheme;

pub const COUNT: usize = 3_000;
const SATP: u32 = 0x8000_0000;

pub struct List {
    pub name: &'static str,
    /// Whether every load hits once each page was asked for, or none does.
    pub hits: bool,
    pub image: Vec<u8>,
    pub ram: Vec<u8>,
    pub records: Vec<u8>,
    /// The same as a bundle, from an empty cache.
    pub bundle: Vec<u8>,
}

/// What a list is made from: entries, ways and policy; a scheme and the window of its small pages; the pages asked for
/// in turn, as the first address and the distance of the next.
struct Plan {
    name: &'static str,
    hits: bool,
    cache: (u16, u8, u8),
    widths: &'static [u8],
    window: u32,
    pages: (u32, u32, u32),
}

const LRU: u8 = 0;
const CLOCK: u8 = 4;
const SV32: &[u8] = &[10, 10];
const FOUR: &[u8] = &[5, 5, 5, 5];

/// A miss in every access: twice as many pages as entries, in turn, which no set can hold.
const PLANS: [Plan; 8] = [
    plan("hits, 4 KiB pages", true, (32, 4, LRU), SV32, 0x40_0000, (0, 0x1000, 16)),
    plan("hits, 4 MiB pages", true, (32, 4, LRU), SV32, 0, (0, 0x40_0000, 16)),
    plan("hits, one set of 128 ways", true, (128, 128, LRU), SV32, 0x40_0000, (0, 0x1000, 128)),
    plan("hits, four levels", true, (32, 4, LRU), FOUR, 0x2_0000, (0, 0x1000, 16)),
    plan("misses, Lru", false, (32, 4, LRU), SV32, 0x40_0000, (0, 0x1000, 64)),
    plan("misses, Clock", false, (32, 4, CLOCK), SV32, 0x40_0000, (0, 0x1000, 64)),
    plan("misses, one set of 128 ways, Lru", false, (128, 128, LRU), SV32, 0x40_0000, (0, 0x1000, 256)),
    plan("misses, four levels, Lru", false, (16, 4, LRU), FOUR, 0x2_0000, (0, 0x1000, 32)),
];

const fn plan(
    name: &'static str,
    hits: bool,
    cache: (u16, u8, u8),
    widths: &'static [u8],
    window: u32,
    pages: (u32, u32, u32),
) -> Plan {
    Plan { name, hits, cache, widths, window, pages }
}

fn made(p: &Plan) -> List {
    let scheme = Scheme { offset: 12, widths: p.widths.to_vec() };
    let root = scheme.child_bytes(false, (0, p.window)) as u32;
    let mut ram = vec![0; (root + scheme.top_bytes()) as usize];
    let map = map_body(0, 0x1E, root, (0, p.window));
    assert_eq!(ours::install(&scheme.bytes(), &map, &mut ram), 0);

    let (entries, ways, policy) = p.cache;
    let mut config = entries.to_le_bytes().to_vec();
    config.extend([ways, policy, 1, 20]);
    let satp = SATP | root >> 12;
    let image = image::fresh(&config, 7, &scheme, satp);

    let (first, distance, pages) = p.pages;
    let address = |k: usize| first + distance * (k as u32 % pages) + 4 * (k as u32 % 1024);
    let records: Vec<u8> = (0..COUNT).flat_map(|k| access(address(k), 1, 0, 0)).collect();
    let settings = [&scheme.bytes(), &config[..], &[7, 0, 0, 0], &satp.to_le_bytes()].concat();
    let bundle = written([&settings, &[], &ram, &records]);
    List { name: p.name, hits: p.hits, image, ram, records, bundle }
}

pub fn all() -> Vec<List> {
    PLANS.iter().map(made).collect()
}

impl List {
    /// The bought Rust at the list's start.
    pub fn oracle(&self) -> oracle::Oracle {
        image::oracle(&self.image, &self.ram)
    }

    /// Hits and misses that a second pass over the list adds.
    pub fn owed(&self) -> [u64; 2] {
        let all = COUNT as u64;
        if self.hits { [all, 0] } else { [0, all] }
    }

    pub fn about(&self) -> String {
        let c = config_at(&self.image, 0);
        let policy = ["Lru", "Mru", "Fifo", "Lfu", "Clock", "Random"][c.policy as usize];
        let levels = self.image[image::SCHEME + 1];
        format!("{} entries, {} ways, {policy}, {levels} levels", c.entries, c.ways)
    }
}
