//! Draws lists of library calls: any fit state, records, and changes between them; now and then something broken.

use crate::bundles::geometry;
use crate::lists::{List, Step};
use against::image;
use oracle::bundle::{config_at, u32_at};
use oracle::draw::{Rng, accesses, table_address, table_words};
use oracle::rules::{Scheme, tlb_entries};

/// Near its wrap, anywhere, or 0.
fn count(rng: &mut Rng) -> u64 {
    match rng.below(3) {
        0 => 0,
        1 => (rng.next() as u64) << 32 | rng.next() as u64,
        _ => u64::MAX - rng.below(20) as u64,
    }
}

fn satp(rng: &mut Rng, frames: u32) -> u32 {
    let asid = if rng.one_in(4) { rng.below(512) } else { rng.below(3) };
    let bits = if rng.one_in(20) { 0 } else { 1 };
    let ppn = if rng.one_in(12) { rng.next() & 0x3F_FFFF } else { rng.below(frames) };
    bits << 31 | asid << 22 | ppn
}

fn config(rng: &mut Rng) -> Vec<u8> {
    let (entries, ways) = geometry(rng);
    let mut c = entries.to_le_bytes().to_vec();
    c.extend([ways, rng.below(6) as u8, rng.next() as u8, rng.next() as u8]);
    c
}

fn scheme(rng: &mut Rng) -> Scheme {
    let levels = 1 + rng.below(4) as usize;
    Scheme::draw(rng, levels)
}

/// One entry's bytes: of a page that will be asked for, or of any.
fn entry(rng: &mut Rng, b: &[u8], near: Option<u32>, classes: &[u8]) -> [u8; image::ENTRY] {
    let mut e = [0; image::ENTRY];
    let class = if rng.one_in(4) { rng.below(20) as u8 } else { rng.pick(classes) };
    let vpn = near.map_or_else(|| rng.next(), |va| va >> b[image::SCHEME]);
    // a stored VPN has its class bits cleared, one that is handed in need not
    let vpn = if rng.one_in(4) { vpn } else { vpn >> class << class };
    let ppn = if rng.one_in(4) { rng.next() } else { rng.next() & 0x3F_FFFF };
    let counter = u32_at(b, image::COUNTER);
    let age = if rng.one_in(3) { rng.next() } else { counter.wrapping_sub(rng.below(40)) };
    let asid = if rng.one_in(4) { rng.next() as u16 } else { (u32_at(b, image::SATP) >> 22 & 0x1FF) as u16 };
    image::put(&mut e, 0, &vpn.to_le_bytes());
    image::put(&mut e, image::PPN, &ppn.to_le_bytes());
    image::put(&mut e, image::AGE, &age.to_le_bytes());
    image::put(&mut e, image::ASID, &asid.to_le_bytes());
    e[image::CLASS] = class;
    e[image::FLAGS] = rng.next() as u8 | if rng.one_in(4) { 0 } else { 1 };
    e[image::REFERENCE] = rng.below(2) as u8;
    e
}

/// Any fit state. `pages` are addresses that will be asked for; most of their entries stand in their own set.
fn state(rng: &mut Rng, scheme: &Scheme, satp: u32, pages: &[u32]) -> Vec<u8> {
    let config = config(rng);
    let mut b = image::fresh(&config, rng.pick(&[7, 7, 5, 5, 5, 7, 3, 4, 0]), scheme, satp);
    let counter = count(rng) as u32;
    image::put(&mut b, image::COUNTER, &counter.to_le_bytes());
    for k in 0..4 {
        let tally = count(rng);
        image::put(&mut b, image::TALLIES + 8 * k, &tally.to_le_bytes());
    }
    // satp's bits above 31 are not looked at
    if rng.one_in(6) {
        b[image::SATP + 4..image::SATP + 8].fill_with(|| rng.next() as u8);
    }
    // what no fit state is asked about
    let levels = scheme.widths.len();
    b[image::SCHEME + 2 + levels..image::SCHEME + 6].fill_with(|| rng.next() as u8);
    b[image::CLASSES + levels..image::HANDS].fill_with(|| rng.next() as u8);
    b[image::HANDS..image::ENTRIES].fill_with(|| rng.next() as u8);
    let classes = scheme.classes();
    let (count, ways) = (tlb_entries(config_at(&config, 0)), config[2].max(1) as u32);
    for i in 0..128 {
        if rng.one_in(4) {
            continue;
        }
        let e = entry(rng, &b, None, &classes);
        image::put(&mut b, image::entry(i), &e);
        if i as u32 >= count {
            b[image::entry(i) + image::CLASS] = rng.next() as u8;
        }
    }
    for &va in pages {
        let e = entry(rng, &b, Some(va), &classes);
        let set = (u32_at(&e, 0) >> e[image::CLASS]) % (count / ways);
        let i = if rng.one_in(6) { rng.below(count) } else { set * ways + rng.below(ways) };
        image::put(&mut b, image::entry(i as usize), &e);
    }
    b
}

/// A change between two stretches, refused now and then.
fn change(rng: &mut Rng, frames: u32) -> Step {
    match rng.below(8) {
        0 | 1 => {
            let mut bytes = scheme(rng).bytes().to_vec();
            if rng.one_in(4) {
                let at = rng.below(6) as usize;
                bytes[at] = bytes[at].wrapping_add(rng.pick(&[1, 0xFF, 20]));
            }
            if rng.one_in(20) {
                bytes.pop();
            }
            Step::Scheme(bytes)
        }
        2 => {
            let mut bytes = config(rng);
            match rng.below(8) {
                0 => (bytes[0], bytes[2]) = (128, 3),
                1 => bytes[1] = rng.next() as u8,
                2 => bytes[3] = 6 + rng.below(250) as u8,
                3 => bytes.push(0),
                _ => {}
            }
            Step::Config(bytes)
        }
        3 => Step::Switches(rng.below(8) as u8),
        _ => Step::Satp(satp(rng, frames)),
    }
}

/// Breaks a list of records, most often.
fn spoil_records(rng: &mut Rng, r: &mut Vec<u8>) {
    match rng.below(6) {
        0 => r.push(0),
        1 => drop(r.pop()),
        2 => *r = std::iter::repeat_n(*b"\x00\x10\x00\x00\x01\x00\x00\x00", 3_001).flatten().collect(),
        3 => *r = std::iter::repeat_n(*b"\x00\x10\x00\x00\x01\x00\x00\x00", 3_000).flatten().collect(),
        _ if r.is_empty() => {}
        _ => {
            let at = rng.below(r.len() as u32 / 8) as usize * 8 + 4 + rng.below(4) as usize;
            r[at] = r[at].wrapping_add(rng.pick(&[1, 2, 0xFF]));
        }
    }
}

/// Breaks one field of an image; now and then one that may be anything.
fn spoil_image(rng: &mut Rng, b: &mut Vec<u8>) {
    match rng.below(8) {
        0 => b.push(0),
        1 => drop(b.pop()),
        2 => {
            let i = rng.below(128) as usize;
            b[image::entry(i) + image::REFERENCE] = rng.below(4) as u8;
        }
        3 => {
            let i = rng.below(128) as usize;
            b[image::entry(i) + image::CLASS] = 20 + rng.below(236) as u8;
        }
        _ => {
            let at = rng.below(image::HANDS as u32) as usize;
            b[at] = if rng.one_in(3) { rng.next() as u8 } else { b[at].wrapping_add(rng.pick(&[1, 0xFF])) };
        }
    }
}

impl List {
    pub fn random(rng: &mut Rng) -> List {
        let first = scheme(rng);
        let user = !rng.one_in(3);
        let length = rng.pick(&[4096, 4096, 8192, 4098, 64, 1024, 3, 0, 40_000]);
        let frames = 1 + (length > 4200) as u32;
        let ram = table_words(rng, &first, user, length, frames);
        // the place of a word is counted from 64 bytes on
        let reach = length.max(64);
        let pages: Vec<u32> = (0..rng.below(40)).map(|_| table_address(rng, &first, reach)).collect();
        let satp = satp(rng, frames);
        let mut image = state(rng, &first, satp, &pages);
        let mut steps = Vec::new();
        for _ in 0..1 + rng.below(4) {
            if !rng.one_in(3) {
                steps.push(change(rng, frames));
            }
            let count = rng.below(50);
            let near = |rng: &mut Rng| {
                if pages.is_empty() || rng.one_in(3) { table_address(rng, &first, reach) } else { rng.pick(&pages) }
            };
            let mut list = accesses(rng, count, user, near);
            if rng.one_in(40) {
                spoil_records(rng, &mut list);
            }
            steps.push(Step::Records(list));
        }
        if rng.one_in(10) {
            spoil_image(rng, &mut image);
        }
        List { image, ram, steps }
    }
}
