//! Calls without a state: the installer, the plain walk, and the questions that have a number as their answer.

use crate::differ::{self, Same};
use crate::met;
use crate::shrink::{Case, shorter, zeroed};
use against::image::u64_at;
use against::ours::{self, Access};
use oracle::bundle::{map_of, u32_at};
use oracle::draw::{Rng, map_body, table_address, table_words, window};
use oracle::falcon::mmu::{AccessType, PrivMode, walker};
use oracle::rules::Scheme;
use oracle::{Config, Map, Oracle, delta_bytes, make_satp, root_pa, scheme};

/// What stands in `told` before a call.
const OLD: u8 = 0xA5;

fn oracle(ram: &[u8]) -> Oracle {
    Oracle::new(Config { entries: 1, ways: 1, policy: 0, hit_latency: 0, miss_penalty: 0 }, ram)
}

/// A scheme's six bytes, broken now and then, by no number that makes it Sv39: the bought Rust has no answers there.
fn scheme_bytes(rng: &mut Rng) -> Vec<u8> {
    let levels = 1 + rng.below(4) as usize;
    let mut bytes = Scheme::draw(rng, levels).bytes().to_vec();
    if rng.one_in(12) {
        let at = rng.below(6) as usize;
        bytes[at] = bytes[at].wrapping_add(rng.pick(&[1, 0xFF, 6]));
    }
    if rng.one_in(40) {
        bytes.pop();
    }
    bytes
}

fn valid(bytes: &[u8]) -> Option<Scheme> {
    if bytes.len() == 6 { Scheme::valid(bytes) } else { None }
}

/// A map's body, mostly with room for it; each of its refusals now and then.
fn map(rng: &mut Rng, s: &Scheme) -> (Vec<u8>, usize) {
    let window = window(rng, s);
    let children = s.child_bytes(false, window).min(1 << 20) as u32;
    let mut root = children + rng.pick(&[0, 0, 4096]);
    let mut length = root as usize + s.top_bytes() as usize + rng.pick(&[0, 0, 1, 4096]);
    let mut flags = rng.pick(&[0x1E, 0x0E, 0x3E, 0x12, 0x18, 0x36]);
    match rng.below(16) {
        0 => root = root.saturating_sub(4096),
        1 => root += rng.pick(&[1, 4, 2048]),
        2 => length -= 1,
        3 => flags = 2 * rng.below(32) as u8,
        4 => (root, length) = (0xFFFF_F000, 4096),
        _ => {}
    }
    let mib = if rng.one_in(3) { rng.next() as i32 } else { rng.pick(&[0, -1, 1, 4, 4096, i32::MIN, i32::MAX]) };
    let mut body = map_body(mib, flags, root, window);
    if rng.one_in(4) {
        body[0] = 1;
    }
    if rng.one_in(20) {
        let at = rng.below(4) as usize;
        body[at] = rng.next() as u8;
    }
    if rng.one_in(40) {
        body.push(0);
    }
    (body, length)
}

/// The refusal, or the map that is to be installed, and by which rule.
fn map_owed(scheme: &[u8], body: &[u8], ram: usize) -> Result<(Scheme, bool, Map), u32> {
    let laid = if scheme.len() == 6 && body.len() == 20 { map_of(body) } else { None };
    let (absolute, map) = laid.ok_or(8u32)?;
    let s = valid(scheme).ok_or(1u32)?;
    match s.map_refusal(absolute, &map, ram) {
        Some(number) => Err(number as u32),
        None => Ok((s, absolute, map)),
    }
}

/// `install` on RAM that is not zero before: the relative rule, and the absolute one where both agree.
#[derive(Clone)]
pub struct Install {
    scheme: Vec<u8>,
    map: Vec<u8>,
    ram: Vec<u8>,
}

impl Install {
    pub fn random(rng: &mut Rng) -> Install {
        let scheme = scheme_bytes(rng);
        let (map, length) = map(rng, &valid(&scheme).unwrap_or(Scheme::sv32()));
        let ram = (0..length).map(|_| rng.next() as u8).collect();
        Install { scheme, map, ram }
    }

    fn compare(&self) -> Same {
        let mut ram = self.ram.clone();
        let said = ours::install(&self.scheme, &self.map, &mut ram);
        let owed = map_owed(&self.scheme, &self.map, ram.len());
        let number = owed.as_ref().err().copied().unwrap_or(0);
        met::number(number);
        differ::numbers("answer", said as u64, number as u64)?;
        match owed {
            Err(_) => differ::bytes("RAM", &ram, &self.ram),
            Ok((scheme, true, map)) if !scheme.rules_agree(map.window) => Ok(()),
            Ok((scheme, _, map)) => {
                let mut o = oracle(&self.ram);
                o.install_map_scheme(scheme.offset, &scheme.widths, map);
                differ::bytes("RAM", &ram, o.ram())
            }
        }
    }
}

impl Case for Install {
    fn differs(&self) -> Option<String> {
        self.compare().err()
    }

    fn smaller(&self) -> Box<dyn Iterator<Item = Install> + '_> {
        let plain_ram = zeroed(&self.ram, 4).map(|ram| Install { ram, ..self.clone() });
        let plain_map = zeroed(&self.map, 1).map(|map| Install { map, ..self.clone() });
        Box::new(plain_ram.chain(plain_map))
    }

    fn tell(&self) -> String {
        format!("install, scheme {:02x?}, map {:02x?}\n{}", self.scheme, self.map, differ::ram(&self.ram))
    }
}

/// A plain walk by the bought Rust: cause, address, and the words asked for where it tells them.
fn walked(s: &Scheme, root: u32, Access(va, kind, mode): Access, o: &mut Oracle) -> (u32, u32, Option<u32>) {
    let access = [AccessType::Fetch, AccessType::Load, AccessType::Store][kind as usize];
    let mode = [PrivMode::U, PrivMode::S, PrivMode::M, PrivMode::M][mode as usize];
    let va = va as u32;
    match walker::walk(&scheme(s.offset, &s.widths), root, va, &mut o.ram, access, mode) {
        Err(fault) => (fault.cause, 0, None),
        Ok(r) => {
            let low = ((1u64 << r.page_bits) - 1) as u32;
            (0, (r.ppn << 12) & !low | va & low, Some(r.leaf_level as u32 + 1))
        }
    }
}

/// `walk`; on a fault the bought Rust does not tell the words, and they are only held to be one to the levels.
#[derive(Clone)]
pub struct Walk {
    scheme: Vec<u8>,
    root: u32,
    asked: Access,
    ram: Vec<u8>,
}

impl Walk {
    pub fn random(rng: &mut Rng) -> Walk {
        let scheme = scheme_bytes(rng);
        let s = valid(&scheme).unwrap_or(Scheme::sv32());
        let user = rng.one_in(2);
        let length = rng.pick(&[64, 1024, 4096, 4098, 8192]);
        let ram = table_words(rng, &s, user, length, 1 + (length > 4200) as u32);
        let root = if rng.one_in(8) { rng.next() } else { rng.below(2) | rng.below(8) << 20 };
        let mut asked = Access(table_address(rng, &s, length) as u64, rng.below(3) as u8, rng.pick(&[0, 1, 3]));
        match rng.below(40) {
            0 => asked.1 = rng.next() as u8,
            1 => asked.2 = rng.next() as u8,
            // an address of more than 32 bits: a page fault, no word asked for
            2 => asked.0 |= 1 << (32 + rng.below(32)),
            _ => {}
        }
        Walk { scheme, root, asked, ram }
    }

    fn refusal(&self) -> u32 {
        let laid = self.scheme.len() == 6 && self.asked.1 <= 2 && matches!(self.asked.2, 0 | 1 | 3);
        if !laid { 8 } else { valid(&self.scheme).map_or(1, |_| 0) }
    }

    fn compare(&self) -> Same {
        let (mut ram, mut told, mut short) = (self.ram.clone(), [OLD; 17], [OLD; 15]);
        let root = self.root as u64;
        let said = ours::walk(&self.scheme, root, self.asked, &mut ram, &mut short);
        differ::numbers("answer where `told` is short", said as u64, 255)?;
        differ::bytes("`told` where it is short", &short, &[OLD; 15])?;
        differ::bytes("RAM where `told` is short", &ram, &self.ram)?;

        let said = ours::walk(&self.scheme, root, self.asked, &mut ram, &mut told);
        let refusal = self.refusal();
        met::number(refusal);
        differ::numbers("answer", said as u64, refusal as u64)?;
        if refusal != 0 {
            differ::bytes("`told`", &told, &[OLD; 17])?;
            return differ::bytes("RAM", &ram, &self.ram);
        }
        let s = valid(&self.scheme).unwrap();
        let mut o = oracle(&self.ram);
        let asked = u32_at(&told, 12);
        let (cause, address, words) = match self.asked {
            Access(va, kind, _) if va >> 32 != 0 => ([12, 13, 15][kind as usize], 0, Some(0)),
            q => walked(&s, self.root, q, &mut o),
        };
        differ::numbers("cause", u32_at(&told, 0) as u64, cause as u64)?;
        differ::numbers("address", u64_at(&told, 4), address as u64)?;
        let words = words.unwrap_or(asked.clamp(1, s.widths.len() as u32));
        differ::numbers("words asked for", asked as u64, words as u64)?;
        differ::bytes("`told` past its end", &told[16..], &[OLD])?;
        differ::bytes("RAM", &ram, o.ram())
    }
}

impl Case for Walk {
    fn differs(&self) -> Option<String> {
        self.compare().err()
    }

    fn smaller(&self) -> Box<dyn Iterator<Item = Walk> + '_> {
        let less_ram = shorter(&self.ram, 1).take(14).map(|ram| Walk { ram, ..self.clone() });
        let plain_ram = zeroed(&self.ram, 4).map(|ram| Walk { ram, ..self.clone() });
        let plain_root = (self.root != 0).then(|| Walk { root: 0, ..self.clone() });
        Box::new(less_ram.chain(plain_ram).chain(plain_root))
    }

    fn tell(&self) -> String {
        let (scheme, root) = (&self.scheme, self.root);
        let Access(va, kind, mode) = self.asked;
        let ram = differ::ram(&self.ram);
        format!("walk, scheme {scheme:02x?}, root {root:x}, address {va:x}, kind {kind}, privilege {mode}\n{ram}")
    }
}

/// The questions with a number as their answer, on edges and anything.
#[derive(Clone)]
pub struct Number {
    scheme: Vec<u8>,
    size: u32,
    asid: u16,
    mib: i32,
}

impl Number {
    pub fn random(rng: &mut Rng) -> Number {
        let any = rng.next();
        let edges = [0, 1, 100, 4095, 4096, 4097, 16_383, 16_384, 65_536, u32::MAX];
        let size = if rng.one_in(2) { any } else { rng.pick(&edges) };
        let edges = [0, 1, -1, 2047, 2048, 4095, 4096, -4096, i32::MIN, i32::MAX];
        let mib = if rng.one_in(2) { any as i32 } else { rng.pick(&edges) };
        Number { scheme: scheme_bytes(rng), size, asid: rng.next() as u16, mib }
    }

    fn compare(&self) -> Same {
        let (n, asid) = (self.size, self.asid);
        let owed = match (self.scheme.len(), valid(&self.scheme)) {
            (6, Some(s)) => root_pa(s.offset, &s.widths, n) as u64,
            (6, None) => 1,
            _ => 8,
        };
        differ::numbers("root_pa", ours::root_pa(&self.scheme, n as u64), owed)?;
        differ::numbers("make_satp", ours::make_satp(n, asid) as u64, make_satp(n, asid) as u64)?;
        // Sv39's, which the bought Rust has not: mode 8, the ASID above 44 bits of PPN
        let root = (n as u64) << 24 | n as u64;
        let fields = 8u64 << 60 | (asid as u64) << 44 | root >> 12 & ((1 << 44) - 1);
        differ::numbers("make_satp39", ours::make_satp39(root, asid), fields)?;
        differ::numbers("delta_bytes", ours::delta_bytes(self.mib) as u64, delta_bytes(self.mib) as u64)
    }
}

impl Case for Number {
    fn differs(&self) -> Option<String> {
        self.compare().err()
    }

    fn smaller(&self) -> Box<dyn Iterator<Item = Number> + '_> {
        Box::new(std::iter::empty())
    }

    fn tell(&self) -> String {
        format!("scheme {:02x?}, size or root {:x}, ASID {:x}, MiB {}", self.scheme, self.size, self.asid, self.mib)
    }
}
