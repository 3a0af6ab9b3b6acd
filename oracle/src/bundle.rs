//! Trace bundles (version 1): what one holds, what it is refused with, its run through the bought Rust, and how one
//! is written.

use crate::rules::{Scheme, records_ok, tlb_entries};
use crate::{Config, Map, Oracle};

pub struct Bundle<'a> {
    /// offset, count, four widths
    pub scheme: &'a [u8],
    pub config: Config,
    pub switches: u8,
    pub satp: u32,
    /// Whether by the absolute rule, and the map in the Rust's terms.
    pub map: Option<(bool, Map)>,
    pub ram: &'a [u8],
    pub accesses: &'a [u8],
}

pub fn u32_at(b: &[u8], at: usize) -> u32 {
    u32::from_le_bytes(b[at..at + 4].try_into().unwrap())
}

pub fn u16_at(b: &[u8], at: usize) -> u16 {
    u16::from_le_bytes(b[at..at + 2].try_into().unwrap())
}

/// The cache's six bytes; the policy must be one.
pub fn config_at(b: &[u8], at: usize) -> Config {
    Config {
        entries: u16_at(b, at),
        ways: b[at + 2],
        policy: b[at + 3],
        hit_latency: b[at + 4],
        miss_penalty: b[at + 5],
    }
}

/// The four bodies, or None where the contents are broken.
pub fn bodies(b: &[u8]) -> Option<[&[u8]; 4]> {
    if b.len() < 52 || u16_at(b, 0) != 1 || u16_at(b, 2) != 4 {
        return None;
    }
    let mut bodies: [&[u8]; 4] = [&[]; 4];
    let mut next = 52;
    for (k, body) in bodies.iter_mut().enumerate() {
        let row = 4 + 12 * k;
        let (start, length) = (u32_at(b, row + 4) as usize, u32_at(b, row + 8) as usize);
        if u32_at(b, row) as usize != k + 1 || start != next || length > b.len() - next {
            return None;
        }
        *body = &b[next..next + length];
        next += length;
    }
    (next == b.len()).then_some(bodies)
}

/// The map of a body of 20 bytes, or None where it is broken.
pub fn map_of(m: &[u8]) -> Option<(bool, Map)> {
    let mib = u32_at(m, 4) as i32;
    if m[0] > 1 || m[1] > 1 || m[2] & !0x3E != 0 || m[3] != 0 || (m[1] == 0 && mib != 0) {
        return None;
    }
    let map = Map {
        mib: (m[1] == 1).then_some(mib),
        flags: m[2],
        root: u32_at(m, 8),
        window: (u32_at(m, 12), u32_at(m, 16)),
    };
    Some((m[0] == 1, map))
}

impl Bundle<'_> {
    /// None: the layout is broken (refusal 8).
    pub fn read(b: &[u8]) -> Option<Bundle<'_>> {
        let [s, m, ram, accesses] = bodies(b)?;
        if s.len() != 20 || s[9] > 5 || s[12] > 7 || s[13..16] != [0; 3] {
            return None;
        }
        let used = s[1].min(4) as usize;
        if s[2 + used..6].iter().any(|&w| w != 0) || ram.len() > 32_768 || !records_ok(accesses) {
            return None;
        }
        let map = match m.len() {
            0 => None,
            20 => Some(map_of(m)?),
            _ => return None,
        };
        let (config, satp) = (config_at(s, 6), u32_at(s, 16));
        Some(Bundle { scheme: &s[..6], config, switches: s[12], satp, map, ram, accesses })
    }

    /// What a file with a good layout is refused with: 1, 2, 4 to 7, in this order; else its scheme.
    pub fn granted(&self) -> Result<Scheme, u8> {
        let scheme = Scheme::valid(self.scheme).ok_or(1)?;
        if tlb_entries(self.config) > 128 {
            return Err(2);
        }
        let refusal = self.map.and_then(|(rule, map)| scheme.map_refusal(rule, &map, self.ram.len()));
        refusal.map_or(Ok(scheme), Err)
    }

    /// The bought Rust at the end of the run, and the lines, for a bundle that is granted and has no map of the
    /// absolute rule.
    pub fn run(&self, scheme: &Scheme) -> (Oracle, String) {
        let mut o = Oracle::new(self.config, self.ram);
        o.set_scheme(scheme.offset, &scheme.widths);
        o.set_switches(self.switches);
        o.set_satp(self.satp);
        if let Some((_, map)) = self.map {
            o.install_map_scheme(scheme.offset, &scheme.widths, map);
        }
        let text = o.lines(self.accesses);
        (o, text)
    }
}

/// What the trace program owes for a file, as far as the bought Rust can tell.
pub enum Owed {
    Refused(u8),
    /// A map of the absolute rule, which the bought Rust does not have.
    Absolute,
    Ran(Oracle, String),
}

pub fn owed(file: &[u8]) -> Owed {
    let Some(b) = Bundle::read(file) else { return Owed::Refused(8) };
    match b.granted() {
        Err(number) => Owed::Refused(number),
        Ok(_) if b.map.is_some_and(|(absolute, _)| absolute) => Owed::Absolute,
        Ok(scheme) => {
            let (o, text) = b.run(&scheme);
            Owed::Ran(o, text)
        }
    }
}

impl Oracle {
    /// Makes the calls of a list of records; the trace program's lines for them, the tallies last.
    pub fn lines(&mut self, records: &[u8]) -> String {
        let mut out = String::new();
        for a in records.chunks(8) {
            let va = u32_at(a, 0);
            out += &match a[6] {
                0 => match self.translate(va, a[4], a[5]) {
                    Ok((pa, stall)) => format!("{va:08x} ok {pa:08x} {stall}\n"),
                    Err((cause, at)) => format!("{at:08x} fault {cause}\n"),
                },
                1 => {
                    self.flush();
                    "flush\n".to_string()
                }
                _ => {
                    self.flush_vaddr(va);
                    format!("flush {va:08x}\n")
                }
            };
        }
        let [hits, misses, faults, evictions] = self.state().tallies;
        out + &format!("hits {hits} misses {misses} faults {faults} evictions {evictions}\n")
    }
}

#[derive(Clone)]
pub struct Settings {
    pub scheme: Scheme,
    pub entries: u16,
    pub ways: u8,
    pub policy: u8,
    pub latencies: [u8; 2],
    pub switches: u8,
    pub satp: u32,
}

/// What a bundle is written from: its four bodies, the first as its settings.
#[derive(Clone)]
pub struct Parts {
    pub settings: Settings,
    pub map: Vec<u8>,
    pub ram: Vec<u8>,
    pub accesses: Vec<u8>,
}

impl Parts {
    pub fn bytes(&self) -> Vec<u8> {
        let s = &self.settings;
        let mut settings = s.scheme.bytes().to_vec();
        settings.extend(s.entries.to_le_bytes());
        settings.extend([s.ways, s.policy, s.latencies[0], s.latencies[1], s.switches, 0, 0, 0]);
        settings.extend(s.satp.to_le_bytes());
        written([&settings, &self.map, &self.ram, &self.accesses])
    }
}

/// The file of four bodies.
pub fn written(bodies: [&[u8]; 4]) -> Vec<u8> {
    let mut out = vec![1, 0, 4, 0];
    let mut start = 52;
    for (kind, body) in (1u32..).zip(bodies) {
        for word in [kind, start, body.len() as u32] {
            out.extend(word.to_le_bytes());
        }
        start += body.len() as u32;
    }
    out.extend(bodies.concat());
    out
}
