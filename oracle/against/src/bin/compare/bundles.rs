//! Files: random bundles, a bundle for each scheme, and damaged ones. The text, the RAM and the whole state that a run
//! leaves are held to the bought Rust.

use crate::differ::{self, Same};
use crate::met;
use crate::shrink::{Case, shorter, zeroed};
use against::{image, ours};
use oracle::bundle::{Bundle, bodies, written};
use oracle::draw::{Rng, busy, edges, installed, installed_in, tables, tables_in};
use oracle::rules::{Scheme, tlb_entries};
use oracle::{Config, Oracle};

/// What stands in the buffers before a call.
const OLD: u8 = 0xA5;
/// Room behind what a call needs, which it must not touch.
const SPARE: usize = 8;

/// Entries and ways for 128 entries or fewer.
pub fn geometry(rng: &mut Rng) -> (u16, u8) {
    loop {
        let entries = match rng.below(3) {
            0 => rng.pick(&[0, 1, 2, 3, 4, 8, 16, 32, 64, 65, 127, 128]),
            _ => rng.below(129) as u16,
        };
        let ways = match rng.below(3) {
            0 => rng.below(129) as u8,
            _ => rng.pick(&[0, 1, 2, 3, 4, 5, 8, 16, 32, 33, 64, 128]),
        };
        let config = Config { entries, ways, policy: 0, hit_latency: 0, miss_penalty: 0 };
        if tlb_entries(config) <= 128 {
            return (entries, ways);
        }
    }
}

/// A bundle of any kind; now and then one that may be refused, or has a map of the absolute rule.
pub fn random(rng: &mut Rng) -> Vec<u8> {
    let k = rng.below(6 * 13 * 4) as usize;
    let mut parts = match rng.below(20) {
        0 => busy(rng, k % 12),
        1..9 => installed(rng, k),
        _ => tables(rng, k),
    };
    if rng.one_in(2) {
        (parts.settings.entries, parts.settings.ways) = geometry(rng);
    }
    let mut file = parts.bytes();
    if !parts.map.is_empty() && rng.one_in(6) {
        file[72] = 1;
    }
    if rng.one_in(8) {
        let at = 52 + rng.below(20 + parts.map.len() as u32) as usize;
        file[at] = if rng.one_in(2) { rng.next() as u8 } else { file[at].wrapping_add(rng.pick(&[1, 0xFF])) };
    }
    file
}

/// Tables written by hand and a small map for each scheme there is.
pub fn every_scheme(rng: &mut Rng) -> impl Iterator<Item = Vec<u8>> {
    Scheme::all().into_iter().enumerate().flat_map(|(k, scheme)| {
        let by_hand = tables_in(rng, k, &scheme).bytes();
        let map = std::iter::repeat_with(|| installed_in(rng, k, &scheme)).flatten().next();
        [by_hand, map.unwrap().bytes()]
    })
}

/// A good bundle with each byte of contents and settings off by one, cut at every length, and one byte too long.
fn damages(good: Vec<u8>) -> impl Iterator<Item = Vec<u8>> {
    let off = |g: &[u8], at: usize, by: u8| {
        let mut f = g.to_vec();
        f[at] = f[at].wrapping_add(by);
        f
    };
    let longer = [&good[..], &[0]].concat();
    let whole = good.clone();
    let moved = (0..144).map(move |k| off(&whole, k / 2, [1, 0xFF][k % 2]));
    moved.chain((0..=good.len()).map(move |n| good[..n].to_vec())).chain([longer])
}

/// Those of some small bundles.
pub fn damaged(rng: &mut Rng) -> impl Iterator<Item = Vec<u8>> {
    let mut good: Vec<Vec<u8>> = edges(rng).iter().map(|p| p.bytes()).collect();
    good.push(include_bytes!("../../../../../examples/case-t.bundle").to_vec());
    good.extend((0..8).map(|k| installed(rng, k).bytes()));
    good.extend((0..8).map(|k| tables(rng, k).bytes()));
    good.into_iter().filter(|g| g.len() < 12_000).flat_map(damages)
}

#[derive(Clone)]
pub struct File(pub Vec<u8>);

/// What a file must leave: the text, the start of RAM, and the state.
struct Left {
    text: String,
    ram: Vec<u8>,
    state: Vec<u8>,
}

/// The default state: 32 entries, 4 ways, Lru, 1, 20; the TLB on; Sv32; satp 0.
fn default_state() -> Vec<u8> {
    let sv32 = Scheme { offset: 12, widths: vec![10, 10] };
    image::fresh(&[32, 0, 4, 0, 1, 20], 4, &sv32, 0)
}

/// The image of the bought Rust after a run, or after none.
fn state_of(b: &Bundle, scheme: &Scheme, o: &Oracle) -> Vec<u8> {
    let mut config = b.config.entries.to_le_bytes().to_vec();
    config.extend([b.config.ways, b.config.policy, b.config.hit_latency, b.config.miss_penalty]);
    let mut state = image::fresh(&config, b.switches, scheme, b.satp);
    image::put_state(&mut state, &o.state());
    state
}

/// A run of the bought Rust; where both rules give the same map, it stands for a map of either.
fn run_left(b: &Bundle, scheme: &Scheme) -> Left {
    let (o, text) = b.run(scheme);
    met::tallies(b.config.policy, [0; 4], o.state().tallies);
    Left { text, ram: o.ram().to_vec(), state: state_of(b, scheme, &o) }
}

/// A refusal: RAM is the bundle's own once the settings are granted, and the state is that which they gave; else it is the default one.
fn refused_left(number: u8, b: Option<Bundle>) -> Left {
    let text = format!("refused {number}\n");
    match b.filter(|_| (4..8).contains(&number)) {
        None => Left { text, ram: vec![], state: default_state() },
        Some(b) => {
            let scheme = Scheme::valid(b.scheme).unwrap();
            let mut o = Oracle::new(b.config, b.ram);
            o.set_scheme(scheme.offset, &scheme.widths);
            Left { text, ram: b.ram.to_vec(), state: state_of(&b, &scheme, &o) }
        }
    }
}

/// None for a map of the absolute rule that the bought Rust has no answer for.
fn left(file: &[u8]) -> Option<Left> {
    let Some(b) = Bundle::read(file) else { return Some(refused_left(8, None)) };
    match (b.granted(), b.map) {
        (Err(number), _) => Some(refused_left(number, Some(b))),
        (Ok(scheme), Some((true, map))) if !scheme.rules_agree(map.window) => None,
        (Ok(scheme), _) => Some(run_left(&b, &scheme)),
    }
}

impl File {
    /// How many bytes the output and the RAM may need.
    fn rooms(&self) -> (usize, usize) {
        let Some(b) = Bundle::read(&self.0) else { return (11, 0) };
        let early = matches!(b.granted(), Err(1 | 2));
        (if early { 11 } else { 25 * (b.accesses.len() / 8) + 113 }, b.ram.len())
    }

    fn compare(&self) -> Same {
        let (room, ram_room) = self.rooms();
        let (mut ram, mut out) = (vec![OLD; ram_room + SPARE], vec![OLD; room + SPARE]);
        let mut state = vec![OLD; image::BYTES + SPARE];
        let wrote = ours::run_state(&self.0, &mut ram, &mut out, &mut state).ok_or("a buffer was called too short")?;
        let Some(left) = left(&self.0) else {
            return if out.starts_with(b"refused") { Err("refused, owed a run".to_string()) } else { Ok(()) };
        };
        met::text(&left.text);
        differ::texts(&out[..wrote], &left.text)?;
        differ::bytes("output past its end", &out[wrote..], &vec![OLD; out.len() - wrote])?;
        differ::bytes("RAM", &ram[..left.ram.len()], &left.ram)?;
        differ::bytes("RAM past its end", &ram[left.ram.len()..], &vec![OLD; ram.len() - left.ram.len()])?;
        differ::images(&state[..image::BYTES], &left.state)?;
        differ::bytes("state past its end", &state[image::BYTES..], &[OLD; SPARE])?;
        self.without_state(&ram, &out, wrote)?;
        self.too_short(room, ram_room)
    }

    /// `run` leaves what `run_state` leaves.
    fn without_state(&self, ram: &[u8], out: &[u8], wrote: usize) -> Same {
        let (mut again_ram, mut again_out) = (vec![OLD; ram.len()], vec![OLD; out.len()]);
        let again = ours::run(&self.0, &mut again_ram, &mut again_out);
        differ::numbers("bytes that `run` wrote", again.unwrap_or(usize::MAX) as u64, wrote as u64)?;
        differ::bytes("output of `run`", &again_out, out)?;
        differ::bytes("RAM of `run`", &again_ram, ram)
    }

    /// One byte less of any buffer, and nothing is written.
    fn too_short(&self, room: usize, ram_room: usize) -> Same {
        let shorts = [(1, 0, 0), (0, 1, 0), (0, 0, 1)];
        for (less_out, less_ram, less_state) in shorts {
            if less_ram > ram_room {
                continue;
            }
            let (mut ram, mut out) = (vec![OLD; ram_room - less_ram], vec![OLD; room - less_out]);
            let mut state = vec![OLD; image::BYTES - less_state];
            let said = ours::run_state(&self.0, &mut ram, &mut out, &mut state);
            if said.is_some() || [&ram, &out, &state].iter().any(|b| b.iter().any(|&x| x != OLD)) {
                return Err(format!("a buffer one byte too short was used: {said:?}"));
            }
        }
        Ok(())
    }
}

impl Case for File {
    fn differs(&self) -> Option<String> {
        self.compare().err()
    }

    fn smaller(&self) -> Box<dyn Iterator<Item = File> + '_> {
        let Some([settings, map, ram, accesses]) = bodies(&self.0) else { return Box::new(std::iter::empty()) };
        let fewer = shorter(accesses, 8).map(move |a| written([settings, map, ram, &a]));
        let no_map = (!map.is_empty()).then(|| written([settings, &[], ram, accesses])).into_iter();
        let less_ram = shorter(ram, 1).take(14).map(move |r| written([settings, map, &r, accesses]));
        let plain_ram = zeroed(ram, 4).map(move |r| written([settings, map, &r, accesses]));
        let plain_accesses = zeroed(accesses, 1).map(move |a| written([settings, map, ram, &a]));
        let plain_settings = zeroed(settings, 1).map(move |s| written([&s, map, ram, accesses]));
        let plain_map = zeroed(map, 1).map(move |m| written([settings, &m, ram, accesses]));
        let plain = plain_ram.chain(plain_accesses).chain(plain_settings).chain(plain_map);
        Box::new(fewer.chain(no_map).chain(less_ram).chain(plain).map(File))
    }

    fn tell(&self) -> String {
        let place = concat!(env!("CARGO_MANIFEST_DIR"), "/target/difference.bundle");
        let kept = match std::fs::write(place, &self.0) {
            Ok(()) => "oracle/against/target/difference.bundle holds it; tools/bundle.py show tells what that is".to_string(),
            Err(e) => format!("it could not be stored: {e}"),
        };
        let Some([settings, map, ram, accesses]) = bodies(&self.0) else { return format!("{kept}\n{:02x?}", self.0) };
        let (ram, list) = (differ::ram(ram), differ::records(accesses));
        format!("{kept}\nsettings {settings:02x?}\nmap {map:02x?}\n{ram}{list}")
    }
}
