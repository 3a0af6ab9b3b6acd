//! Times one access of the bought Rust and of our library on the same lists. In each round every list goes through every
//! column once, so that what slows the machine down slows all of them; the table has the medians, in nanoseconds.

mod lent;
mod lists;

use against::{image, ours};
use lists::{COUNT, List};
use oracle::Oracle;
use oracle::bundle::u32_at;
use std::time::Instant;

const ROUNDS: usize = 401;

/// One side of a list, in the state that its passes leave.
struct Side {
    image: Vec<u8>,
    ram: Vec<u8>,
}

/// A list and all that its columns go on from.
struct Lane {
    list: List,
    rust: Oracle,
    by_value: Side,
    lent: Side,
    beside: Side,
    out: Vec<u8>,
    bundle_ram: Vec<u8>,
}

/// The last two are of one archive, so that the same is inlined in both: that can weigh more than the form of a call.
const COLUMNS: [(&str, fn(&mut Lane) -> u64); 5] = [
    ("bought Rust", rust),
    ("ours, by value", by_value),
    ("ours, run of a bundle", bundle),
    ("ours, through `host`", through_host),
    ("by value, beside it", beside),
];

/// Nanoseconds of one call.
fn timed<T>(call: impl FnOnce() -> T) -> (u64, T) {
    let start = Instant::now();
    let answer = call();
    (start.elapsed().as_nanos() as u64, answer)
}

fn rust(lane: &mut Lane) -> u64 {
    let (rust, records) = (&mut lane.rust, &lane.list.records);
    let pass = || {
        for a in records.chunks_exact(8) {
            std::hint::black_box(rust.translate(u32_at(a, 0), a[4], a[5])).ok();
        }
    };
    timed(pass).0
}

/// A pass of a call that takes image, records and RAM.
fn on_image(side: &mut Side, records: &[u8], call: fn(&mut [u8], &[u8], &mut [u8]) -> u32) -> u64 {
    let (time, said) = timed(|| call(&mut side.image, records, &mut side.ram));
    assert_eq!(said, 0);
    time
}

fn by_value(lane: &mut Lane) -> u64 {
    on_image(&mut lane.by_value, &lane.list.records, ours::events)
}

fn through_host(lane: &mut Lane) -> u64 {
    on_image(&mut lane.lent, &lane.list.records, lent::through_host)
}

fn beside(lane: &mut Lane) -> u64 {
    on_image(&mut lane.beside, &lane.list.records, lent::by_value)
}

fn bundle(lane: &mut Lane) -> u64 {
    let (time, said) = timed(|| ours::run(&lane.list.bundle, &mut lane.bundle_ram, &mut lane.out));
    assert!(said.is_some_and(|n| n > 11));
    time
}

impl Lane {
    fn new(list: List) -> Lane {
        let side = || Side { image: list.image.clone(), ram: list.ram.clone() };
        let (out, bundle_ram) = (vec![0; 25 * COUNT + 113], vec![0; list.ram.len()]);
        Lane { rust: list.oracle(), by_value: side(), lent: side(), beside: side(), out, bundle_ram, list }
    }

    /// One pass that is not timed, and one that must give the hits and misses that the list is named for, on all sides.
    fn warm(&mut self) {
        let mut before = [0; 2];
        for owed in [None, Some(self.list.owed())] {
            for (_, pass) in COLUMNS {
                pass(self);
            }
            let [hits, misses, ..] = self.rust.state().tallies;
            if let Some(owed) = owed {
                assert_eq!([hits - before[0], misses - before[1]], owed, "{}", self.list.name);
            }
            before = [hits, misses];
            let mut left = self.list.image.clone();
            image::put_state(&mut left, &self.rust.state());
            for side in [&self.by_value, &self.lent, &self.beside] {
                assert!(side.image == left, "{}: the states differ", self.list.name);
            }
        }
    }
}

fn median(mut times: Vec<u64>) -> f64 {
    times.sort_unstable();
    times[times.len() / 2] as f64
}

/// The medians of each list's columns, for one pass.
fn measured(lanes: &mut [Lane]) -> Vec<Vec<f64>> {
    let mut times = vec![vec![Vec::new(); COLUMNS.len()]; lanes.len()];
    for _ in 0..ROUNDS {
        for (lane, row) in lanes.iter_mut().zip(&mut times) {
            for ((_, pass), cell) in COLUMNS.iter().zip(row) {
                cell.push(pass(lane));
            }
        }
    }
    times.into_iter().map(|row| row.into_iter().map(median).collect()).collect()
}

/// What a call costs besides its accesses.
fn empty_call(lane: &mut Lane) -> f64 {
    let side = &mut lane.by_value;
    median((0..ROUNDS).map(|_| timed(|| ours::events(&mut side.image, &[], &mut side.ram)).0).collect())
}

fn machine() -> String {
    let text = std::fs::read_to_string("/proc/cpuinfo").unwrap_or_default();
    let name = text.lines().find(|l| l.starts_with("model name")).and_then(|l| l.split(": ").nth(1));
    name.unwrap_or("a machine that does not tell its name").to_string()
}

fn main() {
    let mut lanes: Vec<Lane> = lists::all().into_iter().map(Lane::new).collect();
    lanes.iter_mut().for_each(Lane::warm);
    let rows = measured(&mut lanes);
    println!("{}; {ROUNDS} rounds, medians, ns for one access\n", machine());
    let cells = |texts: Vec<String>| println!("| {} |", texts.join(" | "));
    let names = COLUMNS.iter().map(|(name, _)| name.to_string());
    cells(["list".to_string(), "cache".to_string()].into_iter().chain(names).collect());
    cells(vec!["---".to_string(); 2 + COLUMNS.len()]);
    for (lane, row) in lanes.iter().zip(&rows) {
        let times = row.iter().map(|time| format!("{:.0}", time / COUNT as f64));
        cells([lane.list.name.to_string(), lane.list.about()].into_iter().chain(times).collect());
    }
    println!("\nA call by value with no records: {:.0} ns", empty_call(&mut lanes[0]));
}
