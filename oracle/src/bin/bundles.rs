//! Writes the list of bundles that the trace program and the bought Rust are compared
//! on, as the stream that `replay` reads. The seed is fixed: the list is always the
//! same. None of them is refused and none uses the absolute rule, so each can be compared.

use oracle::draw::{Rng, busy, edges, installed, tables};
use std::io::Write;

const SEED: u64 = 20_261_115;
const MAPS: usize = 90;
const TABLES: usize = 192;
const BUSY: usize = 12;

fn main() {
    let mut rng = Rng(SEED);
    let mut list = edges(&mut rng);
    list.extend((0..MAPS).map(|k| installed(&mut rng, k)));
    list.extend((0..TABLES).map(|k| tables(&mut rng, k)));
    list.extend((0..BUSY).map(|k| busy(&mut rng, k)));
    let mut stream = Vec::new();
    for b in list {
        let bytes = b.bytes();
        stream.extend((bytes.len() as u32).to_le_bytes());
        stream.extend(bytes);
    }
    std::io::stdout().write_all(&stream).unwrap();
}
