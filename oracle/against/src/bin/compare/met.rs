//! Counts what the compared answers were, so that a reader can see that each kind was met.

use std::cell::RefCell;

#[derive(Default)]
struct Met {
    ok: u64,
    faults: u64,
    flushes: u64,
    /// 0 counts the calls that were granted
    numbers: [u64; 9],
    /// by policy: hits, misses, page faults, evictions
    tallies: [[u64; 4]; 6],
}

thread_local!(static MET: RefCell<Met> = RefCell::default());

/// A call that answers a refusal's number or 0.
pub fn number(n: u32) {
    MET.with_borrow_mut(|m| m.numbers[n as usize] += 1);
}

/// The lines of a run, or a refusal's.
pub fn text(lines: &str) {
    if let Some(n) = lines.strip_prefix("refused ") {
        return number(n.trim().parse().unwrap());
    }
    number(0);
    MET.with_borrow_mut(|m| {
        for line in lines.lines() {
            m.ok += line.contains(" ok ") as u64;
            m.faults += line.contains(" fault ") as u64;
            m.flushes += line.starts_with("flush") as u64;
        }
    });
}

pub fn tallies(policy: u8, before: [u64; 4], after: [u64; 4]) {
    MET.with_borrow_mut(|m| {
        for (k, sum) in m.tallies[policy as usize].iter_mut().enumerate() {
            *sum += after[k].wrapping_sub(before[k]);
        }
    });
}

pub fn told() -> String {
    MET.with_borrow(|m| {
        let mut out = format!("answers: {} ok, {} faults, {} flushes\n", m.ok, m.faults, m.flushes);
        out += &format!("calls: {} granted", m.numbers[0]);
        for n in 1..9 {
            out += &format!(", {} refused with {n}", m.numbers[n]);
        }
        for (name, t) in ["Lru", "Mru", "Fifo", "Lfu", "Clock", "Random"].iter().zip(m.tallies) {
            out += &format!("\n{name}: {} hits, {} misses, {} page faults, {} evictions", t[0], t[1], t[2], t[3]);
        }
        out
    })
}
