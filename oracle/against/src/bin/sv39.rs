//! Performs a script of the test programs through the exported functions, on Sv39: `sv39 walk|mmu < SCRIPT`. It prints
//! what crates/walk_cases and crates/mmu_cases print, but of a walk only what `muntesulca_walk` tells. tools/sv39.py
//! works out the same lines; ../../../sv39 compares them.

use against::image::{self, u64_at};
use against::ours::{self, Access};
use oracle::bundle::u32_at;
use std::io::Read;

const RAM: usize = 65_536;

/// A line's letter in lower case, whether it was a capital, and its numbers.
struct Step(u8, bool, [u64; 4]);

fn step(line: &[u8]) -> Step {
    let wide = line[0].is_ascii_uppercase();
    let size = if wide { 18 } else { 9 };
    let column = |k: usize| String::from_utf8_lossy(&line[1 + k * size..1 + (k + 1) * size]).replace(' ', "0");
    let number = |k: usize| u64::from_str_radix(&column(k), 16).unwrap();
    Step(line[0].to_ascii_lowercase(), wide, [number(0), number(1), number(2), number(3)])
}

fn hexed(n: u64) -> String {
    if n >> 32 == 0 { format!("{n:08x}") } else { format!("{n:016x}") }
}

fn who([va, kind, mode, _]: [u64; 4]) -> String {
    let kind = ["fetch", "load", "store"][kind as usize];
    format!(" {} {kind} {}", hexed(va), ["U", "S", "", "M"][mode as usize])
}

fn asked([va, kind, mode, _]: [u64; 4]) -> Access {
    Access(va, kind as u8, mode as u8)
}

fn scheme_bytes([offset, levels, widths, _]: [u64; 4]) -> [u8; 6] {
    let [a, b, c, d] = (widths as u32).to_be_bytes();
    [offset as u8, levels as u8, a, b, c, d]
}

fn said(number: u32) -> String {
    if number == 0 { " granted\n".to_string() } else { format!(" refused {number}\n") }
}

fn put(ram: &mut [u8], wide: bool, at: u64, word: u64) {
    let size = if wide { 8 } else { 4 };
    if let Some(bytes) = ram.get_mut(at as usize..at as usize + size) {
        bytes.copy_from_slice(&word.to_le_bytes()[..size]);
    }
}

/// The script of `walk_cases`.
struct Walks {
    ram: Vec<u8>,
    size: usize,
    scheme: [u8; 6],
    root: u64,
}

impl Walks {
    fn walk(&mut self, wide: bool, n: [u64; 4]) -> String {
        let mut told = [0; 16];
        let ram = &mut self.ram[..self.size];
        let answer = match ours::walk(&self.scheme, self.root, asked(n), ram, &mut told) {
            0 => {
                let (cause, pa, words) = (u32_at(&told, 0), hexed(u64_at(&told, 4)), u32_at(&told, 12));
                let end = if cause == 0 { format!("ok {pa}") } else { format!("fault {cause}") };
                format!("{end} words {words}")
            }
            number => format!("refused {number}"),
        };
        let (at, size) = (n[3] as usize, if wide { 8 } else { 4 });
        let word = ram.get(at..at + size).map_or("-".to_string(), |b| {
            hexed(b.iter().rev().fold(0, |w, &x| w << 8 | x as u64))
        });
        format!("{} {answer} {word}\n", who(n))
    }

    fn perform(&mut self, Step(op, wide, n): Step) -> String {
        match op {
            b'a' => return self.walk(wide, n),
            b'w' => put(&mut self.ram, wide, n[0], n[1]),
            b'z' => self.ram.fill(0),
            b'm' => self.size = n[0] as usize,
            b'r' => self.root = n[0],
            b'p' => self.scheme = scheme_bytes(n),
            _ => return "bad line\n".to_string(),
        }
        String::new()
    }
}

/// The script of `mmu_cases`: a state as its image, and RAM.
struct Calls {
    image: Vec<u8>,
    ram: Vec<u8>,
}

fn config([entries, ways, policy, _]: [u64; 4]) -> [u8; 6] {
    let [low, high] = (entries as u16).to_le_bytes();
    [low, high, ways as u8, policy as u8, 1, 20]
}

impl Calls {
    /// A refused `new` leaves the buffer as it was, where the program is handed the default state.
    fn start(&mut self, n: [u64; 4]) -> String {
        let number = ours::new(&config(n), &mut self.image);
        if number != 0 {
            ours::new(&config([32, 4, 0, 0]), &mut self.image);
        }
        said(number)
    }

    fn access(&mut self, n: [u64; 4]) -> String {
        let mut told = [0; 20];
        let end = match ours::translate(&mut self.image, asked(n), &mut self.ram, &mut told) {
            0 if u32_at(&told, 0) == 0 => format!("ok {} {}", hexed(u64_at(&told, 4)), u32_at(&told, 16)),
            0 => format!("fault {}", u32_at(&told, 0)),
            number => format!("refused {number}"),
        };
        format!("{} {end} words {}\n", who(n), u32_at(&told, 12))
    }

    fn slot(&self, i: u64) -> String {
        let b = &self.image[image::entry(i as usize)..image::entry(i as usize + 1)];
        let yes = |set: bool| if set { "yes" } else { "no" };
        let flag = |k: u8| yes(b[image::FLAGS] >> k & 1 == 1);
        let (vpn, ppn, age) = (hexed(u64_at(b, 0)), hexed(u64_at(b, image::PPN)), u32_at(b, image::AGE));
        let asid = u16::from_le_bytes([b[image::ASID], b[image::ASID + 1]]);
        let (class, reference) = (b[image::CLASS], yes(b[image::REFERENCE] == 1));
        format!("  slot {} {vpn} {ppn} {asid} {class} {age:08x} {} {reference}\n", flag(0), flag(7))
    }

    fn tallies(&self) -> String {
        let tally = |k: usize| u64_at(&self.image, image::TALLIES + 8 * k);
        format!("  hits {} misses {} faults {} evictions {}\n", tally(0), tally(1), tally(3), tally(2))
    }

    fn perform(&mut self, Step(op, wide, n): Step) -> String {
        match op {
            b'a' => return self.access(n),
            b'i' => return self.slot(n[0]),
            b'c' => return self.tallies(),
            b'n' => return self.start(n),
            b'r' => return said(ours::reconfigure(&mut self.image, &config(n))),
            b'p' => return said(ours::set_scheme(&mut self.image, &scheme_bytes(n))),
            b'f' => return said(ours::flush(&mut self.image)),
            b'v' => return said(ours::flush_vaddr(&mut self.image, n[0])),
            b'w' => put(&mut self.ram, wide, n[0], n[1]),
            b'z' => self.ram.fill(0),
            b's' => image::put(&mut self.image, image::SATP, &n[0].to_le_bytes()),
            b'e' => self.image[image::SWITCHES] = n[0] as u8,
            _ => return "bad line\n".to_string(),
        }
        String::new()
    }
}

/// What a script comes to, from its line `# Sv39` on.
fn run(script: &[u8], mut perform: impl FnMut(Step) -> String) -> String {
    let lines = script.chunks_exact(80).skip_while(|line| !line.starts_with(b"# Sv39"));
    let line = |line: &[u8]| match line[0] {
        b'#' => String::new(),
        b't' => String::from_utf8_lossy(&line[2..]).trim_end().to_string(),
        _ => perform(step(line)),
    };
    lines.map(line).collect()
}

fn main() {
    let mut script = Vec::new();
    std::io::stdin().read_to_end(&mut script).unwrap();
    let text = match std::env::args().nth(1).as_deref() {
        Some("walk") => {
            let mut walks = Walks { ram: vec![0; RAM], size: 0, scheme: [0; 6], root: 0 };
            run(&script, |s| walks.perform(s))
        }
        Some("mmu") => {
            let mut calls = Calls { image: vec![0; image::BYTES], ram: vec![0; RAM] };
            ours::new(&config([32, 4, 0, 0]), &mut calls.image);
            run(&script, |s| calls.perform(s))
        }
        _ => return eprintln!("sv39 walk|mmu < SCRIPT"),
    };
    print!("{text}");
}
