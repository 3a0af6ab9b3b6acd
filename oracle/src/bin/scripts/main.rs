//! Holds the answers of the test programs' scripts (stdout beside stdin in crates/mmu_cases, crates/host_cases,
//! crates/walk_cases and crates/map_cases) to the bought Rust, line by line. It has neither refusals, which are told
//! here by document 01, nor the count of words asked for, nor the reason of a fault: these two are cut off before a
//! line is compared. Lines on maps of the absolute rule are passed over unless document 01 says that both rules give
//! the same map, and so are accesses to addresses of more than 32 bits. What follows a line '# Sv39' is not the bought
//! Rust's, which has no Sv39: see ../../../sv39.

mod mmu;
mod tables;

use mmu::{Host, Mmu};
use oracle::Config;
use oracle::rules::Scheme;
use std::path::Path;
use std::process::ExitCode;
use tables::{Maps, Walk};

/// Bytes of RAM that the programs have.
const RAM: usize = 65_536;

/// A line's letter and its four numbers; the letter is `?` where one of them is no number. A capital letter has columns
/// of eighteen digits, of which the low 32 bits are taken.
struct Step(u8, [u32; 4]);

fn step(line: &[u8]) -> Step {
    let size = if line[0].is_ascii_uppercase() { 18 } else { 9 };
    let number = |k: usize| {
        let text = std::str::from_utf8(&line[1 + size * k..1 + size * (k + 1)]).ok()?;
        Some(u64::from_str_radix(&text.replace(' ', "0"), 16).ok()? as u32)
    };
    match [number(0), number(1), number(2), number(3)] {
        [Some(a), Some(b), Some(c), Some(d)] => Step(line[0].to_ascii_lowercase(), [a, b, c, d]),
        _ => Step(b'?', [0; 4]),
    }
}

fn config([entries, ways, policy, _]: [u32; 4]) -> Config {
    Config { entries: entries as u16, ways: ways as u8, policy: policy as u8, hit_latency: 1, miss_penalty: 20 }
}

fn scheme([offset, levels, widths, _]: [u32; 4]) -> Option<Scheme> {
    let [a, b, c, d] = widths.to_be_bytes();
    Scheme::valid(&[offset as u8, levels as u8, a, b, c, d])
}

fn who(vaddr: u32, kind: u32, mode: u32) -> String {
    let kind = ["fetch", "load", "store"][kind as usize];
    format!(" {vaddr:08x} {kind} {}", ["U", "S", "", "M"][mode as usize])
}

fn said(answer: Result<(), u32>) -> String {
    match answer {
        Ok(()) => " granted\n".to_string(),
        Err(number) => format!(" refused {number}\n"),
    }
}

/// What stands for a line that the bought Rust has no answer for.
const NOT_COMPARABLE: &str = " not comparable\n";

/// What a script comes to, and whether an Sv39 part follows; titles are printed without a line end.
fn run(script: &[u8], mut perform: impl FnMut(Step) -> String) -> (String, bool) {
    let line = |line: &[u8]| match line[0] {
        b'#' => String::new(),
        b't' => String::from_utf8_lossy(&line[2..]).trim_end().to_string(),
        b'A' => NOT_COMPARABLE.to_string(),
        _ => perform(step(line)),
    };
    let mut lines = script.chunks_exact(80);
    let text = lines.by_ref().take_while(|line| !line.starts_with(b"# Sv39")).map(line).collect();
    (text, lines.next().is_some())
}

/// A line without the count of words and the reason of a fault.
fn cut(line: &str) -> String {
    let words = line.find(" words ").map_or(line.len()..line.len(), |at| {
        let after = at + " words ".len();
        let digits = line[after..].find(' ').unwrap_or(line.len() - after);
        at..after + digits
    });
    let mut rest = line.to_string();
    rest.replace_range(words, "");
    let reasons = ["not readable", "not valid", "W without R", "misaligned", "out of levels", "no right", "privilege"];
    let reason = reasons.iter().find_map(|r| rest.find(&format!(" {r} at ")));
    rest.truncate(reason.unwrap_or(rest.len()));
    rest
}

/// How many lines were compared, or the first that differs.
fn compare(name: &str, perform: impl FnMut(Step) -> String) -> Result<usize, String> {
    let folder = Path::new(env!("CARGO_MANIFEST_DIR")).join("../crates").join(name);
    let read = |file: &str| std::fs::read(folder.join(file)).map_err(|e| format!("{name}/{file}: {e}"));
    let (bought, more) = run(&read("stdin")?, perform);
    let ours = String::from_utf8_lossy(&read("stdout")?).into_owned();
    let owed = bought.lines().count();
    if ours.lines().count() < owed || !more && ours.lines().count() > owed {
        return Err(format!("{name}/stdout: another count of lines than its stdin asks for"));
    }
    let mut count = 0;
    for (i, (theirs, our)) in bought.lines().zip(ours.lines()).enumerate() {
        if theirs.ends_with(NOT_COMPARABLE.trim_end()) {
            continue;
        }
        if theirs != cut(our) {
            return Err(format!("{name}/stdout:{}: {our:?}, the bought Rust {theirs:?}", i + 1));
        }
        count += 1;
    }
    Ok(count)
}

fn main() -> ExitCode {
    let (mut mmu, mut host, mut walk, mut maps) = (Mmu::new(), Host::new(), Walk::new(), Maps::new());
    let all = [
        ("mmu_cases", compare("mmu_cases", |s| mmu.perform(s))),
        ("host_cases", compare("host_cases", |s| host.perform(s))),
        ("walk_cases", compare("walk_cases", |s| walk.perform(s))),
        ("map_cases", compare("map_cases", |s| maps.perform(s))),
    ];
    for (name, answer) in &all {
        match answer {
            Ok(n) => println!("{n:>9} lines of {name}: no difference"),
            Err(e) => println!("{e}"),
        }
    }
    if all.iter().all(|(_, answer)| answer.is_ok()) { ExitCode::SUCCESS } else { ExitCode::FAILURE }
}
