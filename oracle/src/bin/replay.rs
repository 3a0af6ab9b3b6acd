//! Runs trace bundles through the bought Rust and prints what the trace program should
//! print. Bundles are the files named, or with none a stream on standard input, each
//! bundle after its length as a little-endian u32. A bundle that is refused, or that
//! has a map of the absolute rule, gets the one line `not comparable`: the bought Rust
//! knows neither refusals nor that rule, so here both are told apart by document 01.

use oracle::bundle::{Owed, owed};
use std::io::{Read, Write};
use std::process::ExitCode;

fn bundles(names: &[String]) -> Result<Vec<Vec<u8>>, String> {
    if !names.is_empty() {
        return names.iter().map(|n| std::fs::read(n).map_err(|e| format!("{n}: {e}"))).collect();
    }
    let mut stream = Vec::new();
    std::io::stdin().read_to_end(&mut stream).map_err(|e| e.to_string())?;
    let mut rest = &stream[..];
    let mut all = Vec::new();
    while !rest.is_empty() {
        let (length, after) = rest.split_first_chunk().ok_or("the stream ends within a length")?;
        let length = u32::from_le_bytes(*length) as usize;
        let (bundle, after) = after.split_at_checked(length).ok_or("the stream ends within a bundle")?;
        all.push(bundle.to_vec());
        rest = after;
    }
    Ok(all)
}

fn main() -> ExitCode {
    let names: Vec<String> = std::env::args().skip(1).collect();
    let all = match bundles(&names) {
        Ok(all) => all,
        Err(e) => {
            eprintln!("{e}");
            return ExitCode::FAILURE;
        }
    };
    let lines = |b: &Vec<u8>| match owed(b) {
        Owed::Ran(_, text) => text,
        Owed::Refused(_) | Owed::Absolute => "not comparable\n".to_string(),
    };
    let text: String = all.iter().map(lines).collect();
    // a reader that closes early is no failure of the replay
    let _ = std::io::stdout().write_all(text.as_bytes());
    ExitCode::SUCCESS
}
