//! Where two answers differ first, in words, and how what they were asked is told.

use against::image;
use oracle::bundle::u32_at;

pub type Same = Result<(), String>;

pub fn numbers(what: &str, ours: u64, owed: u64) -> Same {
    if ours == owed { Ok(()) } else { Err(format!("{what}: {ours:#x}, owed {owed:#x}")) }
}

/// Of two strings of bytes, the first place where they differ.
fn place(ours: &[u8], owed: &[u8]) -> Option<usize> {
    let within = ours.iter().zip(owed).position(|(a, b)| a != b);
    within.or((ours.len() != owed.len()).then_some(ours.len().min(owed.len())))
}

pub fn bytes(what: &str, ours: &[u8], owed: &[u8]) -> Same {
    if ours == owed {
        return Ok(());
    }
    let at = place(ours, owed).unwrap();
    Err(format!("{what} at {at:#x}: {:02x?}, owed {:02x?}", ours.get(at), owed.get(at)))
}

pub fn images(ours: &[u8], owed: &[u8]) -> Same {
    if ours == owed {
        return Ok(());
    }
    let at = place(ours, owed).unwrap();
    let name = image::field(at);
    Err(format!("state, {name} (byte {at}): {:02x?}, owed {:02x?}", ours.get(at), owed.get(at)))
}

/// The first line that differs.
pub fn texts(ours: &[u8], owed: &str) -> Same {
    if ours == owed.as_bytes() {
        return Ok(());
    }
    let text = String::from_utf8_lossy(ours);
    let (a, b): (Vec<&str>, Vec<&str>) = (text.lines().collect(), owed.lines().collect());
    let line = (0..a.len().max(b.len())).find(|&i| a.get(i) != b.get(i));
    match line {
        Some(i) => Err(format!("line {}: {:?}, owed {:?}", i + 1, a.get(i), b.get(i))),
        None => Err("the last line's end".to_string()),
    }
}

/// RAM by its words that are not zero.
pub fn ram(bytes: &[u8]) -> String {
    let words = bytes.chunks(4).enumerate().filter(|(_, w)| w.iter().any(|&x| x != 0));
    let words: Vec<String> = words.map(|(i, w)| format!("{:x}: {w:02x?}", 4 * i)).collect();
    format!("RAM of {} bytes, zero but for {}\n", bytes.len(), words.join(", "))
}

/// A list of records, one on a line.
pub fn records(list: &[u8]) -> String {
    let line = |a: &[u8]| match a.len() {
        8 => format!("  {:08x} access {} privilege {} operation {} zero {}\n", u32_at(a, 0), a[4], a[5], a[6], a[7]),
        _ => format!("  {a:02x?}\n"),
    };
    list.chunks(8).map(line).collect()
}
