use oracle::bundle::{Owed, owed, u32_at};
use std::io::Write;
use std::process::{Command, Stdio};

/// What `replay` prints for a stream.
fn replay(stream: &[u8]) -> String {
    let mut child = Command::new(env!("CARGO_BIN_EXE_replay"))
        .stdin(Stdio::piped())
        .stdout(Stdio::piped())
        .spawn()
        .unwrap();
    child.stdin.take().unwrap().write_all(stream).unwrap();
    let out = child.wait_with_output().unwrap();
    assert!(out.status.success());
    String::from_utf8(out.stdout).unwrap()
}

/// Document 01's case T after its length; without a window the two rules agree.
fn case_t(rule: u8) -> Vec<u8> {
    let settings = [12, 2, 10, 10, 0, 0, 32, 0, 4, 0, 1, 20, 7, 0, 0, 0, 1, 0, 0, 0x80];
    let mut map = [0; 20];
    (map[0], map[2], map[9]) = (rule, 0x1E, 0x10);
    let accesses: [(u32, [u8; 4]); 7] = [
        (0x1000, [1, 0, 0, 0]),
        (0x3F_FFFC, [1, 0, 0, 0]),
        (0x2000, [2, 0, 0, 0]),
        (0x2004, [2, 0, 0, 0]),
        (0, [1, 1, 0, 0]),
        (0, [0, 0, 1, 0]),
        (0x40_0000, [0, 0, 0, 0]),
    ];
    let mut out = Vec::new();
    for word in [0x4_0001, 1, 52, 20, 2, 72, 20, 3, 92, 8192, 4, 8284, 56u32] {
        out.extend(word.to_le_bytes());
    }
    out.extend(settings);
    out.extend(map);
    out.extend([0; 8192]);
    for (va, rest) in accesses {
        out.extend(va.to_le_bytes());
        out.extend(rest);
    }
    let mut stream = (out.len() as u32).to_le_bytes().to_vec();
    stream.extend(out);
    stream
}

#[test]
fn case_t_by_both_rules() {
    let lines = "\
00001000 ok 00001000 20
003ffffc ok 003ffffc 1
00002000 ok 00002000 20
00002004 ok 00002004 1
00000000 fault 13
flush
00400000 ok 00400000 20
hits 2 misses 3 faults 1 evictions 0
";
    assert_eq!(replay(&case_t(0)), lines);
    assert_eq!(replay(&case_t(1)), "not comparable\n");
}

/// The list is short enough to keep, and each of its bundles can be compared.
#[test]
fn list_is_comparable() {
    let stream = Command::new(env!("CARGO_BIN_EXE_bundles")).output().unwrap().stdout;
    assert!(stream.len() < 2_000_000);
    let lines = replay(&stream);
    assert_eq!(lines.lines().filter(|l| l.starts_with("hits ")).count(), 300);
    assert!(!lines.contains("not comparable"));
}

/// The stored bundles have their answers from this program and from tools/cases/: the same files are refused, with the
/// same numbers.
#[test]
fn stored_refusals() {
    let stream = include_bytes!("../../crates/replay/stdin");
    let mut lines = include_str!("../../crates/replay/stdout").lines();
    let (mut at, mut refused) = (0, [0; 9]);
    while at < stream.len() {
        let end = at + 4 + u32_at(stream, at) as usize;
        let first = lines.next().unwrap();
        if let Owed::Refused(number) = owed(&stream[at + 4..end]) {
            assert_eq!(first, format!("refused {number}"), "the bundle at {at}");
            refused[number as usize] += 1;
        } else {
            assert!(first.starts_with("hits ") || lines.any(|l| l.starts_with("hits ")));
        }
        at = end;
    }
    assert!([1, 2, 4, 5, 6, 7, 8].iter().all(|&n| refused[n] > 0) && lines.next().is_none());
}
