//! host.rs: the host of host.c in Rust. It runs the bundle that it is given, goes on from the state that the run left,
//! and asks for a root. Then it makes a state of its own for an Sv39 board, and asks for addresses one by one.

// As in muntesulca.h: each slice is a pointer and its length.
unsafe extern "C" {
    fn muntesulca_run_state(
        file: *const u8,
        file_len: usize,
        ram: *mut u8,
        ram_len: usize,
        out: *mut u8,
        out_len: usize,
        state: *mut u8,
        state_len: usize,
    ) -> usize;
    fn muntesulca_records(
        image: *mut u8,
        image_len: usize,
        records: *const u8,
        records_len: usize,
        ram: *mut u8,
        ram_len: usize,
        out: *mut u8,
        out_len: usize,
    ) -> usize;
    fn muntesulca_root_pa(scheme: *const u8, scheme_len: usize, ram_size: u64) -> u64;
    fn muntesulca_new(config: *const u8, config_len: usize, image: *mut u8, image_len: usize) -> u32;
    fn muntesulca_set_scheme(image: *mut u8, image_len: usize, scheme: *const u8, scheme_len: usize) -> u32;
    fn muntesulca_translate(
        image: *mut u8,
        image_len: usize,
        vaddr: u64,
        kind: u8,
        mode: u8,
        ram: *mut u8,
        ram_len: usize,
        told: *mut u8,
        told_len: usize,
    ) -> u32;
    fn muntesulca_make_satp39(root: u64, asid: u16) -> u64;
}

const SV32: [u8; 6] = [12, 2, 10, 10, 0, 0];
const SV39: [u8; 6] = [12, 3, 9, 9, 9, 0];

/// The text that a call put at the start of `out`; None where a buffer was too short.
fn text(out: &[u8], length: usize) -> Option<&str> {
    std::str::from_utf8(out.get(..length)?).ok()
}

/// Runs a bundle from nothing; RAM and state are left in their buffers.
fn run<'a>(file: &[u8], ram: &mut [u8], out: &'a mut [u8], state: &mut [u8]) -> Option<&'a str> {
    let (f, n) = (file.as_ptr(), file.len());
    let (r, m) = (ram.as_mut_ptr(), ram.len());
    let (s, k) = (state.as_mut_ptr(), state.len());
    let length = unsafe { muntesulca_run_state(f, n, r, m, out.as_mut_ptr(), out.len(), s, k) };
    text(out, length)
}

/// Runs records on a state and RAM.
fn records<'a>(list: &[u8], ram: &mut [u8], out: &'a mut [u8], state: &mut [u8]) -> Option<&'a str> {
    let (l, n) = (list.as_ptr(), list.len());
    let (r, m) = (ram.as_mut_ptr(), ram.len());
    let (s, k) = (state.as_mut_ptr(), state.len());
    let length = unsafe { muntesulca_records(s, k, l, n, r, m, out.as_mut_ptr(), out.len()) };
    text(out, length)
}

/// Load U 2000, store U 2000, flush of 2000, load S 0.
const MORE: [[u8; 8]; 4] = [
    [0, 0x20, 0, 0, 1, 0, 0, 0],
    [0, 0x20, 0, 0, 2, 0, 0, 0],
    [0, 0x20, 0, 0, 0, 0, 2, 0],
    [0, 0, 0, 0, 1, 1, 0, 0],
];

/// 4 entries, 4 ways, Lru, a hit stalls for 1 and a miss for 20.
const CONFIG: [u8; 6] = [4, 0, 4, 0, 1, 20];

const STATE: usize = 3_416;

/// A new state of a scheme; None where it is refused.
fn made(config: &[u8], scheme: &[u8]) -> Option<[u8; STATE]> {
    let mut state = [0; STATE];
    let (s, k) = (state.as_mut_ptr(), state.len());
    let refusal = unsafe { muntesulca_new(config.as_ptr(), config.len(), s, k) };
    let scheme_refusal = unsafe { muntesulca_set_scheme(s, k, scheme.as_ptr(), scheme.len()) };
    (refusal == 0 && scheme_refusal == 0).then_some(state)
}

/// One access by the supervisor, printed.
fn access_to(vaddr: u64, kind: u8, ram: &mut [u8], state: &mut [u8]) {
    let mut told = [0; 20];
    let (s, k) = (state.as_mut_ptr(), state.len());
    let (r, m) = (ram.as_mut_ptr(), ram.len());
    let refusal = unsafe { muntesulca_translate(s, k, vaddr, kind, 1, r, m, told.as_mut_ptr(), told.len()) };
    if refusal != 0 {
        println!("{vaddr:016x} refused {refusal}");
        return;
    }
    let number = |at: usize, n: usize| told[at..at + n].iter().rev().fold(0u64, |all, &b| all << 8 | u64::from(b));
    let (cause, paddr, words, stall) = (number(0, 4), number(4, 8), number(12, 4), number(16, 4));
    println!("{vaddr:016x} cause {cause} address {paddr:016x} words {words} stall {stall}");
}

/// An Sv39 board: the root in frame 1, whose last entry is a gigapage at 8 TiB, to be read and written by the supervisor.
fn board(ram: &mut [u8]) -> Option<()> {
    let mut state = made(&CONFIG, &SV39)?;
    ram[0x1FF8..0x2000].copy_from_slice(&(0x8000_0000u64 << 10 | 7).to_le_bytes());
    let satp = unsafe { muntesulca_make_satp39(0x1000, 0x1234) };
    state[16..24].copy_from_slice(&satp.to_le_bytes());
    state[6] = 5;
    access_to(0xFFFF_FFFF_C000_1234, 1, ram, &mut state);
    access_to(0xFFFF_FFFF_F000_5678, 1, ram, &mut state);
    access_to(0xFFFF_FFFF_C000_1234, 2, ram, &mut state);
    access_to(0x7F_C000_1234, 1, ram, &mut state);
    state[16..24].copy_from_slice(&(9u64 << 60 | 1).to_le_bytes());
    access_to(0xFFFF_FFFF_C000_1234, 1, ram, &mut state);
    println!("the entry: {:016x}", u64::from_le_bytes(ram[0x1FF8..0x2000].try_into().ok()?));
    Some(())
}

fn main() -> Result<(), Box<dyn std::error::Error>> {
    let name = std::env::args().nth(1).ok_or("host FILE.bundle")?;
    let file = std::fs::read(name)?;
    let (mut ram, mut out, mut state) = ([0; 32_768], [0; 25 * 3_000 + 113], [0; STATE]);
    print!("the run:\n{}", run(&file, &mut ram, &mut out, &mut state).ok_or("a buffer is too short")?);
    // the same RAM and state again: what the run cached is still there
    let told = records(MORE.as_flattened(), &mut ram, &mut out, &mut state).ok_or("a buffer is too short")?;
    print!("more records:\n{told}");
    println!("misses in the state: {}", u64::from_le_bytes(state[60..68].try_into()?));
    println!("root of 64 KiB: {:x}", unsafe { muntesulca_root_pa(SV32.as_ptr(), SV32.len(), 65_536) });
    println!("Sv39:");
    Ok(board(&mut ram).ok_or("refused")?)
}
