//! The exported functions of our library, as they are declared in ../../../examples/muntesulca.h, each behind a call
//! on slices.

unsafe extern "C" {
    fn muntesulca_run(file: *const u8, n: usize, ram: *mut u8, m: usize, out: *mut u8, l: usize) -> usize;
    fn muntesulca_run_state(
        file: *const u8,
        n: usize,
        ram: *mut u8,
        m: usize,
        out: *mut u8,
        l: usize,
        state: *mut u8,
        k: usize,
    ) -> usize;
    fn muntesulca_records(
        image: *mut u8,
        k: usize,
        records: *const u8,
        n: usize,
        ram: *mut u8,
        m: usize,
        out: *mut u8,
        l: usize,
    ) -> usize;
    fn muntesulca_events(image: *mut u8, k: usize, records: *const u8, n: usize, ram: *mut u8, m: usize) -> u32;
    fn muntesulca_new(config: *const u8, n: usize, image: *mut u8, k: usize) -> u32;
    fn muntesulca_set_scheme(image: *mut u8, k: usize, scheme: *const u8, n: usize) -> u32;
    fn muntesulca_reconfigure(image: *mut u8, k: usize, config: *const u8, n: usize) -> u32;
    fn muntesulca_install(scheme: *const u8, n: usize, map: *const u8, l: usize, ram: *mut u8, m: usize) -> u32;
    fn muntesulca_walk(
        scheme: *const u8,
        n: usize,
        root_ppn: u64,
        vaddr: u64,
        kind: u8,
        mode: u8,
        ram: *mut u8,
        m: usize,
        told: *mut u8,
        k: usize,
    ) -> u32;
    fn muntesulca_flush(image: *mut u8, k: usize) -> u32;
    fn muntesulca_flush_vaddr(image: *mut u8, k: usize, vaddr: u64) -> u32;
    fn muntesulca_translate(
        image: *mut u8,
        k: usize,
        vaddr: u64,
        kind: u8,
        mode: u8,
        ram: *mut u8,
        m: usize,
        told: *mut u8,
        l: usize,
    ) -> u32;
    fn muntesulca_root_pa(scheme: *const u8, n: usize, ram_size: u64) -> u64;
    fn muntesulca_make_satp(root: u32, asid: u16) -> u32;
    fn muntesulca_make_satp39(root: u64, asid: u16) -> u64;
    fn muntesulca_delta_bytes(mib: i32) -> u32;
}

/// Bytes of output, or None where a buffer is too short.
fn written(n: usize) -> Option<usize> {
    (n != usize::MAX).then_some(n)
}

// Each call hands over whole slices, with their lengths; the library keeps none of them.

pub fn run(file: &[u8], ram: &mut [u8], out: &mut [u8]) -> Option<usize> {
    written(unsafe {
        muntesulca_run(file.as_ptr(), file.len(), ram.as_mut_ptr(), ram.len(), out.as_mut_ptr(), out.len())
    })
}

pub fn run_state(file: &[u8], ram: &mut [u8], out: &mut [u8], state: &mut [u8]) -> Option<usize> {
    written(unsafe {
        muntesulca_run_state(
            file.as_ptr(),
            file.len(),
            ram.as_mut_ptr(),
            ram.len(),
            out.as_mut_ptr(),
            out.len(),
            state.as_mut_ptr(),
            state.len(),
        )
    })
}

pub fn records(image: &mut [u8], records: &[u8], ram: &mut [u8], out: &mut [u8]) -> Option<usize> {
    written(unsafe {
        muntesulca_records(
            image.as_mut_ptr(),
            image.len(),
            records.as_ptr(),
            records.len(),
            ram.as_mut_ptr(),
            ram.len(),
            out.as_mut_ptr(),
            out.len(),
        )
    })
}

pub fn events(image: &mut [u8], records: &[u8], ram: &mut [u8]) -> u32 {
    let (r, n) = (records.as_ptr(), records.len());
    unsafe { muntesulca_events(image.as_mut_ptr(), image.len(), r, n, ram.as_mut_ptr(), ram.len()) }
}

pub fn new(config: &[u8], image: &mut [u8]) -> u32 {
    unsafe { muntesulca_new(config.as_ptr(), config.len(), image.as_mut_ptr(), image.len()) }
}

pub fn set_scheme(image: &mut [u8], scheme: &[u8]) -> u32 {
    unsafe { muntesulca_set_scheme(image.as_mut_ptr(), image.len(), scheme.as_ptr(), scheme.len()) }
}

pub fn reconfigure(image: &mut [u8], config: &[u8]) -> u32 {
    unsafe { muntesulca_reconfigure(image.as_mut_ptr(), image.len(), config.as_ptr(), config.len()) }
}

pub fn install(scheme: &[u8], map: &[u8], ram: &mut [u8]) -> u32 {
    let (s, n) = (scheme.as_ptr(), scheme.len());
    unsafe { muntesulca_install(s, n, map.as_ptr(), map.len(), ram.as_mut_ptr(), ram.len()) }
}

/// Who asks: the address, and the bundle's numbers for kind and privilege.
#[derive(Clone, Copy)]
pub struct Access(pub u64, pub u8, pub u8);

pub fn flush(image: &mut [u8]) -> u32 {
    unsafe { muntesulca_flush(image.as_mut_ptr(), image.len()) }
}

pub fn flush_vaddr(image: &mut [u8], vaddr: u64) -> u32 {
    unsafe { muntesulca_flush_vaddr(image.as_mut_ptr(), image.len(), vaddr) }
}

pub fn translate(image: &mut [u8], q: Access, ram: &mut [u8], told: &mut [u8]) -> u32 {
    let (i, k, t, l) = (image.as_mut_ptr(), image.len(), told.as_mut_ptr(), told.len());
    unsafe { muntesulca_translate(i, k, q.0, q.1, q.2, ram.as_mut_ptr(), ram.len(), t, l) }
}

pub fn walk(scheme: &[u8], root_ppn: u64, q: Access, ram: &mut [u8], told: &mut [u8]) -> u32 {
    unsafe {
        muntesulca_walk(
            scheme.as_ptr(),
            scheme.len(),
            root_ppn,
            q.0,
            q.1,
            q.2,
            ram.as_mut_ptr(),
            ram.len(),
            told.as_mut_ptr(),
            told.len(),
        )
    }
}

pub fn root_pa(scheme: &[u8], ram_size: u64) -> u64 {
    unsafe { muntesulca_root_pa(scheme.as_ptr(), scheme.len(), ram_size) }
}

pub fn make_satp(root: u32, asid: u16) -> u32 {
    unsafe { muntesulca_make_satp(root, asid) }
}

pub fn make_satp39(root: u64, asid: u16) -> u64 {
    unsafe { muntesulca_make_satp39(root, asid) }
}

pub fn delta_bytes(mib: i32) -> u32 {
    unsafe { muntesulca_delta_bytes(mib) }
}
