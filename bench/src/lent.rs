//! What the crate `timed` exports for this benchmark alone: a list of accesses through `host`, and the same by value
//! from the same archive, to be held against it.
//!
//! Through `host` the state goes by value from one record to the next, and each access copies it into a local, lends that
//! to `host::translate`, and copies it back: two copies that a host does not make that keeps its MMU in place.

type List = unsafe extern "C" fn(*mut u8, usize, *const u8, usize, *mut u8, usize) -> u32;

unsafe extern "C" {
    fn muntesulca_events_lent(image: *mut u8, k: usize, records: *const u8, n: usize, ram: *mut u8, m: usize) -> u32;
    fn muntesulca_events_value(image: *mut u8, k: usize, records: *const u8, n: usize, ram: *mut u8, m: usize) -> u32;
}

/// Hands over whole slices, with their lengths; the library keeps none of them.
fn called(list: List, image: &mut [u8], records: &[u8], ram: &mut [u8]) -> u32 {
    let (r, n) = (records.as_ptr(), records.len());
    unsafe { list(image.as_mut_ptr(), image.len(), r, n, ram.as_mut_ptr(), ram.len()) }
}

pub fn through_host(image: &mut [u8], records: &[u8], ram: &mut [u8]) -> u32 {
    called(muntesulca_events_lent, image, records, ram)
}

pub fn by_value(image: &mut [u8], records: &[u8], ram: &mut [u8]) -> u32 {
    called(muntesulca_events_value, image, records, ram)
}
