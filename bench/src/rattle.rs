//! The functions of crates/benched.

/// The nonces of an exchange, as octets.
#[repr(C)]
#[derive(Clone, Copy)]
pub struct NoncePair {
    pub initiator: [u8; 32],
    pub responder: [u8; 32],
}

mod raw {
    use super::NoncePair;

    unsafe extern "C" {
        pub fn benched_decode(octets: *const u8, len: usize) -> u64;
        pub fn benched_encode(octets: *const u8, len: usize, out: *mut u8, out_len: usize, times: u32) -> u64;
        pub safe fn benched_lower(a: &NoncePair, b: &NoncePair, c: &NoncePair, d: &NoncePair, times: u32) -> u64;
        pub safe fn benched_loser(a: &NoncePair, b: &NoncePair, c: &NoncePair, d: &NoncePair, times: u32) -> u64;
        pub fn benched_fill(table: bool, rows: u32, nonce: *const u8, len: usize) -> u64;
        pub fn benched_put_and_drop(table: bool, rows: u32, nonce: *const u8, len: usize, times: u32) -> u64;
        pub fn benched_find(table: bool, rows: u32, nonce: *const u8, len: usize, times: u32) -> u64;
        pub fn benched_read(table: bool, rows: u32, nonce: *const u8, len: usize, times: u32) -> u64;
        pub safe fn benched_made(table: bool) -> u64;
        pub fn benched_rekey(table: bool, low: *const u8, low_len: usize, high: *const u8, high_len: usize) -> u64;
        pub fn benched_collision(table: bool, low: *const u8, low_len: usize, high: *const u8, high_len: usize) -> u64;
    }
}

// Each takes references to what is there as long as the call, and no two of which one is written overlap; nothing else is owed.

pub fn decode(octets: &[u8]) -> u64 {
    unsafe { raw::benched_decode(octets.as_ptr(), octets.len()) }
}

pub fn encode(octets: &[u8], out: &mut [u8], times: u32) -> u64 {
    unsafe { raw::benched_encode(octets.as_ptr(), octets.len(), out.as_mut_ptr(), out.len(), times) }
}

pub fn lower([a, b, c, d]: &[NoncePair; 4], times: u32) -> u64 {
    raw::benched_lower(a, b, c, d, times)
}

pub fn loser([a, b, c, d]: &[NoncePair; 4], times: u32) -> u64 {
    raw::benched_loser(a, b, c, d, times)
}

pub fn fill(table: bool, rows: u32, nonce: &[u8]) -> u64 {
    unsafe { raw::benched_fill(table, rows, nonce.as_ptr(), nonce.len()) }
}

pub fn put_and_drop(table: bool, rows: u32, nonce: &[u8], times: u32) -> u64 {
    unsafe { raw::benched_put_and_drop(table, rows, nonce.as_ptr(), nonce.len(), times) }
}

pub fn find(table: bool, rows: u32, nonce: &[u8], times: u32) -> u64 {
    unsafe { raw::benched_find(table, rows, nonce.as_ptr(), nonce.len(), times) }
}

pub fn read(table: bool, rows: u32, nonce: &[u8], times: u32) -> u64 {
    unsafe { raw::benched_read(table, rows, nonce.as_ptr(), nonce.len(), times) }
}

pub fn made(table: bool) -> u64 {
    raw::benched_made(table)
}

pub fn rekey(table: bool, low: &[u8], high: &[u8]) -> u64 {
    unsafe { raw::benched_rekey(table, low.as_ptr(), low.len(), high.as_ptr(), high.len()) }
}

pub fn collision(table: bool, low: &[u8], high: &[u8]) -> u64 {
    unsafe { raw::benched_collision(table, low.as_ptr(), low.len(), high.as_ptr(), high.len()) }
}
