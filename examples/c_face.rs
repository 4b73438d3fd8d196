//! The C face as Rust declares it. Nothing checks these lines against the library: they repeat include/sigtree.h.
//! The tables are the signatures `s` of length `n`, the links `l` of length `m` and the nodes `d` of length `e`.
#![allow(dead_code)]

extern "C" {
    pub fn sigtree_clear(s: *mut u64, n: usize, l: *mut u32, m: usize, d: *mut u64, e: usize, width: u32) -> u32;
    pub fn sigtree_file(
        s: *mut u64, n: usize, l: *mut u32, m: usize, d: *mut u64, e: usize, block: u32, signature: *const u64, w: usize,
    ) -> u32;
    pub fn sigtree_withdraw(s: *mut u64, n: usize, l: *mut u32, m: usize, d: *mut u64, e: usize, block: u32) -> u32;
    pub fn sigtree_rebuild(s: *const u64, n: usize, l: *mut u32, m: usize, d: *mut u64, e: usize, scratch: *mut u32, k: usize) -> u32;
    pub fn sigtree_search(
        s: *const u64, n: usize, l: *const u32, m: usize, d: *const u64, e: usize, query: *const u64, w: usize, marks: *mut u8, k: usize,
        output: *mut u32, o: usize, found: *mut u32, compares: *mut u32, bits_read: *mut u32,
    ) -> u32;
    pub fn sigtree_audit(s: *const u64, n: usize, l: *const u32, m: usize, d: *const u64, e: usize) -> u32;
    pub fn sigtree_pack(s: *const u64, n: usize, old: *const u32, k: usize, l: *mut u32, m: usize, d: *mut u64, e: usize) -> u32;
    pub fn sigtree_unpack(s: *const u64, n: usize, l: *const u32, m: usize, d: *const u64, e: usize, old: *mut u32, k: usize) -> u32;
    pub fn sigtree_slip(
        slip: *const u8, length: usize, s: *mut u64, n: usize, l: *mut u32, m: usize, d: *mut u64, e: usize, scratch: *mut u32, c: usize,
        marks: *mut u8, k: usize, output: *mut u32, o: usize, found: *mut u32, compares: *mut u32, bits_read: *mut u32,
    ) -> u32;
    pub fn sigtree_sign(text: *const u8, length: usize, width: u32, k: u32, signature: *mut u64, w: usize) -> u32;
    pub fn sigtree_word(text: *const u8, length: usize, n: u32, start: *mut usize, size: *mut usize) -> u32;
}
