//! The exported calls, as include/hubcrackle.h declares them. bench/ uses this file too.

#![allow(dead_code)]

unsafe extern "C" {
    pub fn hubcrackle_spin_lock_compute_owner(cpu: u32, thread: u64, wide: u32, out: *mut u8, out_len: usize) -> i32;
    pub fn hubcrackle_spin_lock_decode_owner(word: u64, wide: u32, out: *mut u8, out_len: usize) -> i32;
    pub fn hubcrackle_spin_lock_valid(word: u64, cpu: u32, wide: u32, out: *mut u8, out_len: usize) -> i32;
    pub fn hubcrackle_spin_unlock_valid(word: u64, cpu: u32, thread: u64, wide: u32, out: *mut u8, out_len: usize) -> i32;
    pub fn hubcrackle_cpu_mask_mod(mask: u32, enable: u32, disable: u32, running: u32, pin_only: u32, out: *mut u8, out_len: usize) -> i32;
    pub fn hubcrackle_validate_pin_mask(mask: u32, out: *mut u8, out_len: usize) -> i32;
    pub fn hubcrackle_cpu_pin_compute(cpu: u32, max_cpus: u32, out: *mut u8, out_len: usize) -> i32;
    pub fn hubcrackle_compute_ipi_mask(
        current: u32,
        prio: i32,
        mask: u32,
        cpus: *const u8,
        cpus_len: usize,
        num_cpus: u32,
        max_cpus: u32,
        out: *mut u8,
        out_len: usize,
    ) -> i32;
    pub fn hubcrackle_validate_ipi_mask(mask: u32, current: u32, max_cpus: u32, out: *mut u8, out_len: usize) -> i32;
    pub fn hubcrackle_run(setup: u8, log: *const u8, log_len: usize, out: *mut u8, out_len: usize) -> i32;
    pub fn hubcrackle_start(setup: u8, form: *mut u8, form_len: usize) -> i32;
    pub fn hubcrackle_feed(
        form: *mut u8,
        form_len: usize,
        fragment: *const u8,
        fragment_len: usize,
        out: *mut u8,
        out_len: usize,
        records: *mut u32,
    ) -> i32;
    pub fn hubcrackle_finish(form: *const u8, form_len: usize) -> i32;
    pub fn hubcrackle_check(setup: u8, log: *const u8, log_len: usize, claim: *const u8, claim_len: usize, record: *mut u32) -> i32;
}
