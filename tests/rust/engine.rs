//! The engine's calls, as include/engine.h declares them, on arrays of Rust.

use crate::model::Lent;

extern "C" {
    fn engine_translate(
        file: *const u8,
        file_length: usize,
        kinds: *mut u8,
        kinds_length: usize,
        operands: *mut i64,
        operands_length: usize,
    ) -> u64;
    fn engine_open(
        file: *const u8,
        file_length: usize,
        kinds: *mut u8,
        kinds_length: usize,
        operands: *mut i64,
        operands_length: usize,
        slots: *mut i64,
        slots_length: usize,
        heads: *mut u32,
        heads_length: usize,
    ) -> u64;
    fn engine_check(
        file: *const u8,
        file_length: usize,
        kinds: *mut u8,
        kinds_length: usize,
        operands: *mut i64,
        operands_length: usize,
        slots: *const i64,
        slots_length: usize,
        heads: *const u32,
        heads_length: usize,
    ) -> u64;
    fn engine_deliver(
        file: *const u8,
        file_length: usize,
        kinds: *mut u8,
        kinds_length: usize,
        operands: *mut i64,
        operands_length: usize,
        slots: *mut i64,
        slots_length: usize,
        heads: *mut u32,
        heads_length: usize,
        readings: *const i64,
        readings_length: usize,
        budget: u64,
    ) -> u64;
    fn engine_save(
        file: *const u8,
        file_length: usize,
        kinds: *mut u8,
        kinds_length: usize,
        operands: *mut i64,
        operands_length: usize,
        slots: *const i64,
        slots_length: usize,
        heads: *const u32,
        heads_length: usize,
        saved: *mut u8,
        saved_length: usize,
    ) -> u64;
    fn engine_restore(
        file: *const u8,
        file_length: usize,
        kinds: *mut u8,
        kinds_length: usize,
        operands: *mut i64,
        operands_length: usize,
        slots: *mut i64,
        slots_length: usize,
        heads: *mut u32,
        heads_length: usize,
        saved: *const u8,
        saved_length: usize,
    ) -> u64;
    fn engine_check_code(
        kinds: *const u8,
        kinds_length: usize,
        operands: *const i64,
        operands_length: usize,
        depth: u64,
    ) -> u64;
    fn engine_deliver_code(
        kinds: *const u8,
        kinds_length: usize,
        operands: *const i64,
        operands_length: usize,
        depth: u64,
        slots: *mut i64,
        slots_length: usize,
        heads: *mut u32,
        heads_length: usize,
        readings: *const i64,
        readings_length: usize,
        budget: u64,
    ) -> u64;
}

// The calls ask for nothing that borrowed slices do not have: aligned, not null, apart.

pub fn translate(file: &[u8], lent: &mut Lent) -> u64 {
    unsafe {
        engine_translate(
            file.as_ptr(),
            file.len(),
            lent.kinds.as_mut_ptr(),
            lent.kinds.len(),
            lent.operands.as_mut_ptr(),
            lent.operands.len(),
        )
    }
}

pub fn open(file: &[u8], lent: &mut Lent) -> u64 {
    unsafe {
        engine_open(
            file.as_ptr(),
            file.len(),
            lent.kinds.as_mut_ptr(),
            lent.kinds.len(),
            lent.operands.as_mut_ptr(),
            lent.operands.len(),
            lent.slots.as_mut_ptr(),
            lent.slots.len(),
            lent.heads.as_mut_ptr(),
            lent.heads.len(),
        )
    }
}

pub fn check(file: &[u8], lent: &mut Lent) -> u64 {
    unsafe {
        engine_check(
            file.as_ptr(),
            file.len(),
            lent.kinds.as_mut_ptr(),
            lent.kinds.len(),
            lent.operands.as_mut_ptr(),
            lent.operands.len(),
            lent.slots.as_ptr(),
            lent.slots.len(),
            lent.heads.as_ptr(),
            lent.heads.len(),
        )
    }
}

pub fn deliver(file: &[u8], lent: &mut Lent, readings: &[i64], budget: u64) -> u64 {
    unsafe {
        engine_deliver(
            file.as_ptr(),
            file.len(),
            lent.kinds.as_mut_ptr(),
            lent.kinds.len(),
            lent.operands.as_mut_ptr(),
            lent.operands.len(),
            lent.slots.as_mut_ptr(),
            lent.slots.len(),
            lent.heads.as_mut_ptr(),
            lent.heads.len(),
            readings.as_ptr(),
            readings.len(),
            budget,
        )
    }
}

pub fn save(file: &[u8], lent: &mut Lent, buffer: &mut [u8]) -> u64 {
    unsafe {
        engine_save(
            file.as_ptr(),
            file.len(),
            lent.kinds.as_mut_ptr(),
            lent.kinds.len(),
            lent.operands.as_mut_ptr(),
            lent.operands.len(),
            lent.slots.as_ptr(),
            lent.slots.len(),
            lent.heads.as_ptr(),
            lent.heads.len(),
            buffer.as_mut_ptr(),
            buffer.len(),
        )
    }
}

pub fn restore(file: &[u8], lent: &mut Lent, saved: &[u8]) -> u64 {
    unsafe {
        engine_restore(
            file.as_ptr(),
            file.len(),
            lent.kinds.as_mut_ptr(),
            lent.kinds.len(),
            lent.operands.as_mut_ptr(),
            lent.operands.len(),
            lent.slots.as_mut_ptr(),
            lent.slots.len(),
            lent.heads.as_mut_ptr(),
            lent.heads.len(),
            saved.as_ptr(),
            saved.len(),
        )
    }
}

pub fn check_code(lent: &Lent, depth: u64) -> u64 {
    unsafe {
        engine_check_code(
            lent.kinds.as_ptr(),
            lent.kinds.len(),
            lent.operands.as_ptr(),
            lent.operands.len(),
            depth,
        )
    }
}

pub fn deliver_code(lent: &mut Lent, depth: u64, readings: &[i64], budget: u64) -> u64 {
    unsafe {
        engine_deliver_code(
            lent.kinds.as_ptr(),
            lent.kinds.len(),
            lent.operands.as_ptr(),
            lent.operands.len(),
            depth,
            lent.slots.as_mut_ptr(),
            lent.slots.len(),
            lent.heads.as_mut_ptr(),
            lent.heads.len(),
            readings.as_ptr(),
            readings.len(),
            budget,
        )
    }
}
