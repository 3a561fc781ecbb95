//! The calls as the library has them: slices become a pointer and a length.
//!
//! All `unsafe` of this package is here. The library takes each pair as a
//! slice, so what a Rust slice promises is all that it asks for: the pointer
//! is not null and aligned, that many elements are there, and what is lent
//! mutably overlaps nothing else. It keeps no pointer after it returns, it
//! reads `file`, `text` and the names only, and it does not unwind.
#![allow(unsafe_code)]

mod foreign {
    extern "C" {
        pub fn th_check(
            file: *const u8,
            file_length: usize,
            work: *mut u32,
            work_length: usize,
        ) -> i64;

        pub fn th_objects(
            file: *const u8,
            file_length: usize,
            type_name: *const u8,
            type_length: usize,
            work: *mut u32,
            work_length: usize,
        ) -> i64;

        pub fn th_count_values(
            file: *const u8,
            file_length: usize,
            type_name: *const u8,
            type_length: usize,
            field: *const u8,
            field_length: usize,
            kind: u64,
            work: *mut u32,
            work_length: usize,
        ) -> i64;

        pub fn th_fill_values(
            file: *const u8,
            file_length: usize,
            type_name: *const u8,
            type_length: usize,
            field: *const u8,
            field_length: usize,
            kind: u64,
            work: *mut u32,
            work_length: usize,
            out: *mut i64,
            out_length: usize,
        ) -> i64;

        pub fn th_listing(
            file: *const u8,
            file_length: usize,
            work: *mut u32,
            work_length: usize,
            out: *mut u8,
            out_length: usize,
        ) -> i64;

        pub fn th_build(
            text: *const u8,
            text_length: usize,
            work: *mut u32,
            work_length: usize,
            out: *mut u8,
            out_length: usize,
        ) -> i64;
    }
}

pub fn check(file: &[u8], work: &mut [u32]) -> i64 {
    // SAFETY: each pointer and length come from one slice, and `work` is
    // borrowed mutably, so it overlaps nothing.
    unsafe { foreign::th_check(file.as_ptr(), file.len(), work.as_mut_ptr(), work.len()) }
}

pub fn objects(file: &[u8], type_name: &[u8], work: &mut [u32]) -> i64 {
    // SAFETY: as for `check`.
    unsafe {
        foreign::th_objects(
            file.as_ptr(),
            file.len(),
            type_name.as_ptr(),
            type_name.len(),
            work.as_mut_ptr(),
            work.len(),
        )
    }
}

pub fn count_values(
    file: &[u8],
    type_name: &[u8],
    field: &[u8],
    kind: u64,
    work: &mut [u32],
) -> i64 {
    // SAFETY: as for `check`.
    unsafe {
        foreign::th_count_values(
            file.as_ptr(),
            file.len(),
            type_name.as_ptr(),
            type_name.len(),
            field.as_ptr(),
            field.len(),
            kind,
            work.as_mut_ptr(),
            work.len(),
        )
    }
}

pub fn fill_values(
    file: &[u8],
    type_name: &[u8],
    field: &[u8],
    kind: u64,
    work: &mut [u32],
    out: &mut [i64],
) -> i64 {
    // SAFETY: as for `check`; `out` is borrowed mutably too. Every i64 is a
    // value of `out`, so it may be written in part or not at all.
    unsafe {
        foreign::th_fill_values(
            file.as_ptr(),
            file.len(),
            type_name.as_ptr(),
            type_name.len(),
            field.as_ptr(),
            field.len(),
            kind,
            work.as_mut_ptr(),
            work.len(),
            out.as_mut_ptr(),
            out.len(),
        )
    }
}

pub fn listing(file: &[u8], work: &mut [u32], out: &mut [u8]) -> i64 {
    // SAFETY: as for `fill_values`.
    unsafe {
        foreign::th_listing(
            file.as_ptr(),
            file.len(),
            work.as_mut_ptr(),
            work.len(),
            out.as_mut_ptr(),
            out.len(),
        )
    }
}

pub fn build(text: &[u8], work: &mut [u32], out: &mut [u8]) -> i64 {
    // SAFETY: as for `fill_values`.
    unsafe {
        foreign::th_build(
            text.as_ptr(),
            text.len(),
            work.as_mut_ptr(),
            work.len(),
            out.as_mut_ptr(),
            out.len(),
        )
    }
}
