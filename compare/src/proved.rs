//! The proved library. This is the only place that calls it.

use compare::reader::{Asked, Reader};

#[link(name = "capi", kind = "static")]
extern "C" {
    fn th_check(file: *const u8, file_length: usize, work: *mut u32, work_length: usize) -> i64;

    fn th_objects(
        file: *const u8,
        file_length: usize,
        type_name: *const u8,
        type_length: usize,
        work: *mut u32,
        work_length: usize,
    ) -> i64;

    fn th_count_values(
        file: *const u8,
        file_length: usize,
        type_name: *const u8,
        type_length: usize,
        field_name: *const u8,
        field_length: usize,
        kind: u64,
        work: *mut u32,
        work_length: usize,
    ) -> i64;

    fn th_fill_values(
        file: *const u8,
        file_length: usize,
        type_name: *const u8,
        type_length: usize,
        field_name: *const u8,
        field_length: usize,
        kind: u64,
        work: *mut u32,
        work_length: usize,
        out: *mut i64,
        out_length: usize,
    ) -> i64;

    fn th_listing(
        file: *const u8,
        file_length: usize,
        work: *mut u32,
        work_length: usize,
        out: *mut u8,
        out_length: usize,
    ) -> i64;

    fn th_build(
        text: *const u8,
        text_length: usize,
        work: *mut u32,
        work_length: usize,
        out: *mut u8,
        out_length: usize,
    ) -> i64;
}

/// The proved library as a reader.
pub struct Proved;

impl Reader for Proved {
    fn check(&self, file: &[u8], table: &mut [u32]) -> i64 {
        // SAFETY: each slice goes as its first element and its length, not null and aligned even where it is empty. The
        // function reads the file and writes the table, and keeps neither.
        unsafe { th_check(file.as_ptr(), file.len(), table.as_mut_ptr(), table.len()) }
    }

    fn objects(&self, file: &[u8], type_name: &[u8], table: &mut [u32]) -> i64 {
        // SAFETY: as for `check`; the name is only read.
        unsafe {
            th_objects(
                file.as_ptr(),
                file.len(),
                type_name.as_ptr(),
                type_name.len(),
                table.as_mut_ptr(),
                table.len(),
            )
        }
    }

    fn count_values(&self, file: &[u8], asked: Asked<'_>, table: &mut [u32]) -> i64 {
        // SAFETY: as for `check`; the names are only read.
        unsafe {
            th_count_values(
                file.as_ptr(),
                file.len(),
                asked.type_name.as_ptr(),
                asked.type_name.len(),
                asked.field_name.as_ptr(),
                asked.field_name.len(),
                asked.kind,
                table.as_mut_ptr(),
                table.len(),
            )
        }
    }

    fn fill_values(
        &self,
        file: &[u8],
        asked: Asked<'_>,
        table: &mut [u32],
        out: &mut [i64],
    ) -> i64 {
        // SAFETY: as for `check`; the names are only read. The table and the output are two slices lent to be changed, so
        // they do not overlap each other or what is read.
        unsafe {
            th_fill_values(
                file.as_ptr(),
                file.len(),
                asked.type_name.as_ptr(),
                asked.type_name.len(),
                asked.field_name.as_ptr(),
                asked.field_name.len(),
                asked.kind,
                table.as_mut_ptr(),
                table.len(),
                out.as_mut_ptr(),
                out.len(),
            )
        }
    }

    fn listing(&self, file: &[u8], table: &mut [u32], text: &mut [u8]) -> i64 {
        // SAFETY: as for `fill_values`.
        unsafe {
            th_listing(
                file.as_ptr(),
                file.len(),
                table.as_mut_ptr(),
                table.len(),
                text.as_mut_ptr(),
                text.len(),
            )
        }
    }

    fn build(&self, text: &[u8], table: &mut [u32], file: &mut [u8]) -> i64 {
        // SAFETY: as for `fill_values`; the text is only read.
        unsafe {
            th_build(
                text.as_ptr(),
                text.len(),
                table.as_mut_ptr(),
                table.len(),
                file.as_mut_ptr(),
                file.len(),
            )
        }
    }
}
