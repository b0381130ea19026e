//! The proved library for Rust: the functions of `include/joguyvi.h` over
//! slices.
//!
//! Each answers the number of the first cause for which it declines, and then
//! leaves all lent slices as they were. The header asks for pointers that are
//! not null, aligned, and to parts that do not overlap where they are filled:
//! Rust's slices are so, empty ones too.

#![warn(missing_docs)]

mod books;
mod rows;

pub use books::{join, pooled_mean, pooled_share, pooled_share_sheet, pooled_total};
pub use rows::{bands, high_step, low_step, mixing, row, rule_row};

/// The functions of the archives; a slice passes as a pointer and its length.
mod archive {
    /// What a share and the chance of having reached a class take: the record,
    /// the class, the year and the bounds' slice.
    pub type ClassBounds = unsafe extern "C" fn(*const u8, usize, u64, u64, *mut u64, usize) -> u8;

    extern "C" {
        pub fn joguyvi_check(bytes: *const u8, bytes_length: usize) -> u8;
        pub fn joguyvi_share(
            bytes: *const u8,
            bytes_length: usize,
            class: u64,
            year: u64,
            out: *mut u64,
            out_length: usize,
        ) -> u8;
        pub fn joguyvi_reached(
            bytes: *const u8,
            bytes_length: usize,
            class: u64,
            year: u64,
            out: *mut u64,
            out_length: usize,
        ) -> u8;
        pub fn joguyvi_mean(
            bytes: *const u8,
            bytes_length: usize,
            year: u64,
            out: *mut u64,
            out_length: usize,
        ) -> u8;
        pub fn joguyvi_total(
            bytes: *const u8,
            bytes_length: usize,
            year: u64,
            out: *mut u64,
            out_length: usize,
        ) -> u8;
        pub fn joguyvi_share_sheet(
            bytes: *const u8,
            bytes_length: usize,
            year: u64,
            low: *mut u64,
            low_length: usize,
            high: *mut u64,
            high_length: usize,
        ) -> u8;
        pub fn joguyvi_sheet(
            bytes: *const u8,
            bytes_length: usize,
            out: *mut u8,
            out_length: usize,
            length: *mut u64,
            length_length: usize,
        ) -> u8;
        pub fn joguyvi_rewrite(
            bytes: *const u8,
            bytes_length: usize,
            version: u64,
            out: *mut u8,
            out_length: usize,
            length: *mut u64,
            length_length: usize,
        ) -> u8;
        pub fn joguyvi_ready(
            number: u64,
            base: u64,
            version: u64,
            out: *mut u8,
            out_length: usize,
            length: *mut u64,
            length_length: usize,
        ) -> u8;
    }
}

/// Room for the text of any sheet, in bytes.
pub const SHEET_ROOM: usize = 132_862;

/// Room for any record of either version, in bytes.
pub const RECORD_ROOM: usize = 455;

/// 0 is no cause.
fn answer(number: u8) -> Result<(), u8> {
    match number {
        0 => Ok(()),
        cause => Err(cause),
    }
}

/// Whether a record is read.
pub fn check(record: &[u8]) -> Result<(), u8> {
    // SAFETY: the pointer and the length are those of a slice.
    answer(unsafe { archive::joguyvi_check(record.as_ptr(), record.len()) })
}

/// One of the archives' two calls for a class and a year, on slices.
fn class_bounds(
    of_archive: archive::ClassBounds,
    record: &[u8],
    class: u64,
    year: u64,
    out: &mut [u64],
) -> Result<(), u8> {
    // SAFETY: the pointers and lengths are those of slices; `out` is lent alone.
    answer(unsafe {
        of_archive(
            record.as_ptr(),
            record.len(),
            class,
            year,
            out.as_mut_ptr(),
            out.len(),
        )
    })
}

/// The low and the high share of a class after a number of years, in parts,
/// into a slice of 2 numbers.
pub fn share(record: &[u8], class: u64, year: u64, out: &mut [u64]) -> Result<(), u8> {
    class_bounds(archive::joguyvi_share, record, class, year, out)
}

/// The low and the high chance of having stood in a class at least once by a
/// year, in parts, into a slice of 2 numbers.
pub fn reached(record: &[u8], class: u64, year: u64, out: &mut [u64]) -> Result<(), u8> {
    class_bounds(archive::joguyvi_reached, record, class, year, out)
}

/// The low and the high mean premium of a year, in cents, into a slice of 2
/// numbers.
pub fn mean(record: &[u8], year: u64, out: &mut [u64]) -> Result<(), u8> {
    // SAFETY: the pointers and lengths are those of slices; `out` is lent alone.
    answer(unsafe {
        archive::joguyvi_mean(
            record.as_ptr(),
            record.len(),
            year,
            out.as_mut_ptr(),
            out.len(),
        )
    })
}

/// The low and the high total of as many premiums as there are years, in
/// cents, into a slice of 2 numbers.
pub fn total(record: &[u8], year: u64, out: &mut [u64]) -> Result<(), u8> {
    // SAFETY: the pointers and lengths are those of slices; `out` is lent alone.
    answer(unsafe {
        archive::joguyvi_total(
            record.as_ptr(),
            record.len(),
            year,
            out.as_mut_ptr(),
            out.len(),
        )
    })
}

/// The low and the high shares of all classes after a number of years, in
/// parts, into two slices of as many numbers as there are classes.
pub fn share_sheet(record: &[u8], year: u64, low: &mut [u64], high: &mut [u64]) -> Result<(), u8> {
    // SAFETY: the pointers and lengths are those of slices; `low` and `high`
    // are lent alone.
    answer(unsafe {
        archive::joguyvi_share_sheet(
            record.as_ptr(),
            record.len(),
            year,
            low.as_mut_ptr(),
            low.len(),
            high.as_mut_ptr(),
            high.len(),
        )
    })
}

/// The sheet's text of any bytes, the line REFUSED too, to the front of `out`,
/// and its length into a slice of 1 number.
pub fn sheet(record: &[u8], out: &mut [u8], length: &mut [u64]) -> Result<(), u8> {
    // SAFETY: the pointers and lengths are those of slices; `out` and `length`
    // are lent alone.
    answer(unsafe {
        archive::joguyvi_sheet(
            record.as_ptr(),
            record.len(),
            out.as_mut_ptr(),
            out.len(),
            length.as_mut_ptr(),
            length.len(),
        )
    })
}

/// The record read and written in a version, 1 or 2, to the front of `out`, and
/// its length into a slice of 1 number. Another version is cause 1, told before
/// the record's own.
pub fn rewrite(record: &[u8], version: u64, out: &mut [u8], length: &mut [u64]) -> Result<(), u8> {
    // SAFETY: the pointers and lengths are those of slices; `out` and `length`
    // are lent alone.
    answer(unsafe {
        archive::joguyvi_rewrite(
            record.as_ptr(),
            record.len(),
            version,
            out.as_mut_ptr(),
            out.len(),
            length.as_mut_ptr(),
            length.len(),
        )
    })
}

/// A ready scheme as a record of a version, 1 or 2, to the front of `out`, and
/// its length into a slice of 1 number. Another version is cause 1, told before
/// those of the number and the base.
pub fn ready(
    number: u64,
    base: u64,
    version: u64,
    out: &mut [u8],
    length: &mut [u64],
) -> Result<(), u8> {
    // SAFETY: the pointers and lengths are those of slices; `out` and `length`
    // are lent alone.
    answer(unsafe {
        archive::joguyvi_ready(
            number,
            base,
            version,
            out.as_mut_ptr(),
            out.len(),
            length.as_mut_ptr(),
            length.len(),
        )
    })
}
