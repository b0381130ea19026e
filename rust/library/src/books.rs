//! Shares, means and totals of a record pooled over a book, and books joined,
//! as in the rest of the library. A book is a slice of 32 counts; those beyond
//! s are ignored where it is pooled.

use crate::answer;

/// The functions of the archives; a slice passes as a pointer and its length.
mod archive {
    /// What a pooled mean and a pooled total take: the record, the book, the
    /// year and the bounds' slice.
    pub type Money =
        unsafe extern "C" fn(*const u8, usize, *const u32, usize, u64, *mut u64, usize) -> u8;

    extern "C" {
        pub fn joguyvi_pooled_share(
            bytes: *const u8,
            bytes_length: usize,
            book: *const u32,
            book_length: usize,
            class: u64,
            year: u64,
            out: *mut u64,
            out_length: usize,
        ) -> u8;
        pub fn joguyvi_pooled_mean(
            bytes: *const u8,
            bytes_length: usize,
            book: *const u32,
            book_length: usize,
            year: u64,
            out: *mut u64,
            out_length: usize,
        ) -> u8;
        pub fn joguyvi_pooled_total(
            bytes: *const u8,
            bytes_length: usize,
            book: *const u32,
            book_length: usize,
            year: u64,
            out: *mut u64,
            out_length: usize,
        ) -> u8;
        pub fn joguyvi_pooled_share_sheet(
            bytes: *const u8,
            bytes_length: usize,
            book: *const u32,
            book_length: usize,
            year: u64,
            low: *mut u64,
            low_length: usize,
            high: *mut u64,
            high_length: usize,
        ) -> u8;
        pub fn joguyvi_join(
            first: *const u32,
            first_length: usize,
            second: *const u32,
            second_length: usize,
            out: *mut u32,
            out_length: usize,
        ) -> u8;
    }
}

/// The low and the high share of a class after a number of years, in parts,
/// pooled over a book, into a slice of 2 numbers.
pub fn pooled_share(
    record: &[u8],
    book: &[u32],
    class: u64,
    year: u64,
    out: &mut [u64],
) -> Result<(), u8> {
    // SAFETY: the pointers and lengths are those of slices; `out` is lent alone.
    answer(unsafe {
        archive::joguyvi_pooled_share(
            record.as_ptr(),
            record.len(),
            book.as_ptr(),
            book.len(),
            class,
            year,
            out.as_mut_ptr(),
            out.len(),
        )
    })
}

/// One of the archives' two calls for pooled money, on slices.
fn money(
    of_archive: archive::Money,
    record: &[u8],
    book: &[u32],
    year: u64,
    out: &mut [u64],
) -> Result<(), u8> {
    // SAFETY: the pointers and lengths are those of slices; `out` is lent alone.
    answer(unsafe {
        of_archive(
            record.as_ptr(),
            record.len(),
            book.as_ptr(),
            book.len(),
            year,
            out.as_mut_ptr(),
            out.len(),
        )
    })
}

/// The low and the high mean premium of a year, in cents, pooled over a book,
/// into a slice of 2 numbers.
pub fn pooled_mean(record: &[u8], book: &[u32], year: u64, out: &mut [u64]) -> Result<(), u8> {
    money(archive::joguyvi_pooled_mean, record, book, year, out)
}

/// The low and the high total of as many premiums as there are years, in
/// cents, pooled over a book, into a slice of 2 numbers.
pub fn pooled_total(record: &[u8], book: &[u32], year: u64, out: &mut [u64]) -> Result<(), u8> {
    money(archive::joguyvi_pooled_total, record, book, year, out)
}

/// The low and the high shares of all classes after a number of years, in
/// parts, pooled over a book, into two slices of as many numbers as there are
/// classes.
pub fn pooled_share_sheet(
    record: &[u8],
    book: &[u32],
    year: u64,
    low: &mut [u64],
    high: &mut [u64],
) -> Result<(), u8> {
    // SAFETY: the pointers and lengths are those of slices; `low` and `high`
    // are lent alone.
    answer(unsafe {
        archive::joguyvi_pooled_share_sheet(
            record.as_ptr(),
            record.len(),
            book.as_ptr(),
            book.len(),
            year,
            low.as_mut_ptr(),
            low.len(),
            high.as_mut_ptr(),
            high.len(),
        )
    })
}

/// The book of two books together, all counts added, into a slice of 32.
pub fn join(first: &[u32], second: &[u32], out: &mut [u32]) -> Result<(), u8> {
    // SAFETY: the pointers and lengths are those of slices; `out` is lent alone.
    answer(unsafe {
        archive::joguyvi_join(
            first.as_ptr(),
            first.len(),
            second.as_ptr(),
            second.len(),
            out.as_mut_ptr(),
            out.len(),
        )
    })
}
