//! Rows, one-year steps, rule rows, bands and the mixing check of a record, as
//! in the rest of the library.

use crate::answer;

/// The functions of the archives; a slice passes as a pointer and its length.
mod archive {
    /// What both steps take: the record, the payoff, the class, the figure's
    /// slice and the row's.
    pub type Step = unsafe extern "C" fn(
        *const u8,
        usize,
        *const u64,
        usize,
        u64,
        *mut u64,
        usize,
        *mut u64,
        usize,
    ) -> u8;

    extern "C" {
        pub fn joguyvi_row(
            bytes: *const u8,
            bytes_length: usize,
            class: u64,
            lower: *mut u64,
            lower_length: usize,
            upper: *mut u64,
            upper_length: usize,
        ) -> u8;
        pub fn joguyvi_low_step(
            bytes: *const u8,
            bytes_length: usize,
            payoff: *const u64,
            payoff_length: usize,
            class: u64,
            figure: *mut u64,
            figure_length: usize,
            row: *mut u64,
            row_length: usize,
        ) -> u8;
        pub fn joguyvi_high_step(
            bytes: *const u8,
            bytes_length: usize,
            payoff: *const u64,
            payoff_length: usize,
            class: u64,
            figure: *mut u64,
            figure_length: usize,
            row: *mut u64,
            row_length: usize,
        ) -> u8;
        pub fn joguyvi_rule_row(
            bytes: *const u8,
            bytes_length: usize,
            class: u64,
            out: *mut u8,
            out_length: usize,
        ) -> u8;
        pub fn joguyvi_bands(
            bytes: *const u8,
            bytes_length: usize,
            lower: *mut u32,
            lower_length: usize,
            upper: *mut u32,
            upper_length: usize,
        ) -> u8;
        pub fn joguyvi_mixing(
            bytes: *const u8,
            bytes_length: usize,
            count: *mut u64,
            count_length: usize,
        ) -> u8;
    }
}

/// The tight row of a class, lower and upper entries, into two slices of 32
/// numbers; 0 beyond s. Each end is the least or the greatest entry that some
/// stochastic row inside the class's interval row has.
pub fn row(record: &[u8], class: u64, lower: &mut [u64], upper: &mut [u64]) -> Result<(), u8> {
    // SAFETY: the pointers and lengths are those of slices; `lower` and
    // `upper` are lent alone.
    answer(unsafe {
        archive::joguyvi_row(
            record.as_ptr(),
            record.len(),
            class,
            lower.as_mut_ptr(),
            lower.len(),
            upper.as_mut_ptr(),
            upper.len(),
        )
    })
}

/// One of the archives' two steps, on slices.
fn step(
    of_archive: archive::Step,
    record: &[u8],
    payoff: &[u64],
    class: u64,
    figure: &mut [u64],
    row: &mut [u64],
) -> Result<(), u8> {
    // SAFETY: the pointers and lengths are those of slices; `figure` and `row`
    // are lent alone.
    answer(unsafe {
        of_archive(
            record.as_ptr(),
            record.len(),
            payoff.as_ptr(),
            payoff.len(),
            class,
            figure.as_mut_ptr(),
            figure.len(),
            row.as_mut_ptr(),
            row.len(),
        )
    })
}

/// The low figure of a class for a payoff of 32 numbers into a slice of 1
/// number, and a row that reaches it unrounded into one of 32.
pub fn low_step(
    record: &[u8],
    payoff: &[u64],
    class: u64,
    figure: &mut [u64],
    row: &mut [u64],
) -> Result<(), u8> {
    step(
        archive::joguyvi_low_step,
        record,
        payoff,
        class,
        figure,
        row,
    )
}

/// The high figure of a class, as `low_step` for the low one.
pub fn high_step(
    record: &[u8],
    payoff: &[u64],
    class: u64,
    figure: &mut [u64],
    row: &mut [u64],
) -> Result<(), u8> {
    step(
        archive::joguyvi_high_step,
        record,
        payoff,
        class,
        figure,
        row,
    )
}

/// The rule row of a class into a slice of m bytes.
pub fn rule_row(record: &[u8], class: u64, out: &mut [u8]) -> Result<(), u8> {
    // SAFETY: the pointers and lengths are those of slices; `out` is lent alone.
    answer(unsafe {
        archive::joguyvi_rule_row(
            record.as_ptr(),
            record.len(),
            class,
            out.as_mut_ptr(),
            out.len(),
        )
    })
}

/// The bands of a record, lower and upper ends, into two slices of m numbers.
pub fn bands(record: &[u8], lower: &mut [u32], upper: &mut [u32]) -> Result<(), u8> {
    // SAFETY: the pointers and lengths are those of slices; `lower` and
    // `upper` are lent alone.
    answer(unsafe {
        archive::joguyvi_bands(
            record.as_ptr(),
            record.len(),
            lower.as_mut_ptr(),
            lower.len(),
            upper.as_mut_ptr(),
            upper.len(),
        )
    })
}

/// The first count of years, 1 to 1,024, in which every class can go to every
/// class, each step having a tight lower entry above 0, into a slice of 1
/// number.
pub fn mixing(record: &[u8], count: &mut [u64]) -> Result<(), u8> {
    // SAFETY: the pointers and lengths are those of slices; `count` is lent
    // alone.
    answer(unsafe {
        archive::joguyvi_mixing(
            record.as_ptr(),
            record.len(),
            count.as_mut_ptr(),
            count.len(),
        )
    })
}
