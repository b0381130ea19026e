//! Bonus-malus bounds: schemes, interval rows and tight rows, the one-year
//! step, the mixing check, bounds over years, pooled books, the record, the
//! ready schemes and the sheet.
//!
//! Every operation that can be declined answers the number of the first cause
//! that applies, and then leaves all lent slices as they were.

#![forbid(unsafe_code)]

mod books;
mod mixing;
mod ready;
mod record;
mod rows;
mod scheme;
mod sheet;
mod step;
mod years;

pub use books::{
    join, pooled_mean, pooled_share, pooled_share_sheet, pooled_total, Book, MAX_COUNT,
};
pub use mixing::mixing;
pub use ready::ready;
pub use record::{
    bands, layout_in, layout_of, number_at, open, places, put_number, read, rule_row, write, Bands,
    Layout, END_WIDTH, FRONT, LAYOUTS, LENGTH_WIDTH, MAX_RECORD, VERSION_1, VERSION_2,
};
pub use rows::{interval_row, row};
pub use scheme::{
    cause, Figures, Scheme, MAX_BASE, MAX_CLASSES, MAX_COLUMNS, MAX_HORIZON, MAX_PAYOFF,
    MAX_PREMIUM, ONE,
};
pub use sheet::sheet;
pub use step::{high_step, low_step};
pub use years::{mean, reached, share, share_sheet, total};
