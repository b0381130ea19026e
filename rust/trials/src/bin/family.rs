//! Prints the answers on the fixed family of records, one line for each query.
//! With the word `records` it writes the records themselves instead, each as
//! its length in 2 bytes, big-endian, and its bytes.
//!
//! Lines (single spaces between fields, decimal numbers without leading zeros,
//! every line ends in byte 0A). ANSWER is `OK` and the numbers named, or `NO`
//! and the number of the cause.
//!
//! For each record of the family, numbered from 1, in this order:
//!
//! ```text
//! RECORD number length ANSWER      of reading; OK alone
//! RULES class rule ...             the rule row; class 0, 1
//! BANDS lower upper ...            all bands in order
//! READER number BAND ... FIRST BAND
//!                                  the number beside an opened reader, nine
//!                                  calls of it, one more than there can be
//!                                  columns, and the first band; BAND is lower
//!                                  and upper, or `-` where there is no more
//! ```
//!
//! and, where it is accepted:
//!
//! ```text
//! RULES class rule ...             class start, s, s + 1
//! WRITE version room ANSWER sum    version 1, 2; room = 460, the length that
//!                                  was then written, that length - 1; OK
//!                                  length; then in any case the checksum of
//!                                  the room, filled with AA beforehand
//! WRITE version room ANSWER sum    the same of version 0, 3, 257; room = 460
//! MIXING ANSWER                    OK count, the first that mixes
//! ```
//!
//! then for each class of 0, 1, start, s, s + 1:
//!
//! ```text
//! INTERVAL class ANSWER            OK checksums of lower and upper
//! ROW class ANSWER                 OK checksums of lower and upper
//! STEP class kind ANSWER           the kinds 0 to 3 of payoff; OK low high
//! SHARE class year ANSWER          year 0, 1, 2, horizon, horizon + 1;
//!                                  OK low high
//! REACHED class year ANSWER        the chance of having reached the class by
//!                                  the same years; OK low high
//! ```
//!
//! then for each of these years:
//!
//! ```text
//! MEAN year ANSWER                 OK low high
//! TOTAL year ANSWER                OK low high
//! SHARES year ANSWER sum sum       share sheet into slices of s and s numbers,
//!                                  of s and s + 1, of s / 2 and s; OK alone;
//!                                  then in any case the checksums of low and
//!                                  high, filled with 7 beforehand
//! ```
//!
//! then for each kind 0 to 4 of book, and for each year of 1, horizon,
//! horizon + 1:
//!
//! ```text
//! POOLED kind year ANSWER ANSWER ANSWER
//!                                  share of class s, mean and total, pooled;
//!                                  OK low high each
//! POOLSHARES kind year ANSWER sum sum
//!                                  pooled share sheet into slices of s and s
//!                                  numbers, of s and s + 1; OK alone; then in
//!                                  any case the checksums of low and high,
//!                                  filled with 7 beforehand
//! ```
//!
//! and then:
//!
//! ```text
//! JOIN kind kind ANSWER sum        two books joined, with 0 beyond s: kinds
//!                                  0 1, 1 1, 2 4, 2 0; OK alone; then the
//!                                  checksum of the 32 joined counts (0 each
//!                                  where declined)
//! JOIN 4 4 ANSWER sum              the same, with 4294967295 beyond s
//! ```
//!
//! The kinds of payoff, for class j from 1 to s (beyond s it is 40000000000):
//!
//! ```text
//! 0  1000 x premium of j
//! 1  as 3, mod 3
//! 2  as 3, but 10000000001 at class s
//! 3  (6180339887 x j + 2718281828 x record number) mod 10000000001
//! ```
//!
//! The kinds of book, for class j from 1 to s (beyond s it is 4294967295, but
//! for the first four JOIN lines):
//!
//! ```text
//! 0  1 at the start class, 0 elsewhere
//! 1  (618033 x j + 271828 x record number) mod 1000001
//! 2  1000000
//! 3  as 1, but 1000001 at class s
//! 4  0
//! ```
//!
//! The classes and years named are asked in that order also where two of them
//! are equal. After all records come the ready schemes:
//!
//! ```text
//! READY number base ANSWER         OK length and checksum of its record in
//!                                  version 1, then of that in version 2
//! ```
//!
//! and, where there is such a scheme:
//!
//! ```text
//! RULES class rule ...             the rule row in its record of version 1;
//!                                  class 1, 10
//! PREMIUM class premium            class 1, 18
//! ```
//!
//! A checksum starts at 0 and takes each byte or number x in order:
//! sum := (sum x 16777619 + x mod 4294967291 + 1) mod 4294967291.

use std::io::{self, Write};

fn main() -> io::Result<()> {
    let records = std::env::args().nth(1).as_deref() == Some("records");
    let mut out = io::stdout().lock();
    if records {
        for record in trials::family::records() {
            out.write_all(&(record.len() as u16).to_be_bytes())?;
            out.write_all(&record)?;
        }
        Ok(())
    } else {
        out.write_all(trials::family::report().as_bytes())
    }
}
