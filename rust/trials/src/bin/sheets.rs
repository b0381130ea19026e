//! Prints what the check program `sheets` must print for the family's records:
//! a sheet of at most 1,000 bytes whole, of a longer one the line
//! `LENGTH length CHECKSUM sum`; and after each the line `NO 13`, since ten
//! bytes are room for no sheet, REFUSED line and all.

use std::io::{self, Write};

fn main() -> io::Result<()> {
    let mut out = io::stdout().lock();
    for record in trials::family::records() {
        let text = plain::sheet(&record);
        if text.len() <= 1000 {
            out.write_all(&text)?;
        } else {
            let sum = trials::family::bytes_sum(&text);
            writeln!(out, "LENGTH {} CHECKSUM {}", text.len(), sum)?;
        }
        writeln!(out, "NO 13")?;
    }
    Ok(())
}
