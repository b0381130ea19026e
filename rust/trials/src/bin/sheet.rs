//! Reads one record from standard input and prints its sheet.

use std::io::{self, Read, Write};

fn main() -> io::Result<()> {
    let mut record = Vec::new();
    io::stdin().lock().read_to_end(&mut record)?;
    io::stdout().lock().write_all(&plain::sheet(&record))
}
