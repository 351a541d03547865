//! Reads a run sheet from standard input and writes its listing.

use std::io::{self, Read, Write};

fn main() -> io::Result<()> {
    let mut sheet = Vec::new();
    // One byte beyond the longest sheet is enough to see that it is too long.
    let most = model::sheet::LONGEST as u64 + 1;
    io::stdin().take(most).read_to_end(&mut sheet)?;
    io::stdout().write_all(&model::listing(&sheet))
}
