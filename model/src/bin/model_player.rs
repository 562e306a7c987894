//! Reads a list from standard input and prints what comes of it.

use std::io::{self, Read, Write};

use model::sizes::MAX_LIST;

fn main() -> io::Result<()> {
    let list = read_list()?;
    io::stdout().write_all(model::printed(&list).as_bytes())
}

/// One byte more than a list can have is enough to see that it is too long.
fn read_list() -> io::Result<Vec<u8>> {
    let mut list = Vec::new();
    io::stdin()
        .lock()
        .take(MAX_LIST as u64 + 1)
        .read_to_end(&mut list)?;
    Ok(list)
}
