//! Prints the listing of the track file that standard input holds.

use second_program::listing::listing;
use std::io::{self, Read, Write};

fn main() -> io::Result<()> {
    let mut file = Vec::new();
    io::stdin().read_to_end(&mut file)?;
    let mut output = io::stdout();
    output.write_all(&listing(&file))?;
    output.flush()
}
