//! The second program's own report on the drawing on standard input, all of which is read.
use std::io::{self, Read, Write};

fn main() -> io::Result<()> {
    let mut input = Vec::new();
    io::stdin().read_to_end(&mut input)?;
    io::stdout().write_all(second::report::report(&input).as_bytes())
}
