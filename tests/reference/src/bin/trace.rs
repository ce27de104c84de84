//! Program `trace`: "reads from standard input n (4 bytes, big-endian), ROM and schedule".

use std::io::{self, Read};

fn main() -> io::Result<()> {
    let mut input = Vec::new();
    io::stdin().read_to_end(&mut input)?;
    print!("{}", reference::trace(&input));
    Ok(())
}
