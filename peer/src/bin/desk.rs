//! Reads one case from standard input and prints the desk's reply.

use std::io::{self, Read, Write};

fn main() -> io::Result<()> {
    let mut input = Vec::new();
    // One byte more than is allowed is enough to see that there are too many.
    let limit = peer::desk::INPUT_LIMIT as u64 + 1;
    io::stdin().lock().take(limit).read_to_end(&mut input)?;
    io::stdout().lock().write_all(&peer::desk(&input))
}
