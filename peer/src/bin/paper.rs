//! Reads one case from standard input and prints all pages of its steps, or of those built from its picks.

use peer::desk::INPUT_LIMIT;
use peer::paper::pages;
use peer::trial::Other;
use std::io::{self, Read, Write};

fn main() -> io::Result<()> {
    let mut input = Vec::new();
    io::stdin().lock().take(INPUT_LIMIT as u64 + 1).read_to_end(&mut input)?;
    io::stdout().lock().write_all(&pages(&Other, &input))
}
