//! Reads a site of so many kilobytes of facts once, so that the work can be counted. Up to 64 kilobytes they are of 16 elements, and of 64
//! where they are more. With `labels` all their elements, 64, stand there by name; with `numbers` the same facts have numbers.
//!
//!     valgrind --tool=callgrind --toggle-collect=nendokwe_sizes facts [KILOBYTES] [labels|numbers]

use peer::large::{facts, named_facts, wide_facts};
use peer::trial::{argument, Calls, Other};

fn main() {
    let kilobytes = argument(1, 64) as usize;
    let [named, numbered] = named_facts(kilobytes << 10);
    let sample = match std::env::args().nth(2).as_deref() {
        Some("labels") => named,
        Some("numbers") => numbered,
        _ if kilobytes > 64 => wide_facts(kilobytes << 10),
        _ => facts(kilobytes),
    };
    match Other.sizes(&sample.question, &sample.site) {
        Ok(sizes) => println!("{} bytes of facts, {} atoms", sample.site.len(), sizes.atoms),
        Err(refusal) => println!("{refusal:?}"),
    }
}
