// The program `optimize_model` as the published Rust would answer it but for the departures: a text on standard input, its answer on standard output.

use judge::answer::{answer, hide_refusals, printed};
use std::io::{self, Read, Write};

fn main() -> io::Result<()> {
    hide_refusals();
    let mut text = Vec::new();
    io::stdin().lock().read_to_end(&mut text)?;
    io::stdout().lock().write_all(&printed(&answer(&text)))
}
