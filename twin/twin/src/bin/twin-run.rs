//! `twin-run [--fault NAME]`: reads a schedule file on standard input and prints
//! its listing, or `refused N` alone.
#![forbid(unsafe_code)]
#![deny(warnings)]

use std::io::{Read, Write};
use twin::Twin;

fn main() {
    let twin = Twin::of_program("twin-run");
    let mut file = Vec::new();
    std::io::stdin()
        .read_to_end(&mut file)
        .expect("standard input can be read");
    let listing = twin.listing(&file);
    std::io::stdout()
        .write_all(listing.as_bytes())
        .expect("standard output can be written");
}
