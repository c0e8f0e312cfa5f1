//! `twin-probe [--fault NAME]`: reads commands on standard input, one a line, and
//! answers one line each.
//!
//! Numbers are decimal and stand one blank apart. A RECORD is six numbers:
//! operation stage k v first second. WORDS are the words of a strip, as many as
//! it has, also none.
//!
//! ```text
//! lay DIVIDE WORDS                              number WORDS
//! find right|left WORDS                         number place
//! measure WORDS                                 number L orders R
//! start MAX RECORD OPERATION ORDER              number carried RECORD
//! withdraw MAX RECORD                           number carried RECORD
//! step HINT RECORD WORDS                        number carried RECORD WORDS
//! start-record MAX RECORD OPERATION ORDER       number carried RECORD
//! withdraw-record MAX RECORD                    number carried RECORD
//! step-record HINT RECORD WORDS                 number carried RECORD WORDS
//! start-in MAX PARTY OPERATION ORDER N RECORDs  number carried RECORDs
//! withdraw-in MAX PARTY N RECORDs               number carried RECORDs
//! step-in PARTY HINT N RECORDs WORDS            number carried RECORDs WORDS
//! image-lay PARTIES MAX DIVIDE HEX              packed HEX
//! image-start PARTY OPERATION ORDER HEX         packed HEX
//! image-step PARTY HINT HEX                     packed HEX
//! image-withdraw PARTY HEX                      packed HEX
//! read N PARTIES HEX                            number, N WORDS, PARTIES RECORDs
//! write N WORDS PARTIES RECORDs HEX             number HEX
//! ```
//!
//! Widths: DIVIDE, MAX, HINT, OPERATION, PARTY and PARTIES up to 64 bits, ORDER
//! 32, a record's fields 8, 8, 16, 32, 64, 64. HEX is the bytes of an image, two
//! digits each, `-` for none. WORDS given to lay are what stands there before: a
//! refusal leaves them. A command that ends in `-record` lends its record alone;
//! one that ends in `-in` lends a table of N records, and PARTY is the one meant.
//! The packed answer is number + 2^32 × carried. `read` is lent N words and
//! PARTIES records, all zero, and prints them afterwards; `write` is lent the
//! bytes given. There may be 4,097 words and 17 records, one more than a strip
//! and a table may have. Any other line is answered `?`.
#![forbid(unsafe_code)]
#![deny(warnings)]

use std::io::{BufRead, BufWriter, Write};
use twin::Twin;

fn main() {
    let twin = Twin::of_program("twin-probe");
    let input = std::io::stdin();
    let mut output = BufWriter::new(std::io::stdout());
    for line in input.lock().lines() {
        let line = line.expect("standard input is text");
        writeln!(output, "{}", twin.probe(&line)).expect("standard output can be written");
    }
    output.flush().expect("standard output can be written");
}
