//! The obvious way to a board's books, for the comparison of speed that request W4 asks for: for each fault patterns are tried from 0
//! upward, and for each pattern both boards are worked out in full, every line of the good one and of the faulty one. The first pattern
//! at which some output differs is the entry; after the last there is none. Nothing is kept from one pattern or fault to the next.
//!
//!     obvious                  answers `load HEX`, `open PATH`, `book`, `pin book`, `entries` and `pin entries` as the bench console does
//!     obvious part PATTERNS    tries so many patterns at most for each fault: `book` and `pin book` answer how many patterns were tried
//!                              in all and in what time, and the entries of faults that were not shown by then say none
//!
//! Images are taken to be good: one that can't be run answers `?`, and no refusal has its number here. Any other command answers `?` too.

//! The C library starts `main`, as it starts the console's.
#![cfg_attr(not(test), no_main)]

mod board;
mod console;

#[cfg(test)]
mod tests;

use console::Console;
use std::io;

// Gives how many patterns to try for a fault, where the arguments say so, or nothing where they can't be read.
fn part(words: &[String]) -> Option<Option<u64>> {
    match words {
        [] => Some(None),
        [word, patterns] if word == "part" => patterns.parse().ok().map(Some),
        _ => None,
    }
}

// Gives the console that the arguments ask for; 2 where they can't be read, 1 where reading or writing fails.
#[cfg_attr(not(test), no_mangle)]
pub extern "C" fn main(_count: i32, _words: *const *const u8) -> i32 {
    let words: Vec<String> = std::env::args().skip(1).collect();
    let mut console = match part(&words) {
        None => {
            eprintln!("usage: obvious | obvious part PATTERNS");
            return 2;
        }
        Some(part) => Console::new(part),
    };
    match console.talk(io::stdin().lock(), io::stdout().lock()) {
        Ok(()) => 0,
        Err(error) => {
            eprintln!("obvious: {error}");
            1
        }
    }
}
