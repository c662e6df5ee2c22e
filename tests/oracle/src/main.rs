//! An independent reference program for the bench: the plainest reading of the rules, by exhaustion.

mod board;
mod calls;
mod console;
mod drawing;
mod image;
mod text;

#[cfg(test)]
mod tests;

use std::io::{self, Write};
use std::process::ExitCode;

// Gives the book of the image on standard input, as text on standard output.
fn book_program() -> io::Result<()> {
    let image = text::read_image(&mut io::stdin().lock())?;
    let mut output = io::stdout().lock();
    output.write_all(text::book_text(&image).as_bytes())?;
    output.flush()
}

// Gives the console on standard input and output.
fn console_program() -> io::Result<()> {
    console::talk(&mut io::stdin().lock(), &mut io::stdout().lock())
}

// Gives the mode named by the first argument; 2 where there is none such, 1 where reading or writing fails.
fn main() -> ExitCode {
    let outcome = match std::env::args().nth(1).as_deref() {
        Some("book") => book_program(),
        Some("console") => console_program(),
        _ => {
            eprintln!("usage: oracle book | oracle console");
            return ExitCode::from(2);
        }
    };
    match outcome {
        Ok(()) => ExitCode::SUCCESS,
        Err(error) => {
            eprintln!("oracle: {error}");
            ExitCode::from(1)
        }
    }
}
