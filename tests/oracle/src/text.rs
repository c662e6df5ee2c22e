//! Both books as text.

use crate::calls::{self, Counts, Entry, NONE};
use crate::image::{self, Board, Refusal, MOST_IMAGE};
use std::io::{self, ErrorKind, Read};

// Gives the line that names the counts, without a line feed.
pub fn counts_text(counts: &Counts) -> String {
    format!("board {} lines {} inputs {} outputs", counts.lines, counts.inputs, counts.outputs)
}

// Gives an entry's word: the pattern, or none.
fn entry_text(entry: Entry) -> String {
    if entry == NONE {
        return "none".to_string();
    }
    entry.to_string()
}

// Gives a line for each fault of a line, and how many were found.
fn lines_text(image: &[u8], board: &Board) -> Result<String, Refusal> {
    let mut book = vec![0; 2 * board.lines()];
    let found = calls::book(image, &mut book)?;
    let mut text = String::new();
    for (place, &entry) in book.iter().enumerate() {
        text += &format!("{}/{} {}\n", place / 2, place % 2, entry_text(entry));
    }
    Ok(text + &format!("found {} of {}\n", found, book.len()))
}

// Gives a line for each fault of a used pin, and how many were found.
fn pins_text(image: &[u8], board: &Board) -> Result<String, Refusal> {
    let mut pins = vec![0; 8 * board.lines()];
    let found = calls::pin_book(image, &mut pins)?;
    let (mut text, mut faults) = (String::new(), 0);
    for (place, &entry) in pins.iter().enumerate() {
        let (line, pin, stuck) = (place / 8, place % 8 / 2, place % 2);
        if pin < board.records[line].used().len() {
            text += &format!("{line}.{pin}/{stuck} {}\n", entry_text(entry));
            faults += 1;
        }
    }
    Ok(text + &format!("pins found {found} of {faults}\n"))
}

// Gives an image's books as text, every line ended by a line feed.
fn good_text(image: &[u8]) -> Result<String, Refusal> {
    let board = image::decode(image)?;
    let counts = counts_text(&calls::check(image)?);
    Ok(counts + "\n" + &lines_text(image, &board)? + &pins_text(image, &board)?)
}

// Gives what the book program writes for an image: its books, or the refusal's one line.
pub fn book_text(image: &[u8]) -> String {
    match good_text(image) {
        Ok(text) => text,
        Err(refusal) => format!("{refusal}\n"),
    }
}

// Gives the input read to its end; of a longer one only the tail, still longer than any good image.
pub fn read_image(input: &mut impl Read) -> io::Result<Vec<u8>> {
    let mut image = Vec::new();
    let mut chunk = vec![0; 65_536];
    loop {
        let count = match input.read(&mut chunk) {
            Ok(0) => return Ok(image),
            Ok(count) => count,
            Err(error) if error.kind() == ErrorKind::Interrupted => continue,
            Err(error) => return Err(error),
        };
        image.extend_from_slice(&chunk[..count]);
        let surplus = image.len().saturating_sub(MOST_IMAGE + 1);
        image.drain(..surplus);
    }
}
