//! What the bench can ask: each call with its refusals, in the order they are tested.

use crate::board::{self, Fault};
use crate::drawing;
use crate::image::{self, Board, Record, Refusal, RECORD};

/// An entry of either book.
pub type Entry = u64;
/// The entry that says no pattern shows the fault.
pub const NONE: Entry = 18_446_744_073_709_551_615;

/// What Check answers.
#[derive(Clone, Copy, Debug, PartialEq, Eq)]
pub struct Counts {
    pub lines: usize,
    pub inputs: usize,
    pub outputs: usize,
}

// Gives refusal `number` when the test applies.
fn refuse_when(applies: bool, number: u8) -> Result<(), Refusal> {
    if applies {
        return Err(Refusal::Plain(number));
    }
    Ok(())
}

// Gives the named line, or refusal 6.
fn named_line(board: &Board, line: u64) -> Result<usize, Refusal> {
    refuse_when(line >= board.lines() as u64, 6)?;
    Ok(line as usize)
}

// Gives refusal 6, 7 or 12 when it applies to the fault.
fn named_fault(board: &Board, fault: Fault) -> Result<(), Refusal> {
    named_line(board, fault.line)?;
    refuse_when(fault.stuck > 1, 7)?;
    refuse_when(fault.is_absent(board), 12)
}

// Gives whether a number has a bit at or above the input count.
fn too_high(board: &Board, number: u64) -> bool {
    number >= board.patterns()
}

// Gives the line, input and output counts.
pub fn check(image: &[u8]) -> Result<Counts, Refusal> {
    let board = image::decode(image)?;
    Ok(Counts { lines: board.lines(), inputs: board.inputs, outputs: board.outputs.len() })
}

// Gives the good and the faulty row in the two lent rows.
pub fn rows(image: &[u8], pattern: u64, fault: Fault, good: &mut [u8], faulty: &mut [u8]) -> Result<(), Refusal> {
    let board = image::decode(image)?;
    named_fault(&board, fault)?;
    refuse_when(too_high(&board, pattern), 8)?;
    refuse_when(good.len() != board.lines() || faulty.len() != board.lines(), 9)?;
    board::run(&board, pattern, None, 0, good);
    board::run(&board, pattern, Some(fault), 0, faulty);
    Ok(())
}

// Gives whether the pattern shows the fault.
pub fn judge(image: &[u8], pattern: u64, fault: Fault) -> Result<bool, Refusal> {
    let board = image::decode(image)?;
    named_fault(&board, fault)?;
    refuse_when(too_high(&board, pattern), 8)?;
    Ok(board::shows(&board, pattern, fault))
}

// Gives the smallest pattern that shows the fault, or none.
pub fn find(image: &[u8], fault: Fault) -> Result<Option<u64>, Refusal> {
    let board = image::decode(image)?;
    named_fault(&board, fault)?;
    Ok(board::find(&board, fault))
}

// Gives the faults of these whole lines, in the book's order.
fn line_faults(lines: &[u64]) -> Vec<Fault> {
    lines.iter().flat_map(|&line| (0..2).map(move |stuck| Fault::on_line(line, stuck))).collect()
}

// Gives the faults of these lines' pins, absent ones too, in the pin book's order.
fn pin_faults(lines: &[u64]) -> Vec<Fault> {
    let on = |line: u64| (0..8).map(move |place| Fault::on_pin(line, place / 2, (place % 2) as u8));
    lines.iter().flat_map(|&line| on(line)).collect()
}

// Gives these faults' entries afresh: Find's answer for each, or the number for none, which an absent pin has too.
fn fill_entries(board: &Board, faults: &[Fault], book: &mut [Entry]) {
    let (absent, present): (Vec<Fault>, Vec<Fault>) = faults.iter().partition(|fault| fault.is_absent(board));
    for fault in &absent {
        book[fault.entry()] = NONE;
    }
    for (fault, answer) in present.iter().zip(board::find_all(board, &present)) {
        book[fault.entry()] = match answer {
            Some(pattern) => pattern,
            None => NONE,
        };
    }
}

// Gives how many entries are not none.
fn found(book: &[Entry]) -> usize {
    book.iter().filter(|&&entry| entry != NONE).count()
}

// Gives the whole book in the lent book, and how many entries are not none.
pub fn book(image: &[u8], book: &mut [Entry]) -> Result<usize, Refusal> {
    let board = image::decode(image)?;
    refuse_when(book.len() != 2 * board.lines(), 9)?;
    let lines: Vec<u64> = (0..board.lines() as u64).collect();
    fill_entries(&board, &line_faults(&lines), book);
    Ok(found(book))
}

// Gives the whole pin book in the lent pin book, and how many of its entries are not none.
pub fn pin_book(image: &[u8], pins: &mut [Entry]) -> Result<usize, Refusal> {
    let board = image::decode(image)?;
    refuse_when(pins.len() != 8 * board.lines(), 9)?;
    let lines: Vec<u64> = (0..board.lines() as u64).collect();
    fill_entries(&board, &pin_faults(&lines), pins);
    Ok(found(pins))
}

// Gives whether an alteration is refused by 10: an input altered, or a record of kind 0 or bad there.
fn bad_alteration(board: &Board, line: usize, record: &Record) -> bool {
    board.records[line].is_input() || record.is_input() || image::bad_field(record, line, board.inputs, true).is_some()
}

// Gives the image with the new record, touched entries of both books fresh, and how many of both are not none.
pub fn alter(
    image: &mut [u8],
    line: u64,
    bytes: &[u8; RECORD],
    book: &mut [Entry],
    pins: &mut [Entry],
) -> Result<usize, Refusal> {
    let before = image::decode(image)?;
    let line = named_line(&before, line)?;
    refuse_when(book.len() != 2 * before.lines() || pins.len() != 8 * before.lines(), 9)?;
    let record = Record::from_bytes(bytes);
    refuse_when(bad_alteration(&before, line, &record), 10)?;
    let start = image::record_start(image, &before, line);
    image[start..start + RECORD].copy_from_slice(bytes);
    let after = image::decode(image)?;
    let touched = board::touched(&before, &after, line);
    let lines: Vec<u64> = (0..after.lines() as u64).filter(|&other| touched[other as usize]).collect();
    fill_entries(&after, &line_faults(&lines), book);
    fill_entries(&after, &pin_faults(&lines), pins);
    Ok(found(book) + found(pins))
}

// Gives the good row rewritten from the named line on.
pub fn refresh(image: &[u8], line: u64, pattern: u64, row: &mut [u8]) -> Result<(), Refusal> {
    let board = image::decode(image)?;
    let line = named_line(&board, line)?;
    refuse_when(too_high(&board, pattern), 8)?;
    refuse_when(row.len() != board.lines(), 9)?;
    refuse_when(row[..line].iter().any(|&byte| byte > 1), 11)?;
    board::run(&board, pattern, None, line, row);
    Ok(())
}

// Gives the part of the row from a line to its end; past the end an empty part.
pub fn show(row: &[u8], from: u64) -> &[u8] {
    if from >= row.len() as u64 {
        return &[];
    }
    &row[from as usize..]
}

// Gives the five-valued row in the lent row, and how many output lines hold D or D-bar.
pub fn five(image: &[u8], named: u64, values: u64, fault: Fault, row: &mut [u8]) -> Result<usize, Refusal> {
    let board = image::decode(image)?;
    named_fault(&board, fault)?;
    let unnamed = values & !named != 0;
    refuse_when(too_high(&board, named) || too_high(&board, values) || unnamed, 8)?;
    refuse_when(row.len() != board.lines(), 9)?;
    row.copy_from_slice(&board::five_row(&board, named, values, fault));
    Ok(board::drives(&board, row))
}

// Gives the bytes in front of the target, whose rest keeps its own, and their length; or refusal 14.
fn put_in_front(bytes: &[u8], target: &mut [u8]) -> Result<usize, Refusal> {
    refuse_when(target.len() < bytes.len(), 14)?;
    target[..bytes.len()].copy_from_slice(bytes);
    Ok(bytes.len())
}

// Gives the image of the board that a drawing names in the target, and its length.
pub fn read(text: &[u8], target: &mut [u8]) -> Result<usize, Refusal> {
    put_in_front(&drawing::image_of(text)?, target)
}

// Gives the drawing of an image's board in the target, and its length.
pub fn write(image: &[u8], target: &mut [u8]) -> Result<usize, Refusal> {
    put_in_front(&drawing::text_of(image)?, target)
}
