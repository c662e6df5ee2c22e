//! The calls of Fortizembo for Rust, over the proved archive libexports.a.
//!
//! Slices and types meet all that the archive leaves to its caller, so every function here is safe for any argument. Whatever is bad is
//! refused, and then nothing that was lent is changed. A call needs less than 2 MiB of stack.

mod raw;

use raw::{Answer, FaultNumbers};

/// A number in a book.
pub type Entry = u64;

/// The entry for none.
pub const NONE: Entry = 18_446_744_073_709_551_615;

/// A fault: one line held at 0 or at 1 for everything that reads it, or one pin of a line's gate, for that gate alone.
#[derive(Clone, Copy, Debug, PartialEq, Eq)]
pub enum Fault {
    Line { line: usize, stuck: u8 },
    Pin { line: usize, pin: usize, stuck: u8 },
}

/// Why the bench says no, by document 01's table and document 02's numbers 12 to 14.
#[derive(Clone, Copy, Debug, PartialEq, Eq)]
pub enum Refusal {
    Mark,
    Counts,
    Distance,
    Record { line: usize, field: usize },
    Output(usize),
    Line,
    Stuck,
    Pattern,
    Lent,
    Alteration,
    Row,
    Pin,
    Form(usize),
    Target,
}

/// The line, input and output counts of an image.
#[derive(Clone, Copy, Debug, PartialEq, Eq)]
pub struct Counts {
    pub lines: usize,
    pub inputs: usize,
    pub outputs: usize,
}

/// What Check answers.
#[derive(Clone, Copy, Debug, PartialEq, Eq)]
pub enum Checked {
    Good(Counts),
    Refused(Refusal),
}

/// What Rows and Refresh answer.
#[derive(Clone, Copy, Debug, PartialEq, Eq)]
pub enum Filled {
    Done,
    Refused(Refusal),
}

/// What Judge answers.
#[derive(Clone, Copy, Debug, PartialEq, Eq)]
pub enum Judged {
    Yes,
    No,
    Refused(Refusal),
}

/// How many output lines hold D or D-bar.
#[derive(Clone, Copy, Debug, PartialEq, Eq)]
pub enum Driven {
    Count(usize),
    Refused(Refusal),
}

/// What Find answers.
#[derive(Clone, Copy, Debug, PartialEq, Eq)]
pub enum Found {
    Pattern(u64),
    Nothing,
    Refused(Refusal),
}

/// How many entries of a book, or of both, are not none.
#[derive(Clone, Copy, Debug, PartialEq, Eq)]
pub enum Counted {
    Entries(usize),
    Refused(Refusal),
}

/// How many bytes Read or Write put in front of the target.
#[derive(Clone, Copy, Debug, PartialEq, Eq)]
pub enum Made {
    Bytes(usize),
    Refused(Refusal),
}

/// The values of an answer that refuses nothing, or the refusal.
fn heard(a: Answer) -> Result<[u64; 3], Refusal> {
    Err(match a.number {
        0 => return Ok([a.first, a.second, a.third]),
        1 => Refusal::Mark,
        2 => Refusal::Counts,
        3 => Refusal::Distance,
        4 => Refusal::Record { line: a.first as usize, field: a.second as usize },
        5 => Refusal::Output(a.first as usize),
        6 => Refusal::Line,
        7 => Refusal::Stuck,
        8 => Refusal::Pattern,
        9 => Refusal::Lent,
        10 => Refusal::Alteration,
        11 => Refusal::Row,
        12 => Refusal::Pin,
        13 => Refusal::Form(a.first as usize),
        14 => Refusal::Target,
        n => unreachable!("no refusal has number {n}"),
    })
}

/// The numbers that name a fault.
fn numbers(fault: Fault) -> FaultNumbers {
    match fault {
        Fault::Line { line, stuck } => FaultNumbers { line, pin: 0, sort: 0, stuck },
        Fault::Pin { line, pin, stuck } => FaultNumbers { line, pin, sort: 1, stuck },
    }
}

/// Check an image: its line, input and output counts.
pub fn check(img: &[u8]) -> Checked {
    match heard(unsafe { raw::fortizembo_check(img.as_ptr(), img.len()) }) {
        Ok([lines, inputs, outputs]) => {
            Checked::Good(Counts { lines: lines as usize, inputs: inputs as usize, outputs: outputs as usize })
        }
        Err(r) => Checked::Refused(r),
    }
}

fn filled(a: Answer) -> Filled {
    match heard(a) {
        Ok(_) => Filled::Done,
        Err(r) => Filled::Refused(r),
    }
}

/// Rows: fills one row with the good values of all lines and one with the faulty values.
pub fn rows(img: &[u8], pattern: u64, fault: Fault, good: &mut [u8], faulty: &mut [u8]) -> Filled {
    let (n, g, f) = (numbers(fault), good.as_mut_ptr(), faulty.as_mut_ptr());
    filled(unsafe { raw::fortizembo_rows(img.as_ptr(), img.len(), pattern, n, g, good.len(), f, faulty.len()) })
}

/// Judge: whether the pattern shows the fault.
pub fn judge(img: &[u8], pattern: u64, fault: Fault) -> Judged {
    match heard(unsafe { raw::fortizembo_judge(img.as_ptr(), img.len(), pattern, numbers(fault)) }) {
        Ok([0, ..]) => Judged::No,
        Ok(_) => Judged::Yes,
        Err(r) => Judged::Refused(r),
    }
}

/// Refresh: rewrites a good row from a line on.
pub fn refresh(img: &[u8], pattern: u64, line: usize, row: &mut [u8]) -> Filled {
    filled(unsafe { raw::fortizembo_refresh(img.as_ptr(), img.len(), pattern, line, row.as_mut_ptr(), row.len()) })
}

/// Show: the very part of the good or the faulty row from a line to its end.
pub fn show<'a>(good: &'a [u8], faulty: &'a [u8], wants_faulty: bool, start: usize) -> &'a [u8] {
    let (g, f) = (good.as_ptr(), faulty.as_ptr());
    let a = unsafe { raw::fortizembo_show(g, good.len(), f, faulty.len(), wants_faulty as u8, start) };
    let row = if wants_faulty { faulty } else { good };
    &row[a.first as usize..][..a.second as usize]
}

/// Five values: fills the row for a partial pattern.
pub fn five(img: &[u8], named: u64, values: u64, fault: Fault, row: &mut [u8]) -> Driven {
    let (n, r) = (numbers(fault), row.as_mut_ptr());
    match heard(unsafe { raw::fortizembo_five(img.as_ptr(), img.len(), named, values, n, r, row.len()) }) {
        Ok([n, ..]) => Driven::Count(n as usize),
        Err(r) => Driven::Refused(r),
    }
}

/// Find: the smallest pattern that shows the fault.
pub fn find(img: &[u8], fault: Fault) -> Found {
    let a = unsafe { raw::fortizembo_find(img.as_ptr(), img.len(), numbers(fault)) };
    match heard(a) {
        Ok(_) if a.values == 0 => Found::Nothing,
        Ok([pattern, ..]) => Found::Pattern(pattern),
        Err(r) => Found::Refused(r),
    }
}

fn counted(a: Answer) -> Counted {
    match heard(a) {
        Ok([n, ..]) => Counted::Entries(n as usize),
        Err(r) => Counted::Refused(r),
    }
}

/// Book: fills entry 2 x line + stuck value with Find's pattern, or NONE.
pub fn book(img: &[u8], entries: &mut [Entry]) -> Counted {
    counted(unsafe { raw::fortizembo_book(img.as_ptr(), img.len(), entries.as_mut_ptr(), entries.len()) })
}

/// Pin book: fills entry 8 x line + 2 x pin + stuck value with Find's pattern, or NONE, as for an absent pin.
pub fn pin_book(img: &[u8], entries: &mut [Entry]) -> Counted {
    counted(unsafe { raw::fortizembo_pin_book(img.as_ptr(), img.len(), entries.as_mut_ptr(), entries.len()) })
}

/// Alter: puts a new record in the image and brings both books up to date, the lines' and the pins'. A gate may become a tie, kind 9 or 10
/// with no pins, and a tie a gate.
pub fn alter(img: &mut [u8], book: &mut [Entry], pins: &mut [Entry], line: usize, record: [u8; 10]) -> Counted {
    let (i, b, p) = (img.as_mut_ptr(), book.as_mut_ptr(), pins.as_mut_ptr());
    counted(unsafe { raw::fortizembo_alter(i, img.len(), b, book.len(), p, pins.len(), line, record.as_ptr()) })
}

fn made(a: Answer) -> Made {
    match heard(a) {
        Ok([n, ..]) => Made::Bytes(n as usize),
        Err(r) => Made::Refused(r),
    }
}

/// Read: puts the image of the board that a drawing names in front of the target, without a note; 41,100 bytes hold any.
pub fn read(text: &[u8], target: &mut [u8]) -> Made {
    made(unsafe { raw::fortizembo_read(text.as_ptr(), text.len(), target.as_mut_ptr(), target.len()) })
}

/// Write: puts the drawing of the image's board in front of the target; 170,000 bytes hold any.
pub fn write(img: &[u8], target: &mut [u8]) -> Made {
    made(unsafe { raw::fortizembo_write(img.as_ptr(), img.len(), target.as_mut_ptr(), target.len()) })
}
