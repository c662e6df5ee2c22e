//! The bench console: one command a line, one answer a line.

use crate::board::Fault;
use crate::calls::{self, Entry};
use crate::drawing;
use crate::image::{Refusal, RECORD};
use crate::text::counts_text;
use std::ffi::OsStr;
use std::fs::File;
use std::io::{self, BufRead, ErrorKind, Read, Write};
use std::os::unix::ffi::OsStrExt;

/// A command line of this many bytes (its line feed not counted) or more is too long.
pub const TOO_LONG: usize = 200_000;
/// The longest image the console takes.
pub const MOST_LOADED: usize = 65_536;
/// The longest row the console lends.
pub const MOST_ROW: usize = 8_192;
/// The longest book the console lends.
pub const MOST_BOOK: usize = 16_384;
/// The longest pin book the console lends.
pub const MOST_PINS: usize = 65_536;
/// The longest target the console lends.
pub const MOST_TARGET: usize = 262_144;
/// The longest drawing the console takes as HEX.
pub const MOST_READ: usize = 65_536;
/// The longest drawing the console takes from a file.
pub const MOST_IMPORTED: usize = 1_048_576;

const HELP: &str =
    "help: load open save image lend put check rows judge find book alter refresh five show entries pin \
    target read write import export help";

/// The reason given after a question mark.
type Reason = &'static str;
const NO_COMMAND: Reason = "no such command";
const UNREAD: Reason = "a word cannot be read";

/// An answer, or the reason why the line is no command.
type Answer = Result<String, Reason>;

/// What the console keeps between commands.
#[derive(Default)]
pub struct Console {
    image: Vec<u8>,
    good: Vec<u8>,
    faulty: Vec<u8>,
    book: Vec<Entry>,
    pins: Vec<Entry>,
    target: Vec<u8>,
}

// Gives the number a word stands for: decimal digits only, and it fits 64 bits.
fn number(word: &[u8]) -> Result<u64, Reason> {
    if word.is_empty() {
        return Err(UNREAD);
    }
    let mut value: u64 = 0;
    for &byte in word {
        if !byte.is_ascii_digit() {
            return Err(UNREAD);
        }
        let digit = u64::from(byte - b'0');
        value = value.checked_mul(10).and_then(|tens| tens.checked_add(digit)).ok_or(UNREAD)?;
    }
    Ok(value)
}

// Gives a number that is at most the limit, as a length.
fn length(word: &[u8], limit: usize) -> Result<usize, Reason> {
    let value = number(word)?;
    if value > limit as u64 {
        return Err("too many");
    }
    Ok(value as usize)
}

// Gives the value of one hex digit, lower or upper case.
fn digit(byte: u8) -> Result<u8, Reason> {
    match byte {
        b'0'..=b'9' => Ok(byte - b'0'),
        b'a'..=b'f' => Ok(byte - b'a' + 10),
        b'A'..=b'F' => Ok(byte - b'A' + 10),
        _ => Err(UNREAD),
    }
}

// Gives the bytes a HEX word stands for, at most `limit` of them; `-` is no bytes.
fn bytes(word: &[u8], limit: usize) -> Result<Vec<u8>, Reason> {
    if word == b"-" {
        return Ok(Vec::new());
    }
    if word.is_empty() || word.len() % 2 == 1 {
        return Err(UNREAD);
    }
    let mut bytes = Vec::new();
    for pair in word.chunks(2) {
        bytes.push(16 * digit(pair[0])? + digit(pair[1])?);
    }
    if bytes.len() > limit {
        return Err("too many bytes");
    }
    Ok(bytes)
}

// Gives the HEX word for some bytes, lower case; `-` for none.
fn hex(bytes: &[u8]) -> String {
    if bytes.is_empty() {
        return "-".to_string();
    }
    bytes.iter().map(|byte| format!("{byte:02x}")).collect()
}

// Gives the fault of a FAULT word, `LINE/STUCK` or `LINE.PIN/STUCK`; a stuck value over 255 is handed on as 255.
fn fault(word: &[u8]) -> Result<Fault, Reason> {
    let slash = word.iter().position(|&byte| byte == b'/').ok_or(UNREAD)?;
    let (place, stuck) = (&word[..slash], number(&word[slash + 1..])?.min(255) as u8);
    match place.iter().position(|&byte| byte == b'.') {
        None => Ok(Fault::on_line(number(place)?, stuck)),
        Some(dot) => Ok(Fault::on_pin(number(&place[..dot])?, number(&place[dot + 1..])?, stuck)),
    }
}

// Gives `lent` after putting one number in a book; every number that a word can be fits an entry.
fn put_number(book: &mut [Entry], place: &[u8], value: &[u8]) -> Answer {
    let (place, value) = (number(place)?, number(value)?);
    if place >= book.len() as u64 {
        return Err("past the end");
    }
    book[place as usize] = value;
    Ok("lent".to_string())
}

// Gives a book's numbers, each after a space.
fn numbers(book: &[Entry]) -> String {
    book.iter().map(|entry| format!(" {entry}")).collect()
}

// Gives the file's bytes; none where there are more of them than the limit.
fn file_bytes(path: &[u8], limit: usize) -> io::Result<Option<Vec<u8>>> {
    let mut bytes = Vec::new();
    let file = File::open(OsStr::from_bytes(path))?;
    file.take(limit as u64 + 1).read_to_end(&mut bytes)?;
    Ok(if bytes.len() > limit { None } else { Some(bytes) })
}

// Gives `saved` after writing the bytes to a file.
fn saved(path: &[u8], bytes: &[u8]) -> Answer {
    match std::fs::write(OsStr::from_bytes(path), bytes) {
        Ok(()) => Ok("saved".to_string()),
        Err(_) => Err("cannot write"),
    }
}

// Gives how many entries were found, of how many, or the refusal's one line.
fn found(outcome: Result<usize, Refusal>, entries: usize) -> Answer {
    said(outcome, |found| format!("found {found} of {entries}"))
}

// Gives a call's answer: its text, or its refusal's one line.
fn said<T>(outcome: Result<T, Refusal>, text: impl Fn(T) -> String) -> Answer {
    Ok(match outcome {
        Ok(value) => text(value),
        Err(refusal) => refusal.to_string(),
    })
}

impl Console {
    // Gives the answer to one command line (without its line feed).
    pub fn answer(&mut self, line: &[u8]) -> String {
        let words: Vec<&[u8]> = line.split(|&byte| byte == b' ').collect();
        let answer = if line.is_empty() {
            Err("empty line")
        } else if line.contains(&b'\t') || line.contains(&b'\r') || words.contains(&&b""[..]) {
            Err(UNREAD)
        } else {
            self.command(&words)
        };
        answer.unwrap_or_else(|reason| format!("? {reason}"))
    }

    // Gives a command's answer, by its words.
    fn command(&mut self, words: &[&[u8]]) -> Answer {
        match words {
            [b"load", hex] => self.load(bytes(hex, MOST_LOADED)?),
            [b"open", path] => self.open(path),
            [b"save", path] => saved(path, &self.image),
            [b"import", path] => self.import(path),
            [b"export", path] => self.export(path),
            [b"image"] => Ok(format!("image {}", hex(&self.image))),
            [b"lend", b"rows", good, faulty] => self.lend_rows(good, faulty),
            [b"lend", b"book", count] => self.lend_book(count),
            [b"lend", b"pins", count] => self.lend_pins(count),
            [b"lend", b"target", count] => self.lend_target(count),
            [b"put", b"good", hex] => self.put_good(hex),
            [b"put", b"faulty", hex] => self.put_faulty(hex),
            [b"put", b"entry", place, value] => put_number(&mut self.book, place, value),
            [b"put", b"pin", place, value] => put_number(&mut self.pins, place, value),
            [b"show", b"good", from] => Ok(format!("row {}", hex(calls::show(&self.good, number(from)?)))),
            [b"show", b"faulty", from] => Ok(format!("row {}", hex(calls::show(&self.faulty, number(from)?)))),
            [b"entries"] => Ok(format!("entries{}", numbers(&self.book))),
            [b"pin", b"entries"] => Ok(format!("pins{}", numbers(&self.pins))),
            [b"target"] => Ok(format!("target {}", hex(&self.target))),
            [b"help"] => Ok(HELP.to_string()),
            _ => self.call(words),
        }
    }

    // Gives the answer of a command that is one of the bench's calls.
    fn call(&mut self, words: &[&[u8]]) -> Answer {
        match words {
            [b"check"] => self.check(),
            [b"rows", pattern, fault] => self.rows(pattern, fault),
            [b"judge", pattern, fault] => self.judge(pattern, fault),
            [b"find", fault] => self.find(fault),
            [b"book"] => self.fill_book(),
            [b"pin", b"book"] => self.fill_pin_book(),
            [b"alter", line, hex] => self.alter(line, hex),
            [b"refresh", line, pattern] => self.refresh(line, pattern),
            [b"five", named, values, fault] => self.five(named, values, fault),
            [b"read", hex] => self.read(hex),
            [b"write"] => self.write(),
            _ => Err(NO_COMMAND),
        }
    }

    // Gives Check's answer after taking the image and lending fresh rows and fresh books for it.
    fn load(&mut self, image: Vec<u8>) -> Answer {
        let lines = calls::check(&image).map_or(0, |counts| counts.lines);
        self.image = image;
        self.good = vec![9; lines];
        self.faulty = vec![9; lines];
        self.book = vec![99; 2 * lines];
        self.pins = vec![99; 8 * lines];
        self.check()
    }

    // Gives Check's answer for the image in a file.
    fn open(&mut self, path: &[u8]) -> Answer {
        match file_bytes(path, MOST_LOADED) {
            Ok(Some(image)) => self.load(image),
            _ => Err("cannot read"),
        }
    }

    // Gives Check's answer for the board that the drawing in a file names, or the reader's refusal.
    fn import(&mut self, path: &[u8]) -> Answer {
        match file_bytes(path, MOST_IMPORTED) {
            Ok(Some(text)) => match drawing::image_of(&text) {
                Ok(image) => self.load(image),
                Err(refusal) => Ok(refusal.to_string()),
            },
            _ => Err("cannot read"),
        }
    }

    // Gives `saved` after writing the image's drawing to a file, or the writer's refusal.
    fn export(&self, path: &[u8]) -> Answer {
        match drawing::text_of(&self.image) {
            Ok(text) => saved(path, &text),
            Err(refusal) => Ok(refusal.to_string()),
        }
    }

    // Gives `lent` after lending two rows of these lengths.
    fn lend_rows(&mut self, good: &[u8], faulty: &[u8]) -> Answer {
        let (good, faulty) = (length(good, MOST_ROW)?, length(faulty, MOST_ROW)?);
        self.good = vec![9; good];
        self.faulty = vec![9; faulty];
        Ok("lent".to_string())
    }

    // Gives `lent` after lending a book of this length.
    fn lend_book(&mut self, count: &[u8]) -> Answer {
        self.book = vec![99; length(count, MOST_BOOK)?];
        Ok("lent".to_string())
    }

    // Gives `lent` after lending a pin book of this length.
    fn lend_pins(&mut self, count: &[u8]) -> Answer {
        self.pins = vec![99; length(count, MOST_PINS)?];
        Ok("lent".to_string())
    }

    // Gives `lent` after lending a target of this length.
    fn lend_target(&mut self, count: &[u8]) -> Answer {
        self.target = vec![9; length(count, MOST_TARGET)?];
        Ok("lent".to_string())
    }

    // Gives `lent` after lending these bytes as the good row.
    fn put_good(&mut self, hex: &[u8]) -> Answer {
        self.good = bytes(hex, MOST_ROW)?;
        Ok("lent".to_string())
    }

    // Gives `lent` after lending these bytes as the faulty row.
    fn put_faulty(&mut self, hex: &[u8]) -> Answer {
        self.faulty = bytes(hex, MOST_ROW)?;
        Ok("lent".to_string())
    }

    // Gives Check's answer.
    fn check(&self) -> Answer {
        said(calls::check(&self.image), |counts| counts_text(&counts))
    }

    // Gives the answer of Rows, into the two lent rows.
    fn rows(&mut self, pattern: &[u8], word: &[u8]) -> Answer {
        let outcome = calls::rows(&self.image, number(pattern)?, fault(word)?, &mut self.good, &mut self.faulty);
        said(outcome, |()| "filled".to_string())
    }

    // Gives the answer of Judge.
    fn judge(&self, pattern: &[u8], word: &[u8]) -> Answer {
        let outcome = calls::judge(&self.image, number(pattern)?, fault(word)?);
        said(outcome, |yes| if yes { "yes" } else { "no" }.to_string())
    }

    // Gives the answer of Find.
    fn find(&self, word: &[u8]) -> Answer {
        said(calls::find(&self.image, fault(word)?), |pattern| match pattern {
            Some(pattern) => pattern.to_string(),
            None => "none".to_string(),
        })
    }

    // Gives the answer of Book, into the lent book.
    fn fill_book(&mut self) -> Answer {
        found(calls::book(&self.image, &mut self.book), self.book.len())
    }

    // Gives the answer of the pin book's filling, into the lent pin book.
    fn fill_pin_book(&mut self) -> Answer {
        found(calls::pin_book(&self.image, &mut self.pins), self.pins.len())
    }

    // Gives the answer of Alter, on the image and both lent books.
    fn alter(&mut self, line: &[u8], hex: &[u8]) -> Answer {
        let line = number(line)?;
        let record: [u8; RECORD] = bytes(hex, RECORD)?.try_into().map_err(|_| "a record is 10 bytes")?;
        let outcome = calls::alter(&mut self.image, line, &record, &mut self.book, &mut self.pins);
        found(outcome, self.book.len() + self.pins.len())
    }

    // Gives the answer of Refresh, on the lent good row.
    fn refresh(&mut self, line: &[u8], pattern: &[u8]) -> Answer {
        let (line, pattern) = (number(line)?, number(pattern)?);
        said(calls::refresh(&self.image, line, pattern, &mut self.good), |()| "filled".to_string())
    }

    // Gives the answer of Five values, into the lent good row.
    fn five(&mut self, named: &[u8], values: &[u8], word: &[u8]) -> Answer {
        let (named, values) = (number(named)?, number(values)?);
        let outcome = calls::five(&self.image, named, values, fault(word)?, &mut self.good);
        said(outcome, |count| format!("drives {count}"))
    }

    // Gives the answer of the reader, into the lent target.
    fn read(&mut self, hex: &[u8]) -> Answer {
        let text = bytes(hex, MOST_READ)?;
        said(calls::read(&text, &mut self.target), |length| format!("read {length}"))
    }

    // Gives the answer of the writer, into the lent target.
    fn write(&mut self) -> Answer {
        said(calls::write(&self.image, &mut self.target), |length| format!("wrote {length}"))
    }
}

/// One line of input: its bytes, or that it was too long and was skipped.
#[derive(Debug, PartialEq, Eq)]
pub enum Line {
    Good(Vec<u8>),
    TooLong,
}

// Gives the next line without its line feed, or nothing at the end of the input.
pub fn next_line(input: &mut impl BufRead) -> io::Result<Option<Line>> {
    let mut line: Vec<u8> = Vec::new();
    let mut begun = false;
    let mut too_long = false;
    loop {
        let buffer = match input.fill_buf() {
            Ok(buffer) => buffer,
            Err(error) if error.kind() == ErrorKind::Interrupted => continue,
            Err(error) => return Err(error),
        };
        let feed = buffer.iter().position(|&byte| byte == b'\n');
        let ended = feed.is_some() || buffer.is_empty();
        begun |= !buffer.is_empty();
        let part = &buffer[..feed.unwrap_or(buffer.len())];
        too_long |= line.len() + part.len() >= TOO_LONG;
        if !too_long {
            line.extend_from_slice(part);
        }
        let eaten = part.len() + usize::from(feed.is_some());
        input.consume(eaten);
        if ended {
            let line = if too_long { Line::TooLong } else { Line::Good(line) };
            return Ok(begun.then_some(line));
        }
    }
}

// Gives one answer for each line of the input, each flushed as soon as it is known.
pub fn talk(input: &mut impl BufRead, output: &mut impl Write) -> io::Result<()> {
    let mut console = Console::default();
    while let Some(line) = next_line(input)? {
        let mut answer = match line {
            Line::Good(line) => console.answer(&line),
            Line::TooLong => "? line too long".to_string(),
        };
        answer.push('\n');
        output.write_all(answer.as_bytes())?;
        output.flush()?;
    }
    Ok(())
}
