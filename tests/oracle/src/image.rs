//! The board image: decoding it, and refusals 1 to 5.

use std::fmt;

/// The last four bytes of every image.
pub const MARK: [u8; 4] = [0x42, 0x52, 0x44, 0x31];
/// The trailer's length in bytes.
pub const TRAILER: usize = 12;
/// A record's length in bytes.
pub const RECORD: usize = 10;
/// The most lines a board has.
pub const MOST_LINES: usize = 4_096;
/// The most outputs a board has.
pub const MOST_OUTPUTS: usize = 64;
/// The most inputs a board has.
pub const MOST_INPUTS: usize = 32;
/// The highest kind.
pub const MOST_KIND: u8 = 10;
/// The longest note in bytes.
pub const MOST_NOTE: usize = 256;
/// The length of the longest good image in bytes.
pub const MOST_IMAGE: usize = MOST_NOTE + RECORD * MOST_LINES + 2 * MOST_OUTPUTS + TRAILER;

/// A call's "no": a plain number, or 4 with line and field, 5 with the place in the output list, 13 with a length.
#[derive(Clone, Copy, Debug, PartialEq, Eq)]
pub enum Refusal {
    Plain(u8),
    BadRecord { line: usize, field: usize },
    BadOutput { place: usize },
    Departure { length: usize },
}

impl fmt::Display for Refusal {
    // Gives the refusal's one line, without a line feed.
    fn fmt(&self, out: &mut fmt::Formatter<'_>) -> fmt::Result {
        match self {
            Refusal::Plain(number) => write!(out, "refused {number}"),
            Refusal::BadRecord { line, field } => write!(out, "refused 4 at {line}.{field}"),
            Refusal::BadOutput { place } => write!(out, "refused 5 at {place}"),
            Refusal::Departure { length } => write!(out, "refused 13 at {length}"),
        }
    }
}

/// One line's record: kind, pin count and four pins.
#[derive(Clone, Copy, Debug, PartialEq, Eq)]
pub struct Record {
    pub kind: u8,
    pub count: u8,
    pub pins: [u16; 4],
}

impl Record {
    // Gives the record that 10 bytes stand for, good or bad.
    pub fn from_bytes(bytes: &[u8]) -> Record {
        let pin = |i: usize| u16::from_le_bytes([bytes[2 + 2 * i], bytes[3 + 2 * i]]);
        Record { kind: bytes[0], count: bytes[1], pins: [pin(0), pin(1), pin(2), pin(3)] }
    }

    // Gives whether the record's kind is "input".
    pub fn is_input(&self) -> bool {
        self.kind == 0
    }

    // Gives the used pins; only for a record whose count is at most 4.
    pub fn used(&self) -> &[u16] {
        &self.pins[..self.count as usize]
    }
}

/// A good board: its records, how many of them are inputs, and its output lines.
#[derive(Clone, Debug, PartialEq, Eq)]
pub struct Board {
    pub records: Vec<Record>,
    pub inputs: usize,
    pub outputs: Vec<usize>,
}

impl Board {
    // Gives the line count.
    pub fn lines(&self) -> usize {
        self.records.len()
    }

    // Gives how many patterns the board has: two to the number of inputs.
    pub fn patterns(&self) -> u64 {
        1 << self.inputs
    }
}

/// What the trailer says.
struct Trailer {
    lines: usize,
    outputs: usize,
    distance: usize,
}

// Gives the number in two bytes, the lower byte first.
fn number16(bytes: &[u8]) -> usize {
    u16::from_le_bytes([bytes[0], bytes[1]]) as usize
}

// Gives the number in four bytes, the lowest byte first.
fn number32(bytes: &[u8]) -> usize {
    u32::from_le_bytes([bytes[0], bytes[1], bytes[2], bytes[3]]) as usize
}

// Gives refusal 2 when a line or output count is outside its limits.
pub fn counts_allowed(lines: usize, outputs: usize) -> Result<(), Refusal> {
    if !(1..=MOST_LINES).contains(&lines) || !(1..=MOST_OUTPUTS).contains(&outputs) {
        return Err(Refusal::Plain(2));
    }
    Ok(())
}

// Gives the image's trailer, or refusal 1, 2 or 3.
fn trailer(image: &[u8]) -> Result<Trailer, Refusal> {
    let length = image.len();
    if length < TRAILER || image[length - 4..] != MARK {
        return Err(Refusal::Plain(1));
    }
    let bytes = &image[length - TRAILER..];
    let lines = number16(&bytes[0..2]);
    let outputs = number16(&bytes[2..4]);
    let distance = number32(&bytes[4..8]);
    counts_allowed(lines, outputs)?;
    let right = TRAILER + 2 * outputs + RECORD * lines;
    if distance != right || distance > length || length - distance > MOST_NOTE {
        return Err(Refusal::Plain(3));
    }
    Ok(Trailer { lines, outputs, distance })
}

// Gives whether a pin count is allowed for a kind (0 to 10).
fn count_allowed(kind: u8, count: u8) -> bool {
    match kind {
        0 | 9 | 10 => count == 0,
        1 | 2 => count == 1,
        _ => (2..=4).contains(&count),
    }
}

// Gives the first bad field of a record at a line, where `inputs` inputs and perhaps a gate stand before it.
pub fn bad_field(record: &Record, line: usize, inputs: usize, gate_before: bool) -> Option<usize> {
    if record.kind > MOST_KIND {
        return Some(0);
    }
    if line == 0 && !record.is_input() {
        return Some(0);
    }
    if record.is_input() && (gate_before || inputs >= MOST_INPUTS) {
        return Some(0);
    }
    if !count_allowed(record.kind, record.count) {
        return Some(1);
    }
    for i in 0..4 {
        let pin = record.pins[i] as usize;
        let good = if i < record.count as usize { pin < line } else { pin == 0 };
        if !good {
            return Some(2 + i);
        }
    }
    None
}

// Gives all records of the image and the number of inputs, or refusal 4 with the first bad record and field.
fn records(bytes: &[u8], lines: usize) -> Result<(Vec<Record>, usize), Refusal> {
    let mut records = Vec::new();
    let mut inputs = 0;
    for line in 0..lines {
        let record = Record::from_bytes(&bytes[RECORD * line..RECORD * (line + 1)]);
        let gate_before = inputs < line;
        if let Some(field) = bad_field(&record, line, inputs, gate_before) {
            return Err(Refusal::BadRecord { line, field });
        }
        if record.is_input() {
            inputs += 1;
        }
        records.push(record);
    }
    Ok((records, inputs))
}

// Gives the output lines, or refusal 5 with the place of the first bad one.
fn outputs(bytes: &[u8], count: usize, lines: usize) -> Result<Vec<usize>, Refusal> {
    let mut outputs: Vec<usize> = Vec::new();
    for place in 0..count {
        let output = number16(&bytes[2 * place..2 * place + 2]);
        let rises = match outputs.last() {
            None => true,
            Some(&before) => output > before,
        };
        if output >= lines || !rises {
            return Err(Refusal::BadOutput { place });
        }
        outputs.push(output);
    }
    Ok(outputs)
}

// Gives the board of an image, or its refusal 1 to 5.
pub fn decode(image: &[u8]) -> Result<Board, Refusal> {
    let trailer = trailer(image)?;
    let bytes = &image[image.len() - trailer.distance..];
    let (records, inputs) = records(bytes, trailer.lines)?;
    let outputs = outputs(&bytes[RECORD * trailer.lines..], trailer.outputs, trailer.lines)?;
    Ok(Board { records, inputs, outputs })
}

// Gives where a line's record starts in a good image of this board.
pub fn record_start(image: &[u8], board: &Board, line: usize) -> usize {
    let distance = TRAILER + 2 * board.outputs.len() + RECORD * board.lines();
    image.len() - distance + RECORD * line
}
