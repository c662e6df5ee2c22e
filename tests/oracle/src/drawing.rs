//! Drawings as text: the form as the statements that may come next, a reader that tries each of them, and a writer.

use crate::image::{self, Board, Record, Refusal, MARK, RECORD, TRAILER};
use std::ops::RangeInclusive;

/// The gate words; the first is kind 1.
const WORDS: [&str; 10] = ["BUFF", "NOT", "AND", "NAND", "OR", "NOR", "XOR", "XNOR", "TIE0", "TIE1"];
/// The first kind whose word takes no pin.
const FIRST_TIE: u8 = 9;
/// The largest number of an output or a pin.
const LARGEST: u32 = 65_535;
/// The most pins behind a gate word.
const MOST_PINS: usize = 4;

/// A piece of a statement: these letters and signs, this number, or any number up to the largest.
#[derive(Clone, Copy)]
enum Piece {
    Text(&'static str),
    This(usize),
    Any,
}

/// A sort of statement.
#[derive(Clone, Copy)]
enum Sort {
    Input,
    Output,
    Gate { kind: u8, pins: usize },
}

/// What the whole statements so far say.
#[derive(Default)]
struct Drawing {
    inputs: usize,
    outputs: Vec<u16>,
    gates: Vec<Record>,
}

// Gives the number that these bytes are, where they are one without leading zeros that is not too large.
fn number(bytes: &[u8]) -> Option<u16> {
    let value: u32 = std::str::from_utf8(bytes).ok()?.parse().ok()?;
    let written_so = value.to_string().as_bytes() == bytes;
    (written_so && value <= LARGEST).then_some(value as u16)
}

// Gives how many bytes the text begins with that these bytes begin with too, and whether that is all of them.
fn shared_with_bytes(bytes: &[u8], text: &[u8]) -> (usize, bool) {
    let shared = bytes.iter().zip(text).take_while(|(wanted, found)| wanted == found).count();
    (shared, shared == bytes.len())
}

// Gives how long the longest number is that the text begins with, and whether there is one.
fn shared_with_a_number(text: &[u8]) -> (usize, bool) {
    let shared = (1..=text.len()).take_while(|&length| number(&text[..length]).is_some()).count();
    (shared, shared > 0)
}

// Gives how many bytes the text begins with that some statement of these pieces has too, and a whole one's numbers.
fn shared_with_statement(pieces: &[Piece], text: &[u8]) -> (usize, Option<Vec<u16>>) {
    let (mut length, mut numbers) = (0, Vec::new());
    for &piece in pieces {
        let rest = &text[length..];
        let (shared, whole) = match piece {
            Piece::Text(bytes) => shared_with_bytes(bytes.as_bytes(), rest),
            Piece::This(number) => shared_with_bytes(number.to_string().as_bytes(), rest),
            Piece::Any => shared_with_a_number(rest),
        };
        if matches!(piece, Piece::Any) {
            numbers.extend(number(&rest[..shared]));
        }
        length += shared;
        if !whole {
            return (length, None);
        }
    }
    (length, Some(numbers))
}

// Gives how many pins may stand in the brackets behind a kind's word.
fn pins_of_word(kind: u8) -> RangeInclusive<usize> {
    if kind < FIRST_TIE {
        1..=MOST_PINS
    } else {
        0..=0
    }
}

// Gives the pieces of a gate's statement: its line, its word and so many pins.
fn gate_pieces(line: usize, word: &'static str, pins: usize) -> Vec<Piece> {
    let mut pieces = vec![Piece::Text("n"), Piece::This(line), Piece::Text(" = "), Piece::Text(word), Piece::Text("(")];
    for pin in 0..pins {
        pieces.extend([Piece::Text(if pin == 0 { "n" } else { ", n" }), Piece::Any]);
    }
    pieces.push(Piece::Text(")\n"));
    pieces
}

impl Drawing {
    // Gives the sorts of statement that may come next: inputs, then outputs, then gates.
    fn may_come(&self) -> Vec<Sort> {
        let mut sorts = Vec::new();
        if self.outputs.is_empty() && self.gates.is_empty() {
            sorts.push(Sort::Input);
        }
        if self.gates.is_empty() {
            sorts.push(Sort::Output);
        }
        for kind in 1..=WORDS.len() as u8 {
            sorts.extend(pins_of_word(kind).map(|pins| Sort::Gate { kind, pins }));
        }
        sorts
    }

    // Gives the pieces of a statement of this sort that comes next; inputs and then gates are numbered on from 0.
    fn pieces(&self, sort: Sort) -> Vec<Piece> {
        match sort {
            Sort::Input => vec![Piece::Text("INPUT(n"), Piece::This(self.inputs), Piece::Text(")\n")],
            Sort::Output => vec![Piece::Text("OUTPUT(n"), Piece::Any, Piece::Text(")\n")],
            Sort::Gate { kind, pins } => gate_pieces(self.inputs + self.gates.len(), WORDS[kind as usize - 1], pins),
        }
    }

    // Takes a whole statement of this sort with these numbers.
    fn take(&mut self, sort: Sort, numbers: &[u16]) {
        match sort {
            Sort::Input => self.inputs += 1,
            Sort::Output => self.outputs.push(numbers[0]),
            Sort::Gate { kind, .. } => {
                let mut pins = [0; MOST_PINS];
                pins[..numbers.len()].copy_from_slice(numbers);
                self.gates.push(Record { kind, count: numbers.len() as u8, pins });
            }
        }
    }

    // Takes the statement that the text begins with, and gives its length, or the most that a statement here shares.
    fn next(&mut self, text: &[u8]) -> Result<usize, usize> {
        let mut most = 0;
        for sort in self.may_come() {
            let (shared, whole) = shared_with_statement(&self.pieces(sort), text);
            if let Some(numbers) = whole {
                self.take(sort, &numbers);
                return Ok(shared);
            }
            most = most.max(shared);
        }
        Err(most)
    }

    // Gives what a text says, or refusal 13 with how much of it some text of the form shares.
    fn of(text: &[u8]) -> Result<Drawing, Refusal> {
        let (mut drawing, mut length) = (Drawing::default(), 0);
        while length < text.len() {
            match drawing.next(&text[length..]) {
                Ok(shared) => length += shared,
                Err(shared) => return Err(Refusal::Departure { length: length + shared }),
            }
        }
        Ok(drawing)
    }

    // Gives the image of the board named, good or bad; only for counts within the limits.
    fn image(&self) -> Vec<u8> {
        let lines = self.inputs + self.gates.len();
        let mut image = vec![0; RECORD * self.inputs];
        for gate in &self.gates {
            image.extend([gate.kind, gate.count]);
            image.extend(gate.pins.iter().flat_map(|pin| pin.to_le_bytes()));
        }
        image.extend(self.outputs.iter().flat_map(|output| output.to_le_bytes()));
        let distance = image.len() + TRAILER;
        image.extend((lines as u16).to_le_bytes());
        image.extend((self.outputs.len() as u16).to_le_bytes());
        image.extend((distance as u32).to_le_bytes());
        image.extend(MARK);
        image
    }
}

// Gives the image, without a note, of the board that a drawing names, or refusal 13, 2, 4 or 5.
pub fn image_of(text: &[u8]) -> Result<Vec<u8>, Refusal> {
    let drawing = Drawing::of(text)?;
    image::counts_allowed(drawing.inputs + drawing.gates.len(), drawing.outputs.len())?;
    let image = drawing.image();
    image::decode(&image)?;
    Ok(image)
}

// Gives a gate's statement.
fn gate_text(line: usize, gate: &Record) -> String {
    let pins: Vec<String> = gate.used().iter().map(|pin| format!("n{pin}")).collect();
    format!("n{line} = {}({})\n", WORDS[gate.kind as usize - 1], pins.join(", "))
}

// Gives a board's drawing.
fn board_text(board: &Board) -> String {
    let inputs = (0..board.inputs).map(|line| format!("INPUT(n{line})\n"));
    let outputs = board.outputs.iter().map(|output| format!("OUTPUT(n{output})\n"));
    let gates = (board.inputs..board.lines()).map(|line| gate_text(line, &board.records[line]));
    inputs.chain(outputs).chain(gates).collect()
}

// Gives the drawing of an image's board, or refusal 1 to 5.
pub fn text_of(image: &[u8]) -> Result<Vec<u8>, Refusal> {
    Ok(board_text(&image::decode(image)?).into_bytes())
}
