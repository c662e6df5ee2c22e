//! Larger agreement tests: every gate, and random boards against plain evaluation.

use super::*;
use crate::board::{self, Fault, D, D_BAR, X};
use crate::calls::{self, Entry};
use crate::image::{decode, Board, Record};
use std::ops::RangeInclusive;

/// A small source of numbers that look random.
struct Numbers(u64);

impl Numbers {
    // Gives the next number below a limit.
    fn below(&mut self, limit: u64) -> u64 {
        self.0 ^= self.0 << 13;
        self.0 ^= self.0 >> 7;
        self.0 ^= self.0 << 17;
        (self.0 >> 11) % limit
    }

    // Gives a good gate record for a line.
    fn gate(&mut self, line: u64) -> [u8; RECORD] {
        let kind = 1 + self.below(10) as u8;
        let count = counts(kind);
        let count = u64::from(*count.start()) + self.below(count.count() as u64);
        let pins: Vec<u16> = (0..count).map(|_| self.below(line) as u16).collect();
        record(kind, &pins)
    }

    // Gives the image of a good board with at most this many inputs and gates.
    fn image(&mut self, inputs: u64, gates: u64) -> Vec<u8> {
        let inputs = 1 + self.below(inputs);
        let gates = self.below(gates + 1);
        let mut records = vec![record(INPUT, &[]); inputs as usize];
        records.extend((inputs..inputs + gates).map(|line| self.gate(line)));
        let mut outputs: Vec<u16> = (0..records.len() as u16).filter(|_| self.below(4) == 0).collect();
        if outputs.is_empty() {
            outputs.push(records.len() as u16 - 1);
        }
        image(self.below(20) as usize, &records, &outputs)
    }

    // Gives a fault of either sort that the board can have; an input and a tie have none of a pin.
    fn fault(&mut self, board: &Board) -> Fault {
        let line = self.below(board.lines() as u64);
        let stuck = self.below(2) as u8;
        let pins = u64::from(board.records[line as usize].count);
        if pins == 0 || self.below(3) == 0 {
            return Fault::on_line(line, stuck);
        }
        Fault::on_pin(line, self.below(pins), stuck)
    }
}

// Gives the pin counts that a gate's kind may have.
fn counts(kind: u8) -> RangeInclusive<u32> {
    match kind {
        1 | 2 => 1..=1,
        9 | 10 => 0..=0,
        _ => 2..=4,
    }
}

// Gives the kind's value straight from the papers' table.
fn table(kind: u8, pins: &[u8]) -> u8 {
    let all = pins.iter().all(|&pin| pin == 1);
    let some = pins.contains(&1);
    let odd = pins.iter().fold(false, |odd, &pin| odd != (pin == 1));
    let value = match kind {
        1 => pins[0] == 1,
        2 => pins[0] == 0,
        3 => all,
        4 => !all,
        5 => some,
        6 => !some,
        7 => odd,
        8 => !odd,
        9 => false,
        _ => true,
    };
    u8::from(value)
}

// Gives every list of `count` values below a limit.
fn lists(count: u32, limit: u8) -> Vec<Vec<u8>> {
    let digits = |number: u32| (0..count).map(move |i| (number / u32::from(limit).pow(i) % u32::from(limit)) as u8);
    (0..u32::from(limit).pow(count)).map(|number| digits(number).collect()).collect()
}

// Every kind and pin count gives the table's value on all pins.
#[test]
fn gates() {
    for kind in 1..=10 {
        for count in counts(kind) {
            for pins in lists(count, 2) {
                let ones = pins.iter().sum();
                assert_eq!(board::gate(kind, count as u8, ones), table(kind, &pins), "{kind} {pins:?}");
            }
        }
    }
}

// Gives the one value a kind has under every filling of unknown pins by 0 and 1, or nothing.
fn constant(kind: u8, pins: &[Option<u8>]) -> Option<u8> {
    let agrees = |full: &Vec<u8>| pins.iter().zip(full).all(|(pin, value)| pin.iter().all(|known| known == value));
    let fillings = lists(pins.len() as u32, 2).into_iter().filter(agrees);
    let mut values: Vec<u8> = fillings.map(|full| table(kind, &full)).collect();
    values.dedup();
    if values.len() == 1 {
        Some(values[0])
    } else {
        None
    }
}

// A gate is settled among the five exactly when its good halves and its faulty halves each settle it.
#[test]
fn gates_five() {
    for kind in 1..=10 {
        for count in counts(kind) {
            for pins in lists(count, 5) {
                let good: Vec<_> =
                    pins.iter().map(|&pin| [Some(0), Some(1), None, Some(1), Some(0)][pin as usize]).collect();
                let faulty: Vec<_> =
                    pins.iter().map(|&pin| [Some(0), Some(1), None, Some(0), Some(1)][pin as usize]).collect();
                let wanted = match (constant(kind, &good), constant(kind, &faulty)) {
                    (Some(good), Some(faulty)) => [[0, D_BAR], [D, 1]][good as usize][faulty as usize],
                    _ => X,
                };
                assert_eq!(board::gate_five(kind, &pins), wanted, "{kind} {pins:?}");
            }
        }
    }
}

// Fewer pins have the value of four, filled with 1 for and, with 0 for or and exclusive-or.
#[test]
fn fewer_pins() {
    for (kind, fill) in [(AND, 1), (OR, 0), (XOR, 0)] {
        for count in 2..=3 {
            for pins in lists(count, 5) {
                let mut four = pins.clone();
                four.resize(4, fill);
                assert_eq!(board::gate_five(kind, &pins), board::gate_five(kind, &four));
            }
        }
    }
}

// Gives the smallest pattern that shows a fault, one pattern at a time.
fn plain_find(board: &Board, fault: Fault) -> Option<u64> {
    (0..board.patterns()).find(|&pattern| board::shows(board, pattern, fault))
}

// Gives all faults that a board can have, of both sorts.
fn all_faults(board: &Board) -> Vec<Fault> {
    let mut faults = Vec::new();
    for (line, record) in (0..).zip(&board.records) {
        for stuck in 0..=1 {
            faults.push(Fault::on_line(line, stuck));
            faults.extend((0..u64::from(record.count)).map(|pin| Fault::on_pin(line, pin, stuck)));
        }
    }
    faults
}

// Find agrees with judging one pattern at a time, on boards of less and more than 64 patterns.
#[test]
fn find_agrees() {
    let mut numbers = Numbers(0x1234_5678_9ABC_DEF1);
    for _ in 0..150 {
        let board = decode(&numbers.image(9, 30)).unwrap();
        for fault in all_faults(&board) {
            assert_eq!(board::find(&board, fault), plain_find(&board, fault), "{fault:?}");
        }
    }
}

// Gives a line's value by asking its pins' lines, a way that shares nothing with `run`.
fn asked(board: &Board, pattern: u64, fault: Option<Fault>, line: usize) -> u8 {
    let held = fault.filter(|fault| fault.line == line as u64);
    if let Some(Fault { pin: None, stuck, .. }) = held {
        return stuck;
    }
    let record = &board.records[line];
    if record.kind == 0 {
        return (pattern >> line & 1) as u8;
    }
    let mut pins: Vec<u8> = record.used().iter().map(|&pin| asked(board, pattern, fault, pin as usize)).collect();
    if let Some(Fault { pin: Some(pin), stuck, .. }) = held {
        pins[pin as usize] = stuck;
    }
    table(record.kind, &pins)
}

// Rows agree with asking each line in turn, and Judge with the outputs of the rows.
#[test]
fn rows_agree() {
    let mut numbers = Numbers(0x0F1E_2D3C_4B5A_6978);
    for _ in 0..300 {
        let image = numbers.image(5, 12);
        let board = decode(&image).unwrap();
        let pattern = numbers.below(board.patterns());
        let fault = numbers.fault(&board);
        let (mut good, mut faulty) = (vec![9; board.lines()], vec![9; board.lines()]);
        calls::rows(&image, pattern, fault, &mut good, &mut faulty).unwrap();
        for line in 0..board.lines() {
            assert_eq!(good[line], asked(&board, pattern, None, line));
            assert_eq!(faulty[line], asked(&board, pattern, Some(fault), line));
        }
        let differs = board.outputs.iter().any(|&output| good[output] != faulty[output]);
        assert_eq!(calls::judge(&image, pattern, fault), Ok(differs));
    }
}

// A settled five-valued line has that pair under every completion; with all inputs named the row is settled.
#[test]
fn five_promise() {
    let mut numbers = Numbers(0x5555_AAAA_1234_4321);
    for round in 0..300 {
        let board = decode(&numbers.image(5, 15)).unwrap();
        let named = if round % 3 == 0 { board.patterns() - 1 } else { numbers.below(board.patterns()) };
        let values = numbers.below(board.patterns()) & named;
        let fault = numbers.fault(&board);
        let row = board::five_row(&board, named, values, fault);
        for pattern in (0..board.patterns()).filter(|pattern| pattern & named == values) {
            let (mut good, mut faulty) = (vec![0; board.lines()], vec![0; board.lines()]);
            board::run(&board, pattern, None, 0, &mut good);
            board::run(&board, pattern, Some(fault), 0, &mut faulty);
            for line in (0..board.lines()).filter(|&line| row[line] != X) {
                assert_eq!(row[line], board::joined(good[line], faulty[line]));
            }
        }
        assert!(named + 1 != board.patterns() || !row.contains(&X));
        let held = board.outputs.iter().filter(|&&output| [D, D_BAR].contains(&row[output])).count();
        assert_eq!(board::drives(&board, &row), held);
    }
}

// Gives whether a line feeds another through pins, walking back from the other.
fn feeds(board: &Board, line: usize, other: usize) -> bool {
    line == other || board.records[other].used().iter().any(|&pin| feeds(board, line, pin as usize))
}

// Gives whether two lines reach a common output of a board.
fn common(board: &Board, line: usize, other: usize) -> bool {
    board.outputs.iter().any(|&output| feeds(board, line, output) && feeds(board, other, output))
}

// Gives both books of an image, and how many of their entries are not none.
fn both_books(image: &[u8]) -> (Vec<Entry>, Vec<Entry>, usize) {
    let lines = decode(image).unwrap().lines();
    let (mut book, mut pins) = (vec![0; 2 * lines], vec![0; 8 * lines]);
    let found = calls::book(image, &mut book).unwrap() + calls::pin_book(image, &mut pins).unwrap();
    (book, pins, found)
}

// The pin book has Find's answer for each used pin, and none for each absent one.
#[test]
fn pin_book_agrees() {
    let mut numbers = Numbers(0x2468_ACE0_1357_9BDF);
    for _ in 0..100 {
        let image = numbers.image(6, 12);
        let board = decode(&image).unwrap();
        let (_, pins, _) = both_books(&image);
        for (place, &entry) in pins.iter().enumerate() {
            let (line, pin, stuck) = (place / 8, place % 8 / 2, place % 2);
            let wanted = match pin < board.records[line].used().len() {
                true => plain_find(&board, Fault::on_pin(line as u64, pin as u64, stuck as u8)),
                false => None,
            };
            assert_eq!(entry, wanted.unwrap_or(calls::NONE));
        }
    }
}

// A pin's fault is the fault of a buffer put in front of that pin alone.
#[test]
fn pin_is_a_buffer() {
    let mut numbers = Numbers(0x1111_2222_3333_4445);
    for _ in 0..200 {
        let board = decode(&numbers.image(5, 12)).unwrap();
        let fault = numbers.fault(&board);
        let Some(pin) = fault.pin else { continue };
        let (line, mut other) = (fault.line as usize, board.clone());
        let buffer = Record { kind: BUFFER, count: 1, pins: [board.records[line].pins[pin as usize], 0, 0, 0] };
        let moved = |from: u16| if from as usize >= line { from + 1 } else { from };
        for record in &mut other.records[line..] {
            record.pins = record.pins.map(moved);
        }
        other.records[line].pins[pin as usize] = line as u16;
        other.records.insert(line, buffer);
        other.outputs = board.outputs.iter().map(|&output| moved(output as u16) as usize).collect();
        assert_eq!(board::find(&board, fault), board::find(&other, Fault::on_line(line as u64, fault.stuck)));
    }
}

// Gives a book in which each entry has a number of its own that no search gives.
fn marked(length: usize) -> Vec<Entry> {
    (0..length as u64).map(|place| 1_000_000 + place).collect()
}

// An alteration keeps right books right, leaves untouched entries alone and counts all entries of both books.
#[test]
fn alterations() {
    let mut numbers = Numbers(0x7777_0000_1111_2222);
    for _ in 0..150 {
        let mut image = numbers.image(4, 10);
        let before = decode(&image).unwrap();
        if before.inputs == before.lines() {
            continue;
        }
        let line = before.inputs as u64 + numbers.below((before.lines() - before.inputs) as u64);
        let record = numbers.gate(line);
        let (mut book, mut pins, _) = both_books(&image);
        let (mut own_book, mut own_pins) = (marked(book.len()), marked(pins.len()));
        let count = calls::alter(&mut image.clone(), line, &record, &mut book, &mut pins).unwrap();
        let own_count = calls::alter(&mut image, line, &record, &mut own_book, &mut own_pins).unwrap();
        let after = decode(&image).unwrap();
        assert_eq!(both_books(&image), (book.clone(), pins.clone(), count));
        for (own, fresh, entries) in [(&own_book, book, 2), (&own_pins, pins, 8)] {
            for place in 0..own.len() {
                let other = place / entries;
                let touched = common(&before, other, line as usize) || common(&after, other, line as usize);
                assert_eq!(own[place], if touched { fresh[place] } else { 1_000_000 + place as u64 });
            }
        }
        assert_eq!(own_count, own_book.iter().chain(&own_pins).filter(|&&entry| entry != calls::NONE).count());
    }
}

// Refresh from any line repairs a row whose bytes before the line are right.
#[test]
fn refresh_repairs() {
    let mut numbers = Numbers(0x3141_5926_5358_9793);
    for _ in 0..100 {
        let image = numbers.image(6, 20);
        let board = decode(&image).unwrap();
        let pattern = numbers.below(board.patterns());
        let mut right = vec![0; board.lines()];
        board::run(&board, pattern, None, 0, &mut right);
        for line in 0..board.lines() {
            let mut row = right.clone();
            row[line..].fill(7);
            assert_eq!(calls::refresh(&image, line as u64, pattern, &mut row), Ok(()));
            assert_eq!(row, right);
        }
    }
}
