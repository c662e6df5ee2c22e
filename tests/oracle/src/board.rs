//! What a good board does: rows, judging, finding, five values, reach and touched.

use crate::image::{Board, Record};

/// A fault of either sort: a line held at 0 or at 1 for all that read it, or one pin held for its gate alone.
#[derive(Clone, Copy, Debug, PartialEq, Eq)]
pub struct Fault {
    pub line: u64,
    pub pin: Option<u64>,
    pub stuck: u8,
}

impl Fault {
    // Gives the fault of a whole line.
    pub fn on_line(line: u64, stuck: u8) -> Fault {
        Fault { line, pin: None, stuck }
    }

    // Gives the fault of one pin of a line's gate.
    pub fn on_pin(line: u64, pin: u64, stuck: u8) -> Fault {
        Fault { line, pin: Some(pin), stuck }
    }

    // Gives whether the fault holds this whole line.
    fn holds_line(&self, line: usize) -> bool {
        self.line == line as u64 && self.pin.is_none()
    }

    // Gives whether the fault holds this pin of this line's gate.
    fn holds_pin(&self, line: usize, pin: usize) -> bool {
        self.line == line as u64 && self.pin == Some(pin as u64)
    }

    // Gives whether the fault is of a pin that its line's gate does not have; every pin of an input or a tie is such.
    pub fn is_absent(&self, board: &Board) -> bool {
        match self.pin {
            None => false,
            Some(pin) => pin >= u64::from(board.records[self.line as usize].count),
        }
    }

    // Gives the fault's place in the book of its sort.
    pub fn entry(&self) -> usize {
        let place = match self.pin {
            None => 2 * self.line,
            Some(pin) => 8 * self.line + 2 * pin,
        };
        place as usize + self.stuck as usize
    }
}

/// How many patterns Find runs side by side, one byte each.
const SIDE: usize = 64;
/// One line's values for that many patterns.
type Block = [u8; SIDE];

/// The five values as bytes: 0 and 1 stand for themselves.
pub const X: u8 = 2;
pub const D: u8 = 3;
pub const D_BAR: u8 = 4;

// Gives a gate's value from its kind, its pin count and how many of its pins are 1.
pub fn gate(kind: u8, count: u8, ones: u8) -> u8 {
    let value = match kind {
        1 | 2 => ones == 1,
        3 | 4 => ones == count,
        5 | 6 => ones > 0,
        7 | 8 => ones % 2 == 1,
        9 => false,
        10 => true,
        _ => panic!("not a gate's kind: {kind}"),
    };
    let opposite = matches!(kind, 2 | 4 | 6 | 8);
    u8::from(value != opposite)
}

// Gives what a gate reads on each of its used pins, from the row below it.
fn pin_values(record: &Record, line: usize, fault: Option<Fault>, row: &[u8]) -> Vec<u8> {
    let read = |(pin, &from): (usize, &u16)| match fault {
        Some(fault) if fault.holds_pin(line, pin) => fault.stuck,
        _ => row[from as usize],
    };
    record.used().iter().enumerate().map(read).collect()
}

// Gives a line's own value from its record, the pattern and the row below it, before any fault of the whole line.
fn line_value(record: &Record, line: usize, pattern: u64, fault: Option<Fault>, row: &[u8]) -> u8 {
    if record.is_input() {
        return (pattern >> line & 1) as u8;
    }
    let ones = pin_values(record, line, fault, row).iter().filter(|&&value| value == 1).count();
    gate(record.kind, record.count, ones as u8)
}

// Gives the row's bytes from a line on, for a pattern and, on the faulty board, a fault.
pub fn run(board: &Board, pattern: u64, fault: Option<Fault>, from: usize, row: &mut [u8]) {
    for line in from..board.lines() {
        let value = line_value(&board.records[line], line, pattern, fault, row);
        row[line] = match fault {
            Some(fault) if fault.holds_line(line) => fault.stuck,
            _ => value,
        };
    }
}

// Gives whether some output line differs between the two rows.
fn differs(board: &Board, good: &[u8], faulty: &[u8]) -> bool {
    board.outputs.iter().any(|&output| good[output] != faulty[output])
}

// Gives whether the pattern shows the fault.
pub fn shows(board: &Board, pattern: u64, fault: Fault) -> bool {
    let mut good = vec![0; board.lines()];
    let mut faulty = vec![0; board.lines()];
    run(board, pattern, None, 0, &mut good);
    run(board, pattern, Some(fault), 0, &mut faulty);
    differs(board, &good, &faulty)
}

// Gives a gate's values side by side, from how many of its pins are 1 in each; the rule is that of `gate`.
fn gate_block(kind: u8, count: u8, ones: &Block, own: &mut Block) {
    match kind {
        3 | 4 => (0..SIDE).for_each(|k| own[k] = u8::from(ones[k] == count)),
        5 | 6 => (0..SIDE).for_each(|k| own[k] = u8::from(ones[k] > 0)),
        9 | 10 => *own = [kind - 9; SIDE],
        _ => (0..SIDE).for_each(|k| own[k] = ones[k] % 2),
    }
    if matches!(kind, 2 | 4 | 6 | 8) {
        (0..SIDE).for_each(|k| own[k] = 1 - own[k]);
    }
}

// Gives one line's values for the patterns from `first` on, side by side, before any fault of the whole line.
fn line_block(record: &Record, line: usize, first: u64, fault: Option<Fault>, below: &[Block], own: &mut Block) {
    if record.is_input() {
        (0..SIDE).for_each(|k| own[k] = ((first + k as u64) >> line & 1) as u8);
        return;
    }
    let mut ones = [0; SIDE];
    for (pin, &from) in record.used().iter().enumerate() {
        let values = match fault {
            Some(fault) if fault.holds_pin(line, pin) => &[fault.stuck; SIDE],
            _ => &below[from as usize],
        };
        (0..SIDE).for_each(|k| ones[k] += values[k]);
    }
    gate_block(record.kind, record.count, &ones, own);
}

// Gives every line's values for the patterns from `first` on, side by side, on the good or the faulty board.
fn run_block(board: &Board, first: u64, fault: Option<Fault>, blocks: &mut [Block]) {
    for line in 0..board.lines() {
        let (below, rest) = blocks.split_at_mut(line);
        line_block(&board.records[line], line, first, fault, below, &mut rest[0]);
        if let Some(fault) = fault {
            if fault.holds_line(line) {
                rest[0] = [fault.stuck; SIDE];
            }
        }
    }
}

// Gives the lowest place at which some output line differs between the two boards, below `width`.
fn first_shown(board: &Board, width: usize, good: &[Block], faulty: &[Block]) -> Option<usize> {
    let differs = |k: usize| board.outputs.iter().any(|&output| good[output][k] != faulty[output][k]);
    (0..width).find(|&k| differs(k))
}

// Gives for each fault the smallest pattern that shows it, or none: all patterns from 0 upward, some side by side.
pub fn find_all(board: &Board, faults: &[Fault]) -> Vec<Option<u64>> {
    let width = board.patterns().min(SIDE as u64);
    let mut answers = vec![None; faults.len()];
    let mut good = vec![[0; SIDE]; board.lines()];
    let mut faulty = vec![[0; SIDE]; board.lines()];
    let mut first = 0;
    while first < board.patterns() && answers.contains(&None) {
        run_block(board, first, None, &mut good);
        for (answer, &fault) in answers.iter_mut().zip(faults) {
            if answer.is_none() {
                run_block(board, first, Some(fault), &mut faulty);
                let place = first_shown(board, width as usize, &good, &faulty);
                *answer = place.map(|k| first + k as u64);
            }
        }
        first += width;
    }
    answers
}

// Gives the smallest pattern that shows the fault, or none.
pub fn find(board: &Board, fault: Fault) -> Option<u64> {
    find_all(board, &[fault])[0]
}

// Gives the good and the faulty half of a settled value.
pub fn halves(value: u8) -> (u8, u8) {
    match value {
        0 => (0, 0),
        1 => (1, 1),
        D => (1, 0),
        D_BAR => (0, 1),
        _ => panic!("x has no halves"),
    }
}

// Gives the settled value that has these two halves.
pub fn joined(good: u8, faulty: u8) -> u8 {
    match (good, faulty) {
        (0, 0) => 0,
        (1, 1) => 1,
        (1, 0) => D,
        (0, 1) => D_BAR,
        _ => panic!("a half is 0 or 1"),
    }
}

// Gives the pins with every x replaced: the k-th x by the k-th base-4 digit of the filling's number.
fn filled(pins: &[u8], filling: usize) -> Vec<u8> {
    let mut left = filling;
    let mut full = Vec::new();
    for &pin in pins {
        if pin == X {
            full.push([0, 1, D, D_BAR][left % 4]);
            left /= 4;
        } else {
            full.push(pin);
        }
    }
    full
}

// Gives a gate's settled value on pins without x: the kind's value on good halves and on faulty halves.
fn gate_settled(kind: u8, pins: &[u8]) -> u8 {
    let count = pins.len() as u8;
    let good = pins.iter().filter(|&&pin| halves(pin).0 == 1).count() as u8;
    let faulty = pins.iter().filter(|&&pin| halves(pin).1 == 1).count() as u8;
    joined(gate(kind, count, good), gate(kind, count, faulty))
}

// Gives a gate's value among the five: v when every filling of its x pins gives v, otherwise x.
pub fn gate_five(kind: u8, pins: &[u8]) -> u8 {
    let unknown = pins.iter().filter(|&&pin| pin == X).count() as u32;
    let first = gate_settled(kind, &filled(pins, 0));
    let same = (1..4usize.pow(unknown)).all(|filling| gate_settled(kind, &filled(pins, filling)) == first);
    if same {
        first
    } else {
        X
    }
}

// Gives what the fault's line or pin holds among the five, from the value it has without the fault there.
fn struck(value: u8, stuck: u8) -> u8 {
    if value == X {
        return X;
    }
    joined(halves(value).0, stuck)
}

// Gives what a gate reads among the five on each of its used pins, from the row below it.
fn pins_five(record: &Record, line: usize, fault: Fault, row: &[u8]) -> Vec<u8> {
    let read = |(pin, &from): (usize, &u16)| {
        let value = row[from as usize];
        if fault.holds_pin(line, pin) {
            struck(value, fault.stuck)
        } else {
            value
        }
    };
    record.used().iter().enumerate().map(read).collect()
}

// Gives the five-valued row for a partial pattern (inputs named, their values) and a fault.
pub fn five_row(board: &Board, named: u64, values: u64, fault: Fault) -> Vec<u8> {
    let mut row: Vec<u8> = Vec::new();
    for (line, record) in board.records.iter().enumerate() {
        let value = if !record.is_input() {
            gate_five(record.kind, &pins_five(record, line, fault, &row))
        } else if named >> line & 1 == 1 {
            (values >> line & 1) as u8
        } else {
            X
        };
        row.push(if fault.holds_line(line) { struck(value, fault.stuck) } else { value });
    }
    row
}

// Gives how many output lines hold D or D-bar in a five-valued row.
pub fn drives(board: &Board, row: &[u8]) -> usize {
    board.outputs.iter().filter(|&&output| row[output] == D || row[output] == D_BAR).count()
}

// Gives, for each line, whether the named line reaches it: itself, and whatever is fed from it through pins.
pub fn reach(board: &Board, from: usize) -> Vec<bool> {
    let mut reached = vec![false; board.lines()];
    reached[from] = true;
    for line in from + 1..board.lines() {
        reached[line] = board.records[line].used().iter().any(|&pin| reached[pin as usize]);
    }
    reached
}

// Gives, for each line, whether it and the altered line reach a common output of this one board.
fn meets(board: &Board, altered: usize) -> Vec<bool> {
    let other = reach(board, altered);
    let meet = |line: usize| {
        let own = reach(board, line);
        board.outputs.iter().any(|&output| own[output] && other[output])
    };
    (0..board.lines()).map(meet).collect()
}

// Gives, for each line, whether its faults are touched: a common output in the board before or in the board after.
pub fn touched(before: &Board, after: &Board, altered: usize) -> Vec<bool> {
    let old = meets(before, altered);
    let new = meets(after, altered);
    (0..before.lines()).map(|line| old[line] || new[line]).collect()
}
