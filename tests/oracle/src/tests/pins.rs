//! Faults on one pin: what their gate reads, refusal 12 and the pin book.

use super::*;
use crate::board::{Fault, D, D_BAR, X};
use crate::calls::{self, NONE};
use crate::image::Refusal;

// Gives a board whose lines several gates read: and(0,1), or(0,1), and exclusive-or(0,0) with one line on two pins.
fn shared() -> Vec<u8> {
    let x = record(INPUT, &[]);
    image(5, &[x, x, record(AND, &[0, 1]), record(OR, &[0, 1]), record(XOR, &[0, 0])], &[2, 3, 4])
}

// Gives both rows of a board.
fn rows(image: &[u8], pattern: u64, fault: Fault) -> (Vec<u8>, Vec<u8>) {
    let lines = calls::check(image).unwrap().lines;
    let (mut good, mut faulty) = (vec![9; lines], vec![9; lines]);
    calls::rows(image, pattern, fault, &mut good, &mut faulty).unwrap();
    (good, faulty)
}

// Gives the five-valued row of a board and its count.
fn five(image: &[u8], named: u64, values: u64, fault: Fault) -> (Vec<u8>, usize) {
    let mut row = vec![9; calls::check(image).unwrap().lines];
    let count = calls::five(image, named, values, fault, &mut row).unwrap();
    (row, count)
}

// The pin's gate alone reads the stuck value: the line and its other readers keep the good value.
#[test]
fn one_gate_reads_it() {
    assert_eq!(rows(&board_t(), 1, Fault::on_pin(2, 0, 0)), (vec![1, 0, 1], vec![1, 0, 0]));
    assert_eq!(rows(&board_t(), 1, Fault::on_line(0, 0)), (vec![1, 0, 1], vec![0, 1, 1]));
    assert_eq!(rows(&shared(), 3, Fault::on_pin(2, 0, 0)), (vec![1, 1, 1, 1, 0], vec![1, 1, 0, 1, 0]));
    assert_eq!(rows(&shared(), 0, Fault::on_pin(3, 1, 1)), (vec![0; 5], vec![0, 0, 0, 1, 0]));
}

// Of two pins with the same line one alone is held.
#[test]
fn one_pin_of_two() {
    assert_eq!(rows(&shared(), 1, Fault::on_pin(4, 1, 0)), (vec![1, 0, 0, 1, 0], vec![1, 0, 0, 1, 1]));
    assert_eq!(calls::find(&shared(), Fault::on_pin(4, 0, 0)), Ok(Some(1)));
    assert_eq!(calls::find(&shared(), Fault::on_pin(4, 1, 1)), Ok(Some(0)));
}

// A settled pin that differs reads D or D-bar, one that does not keeps its value, and an x stays x.
#[test]
fn five_values_of_a_pin() {
    assert_eq!(five(&board_t(), 1, 1, Fault::on_pin(2, 0, 0)), (vec![1, 0, D], 1));
    assert_eq!(five(&board_t(), 1, 0, Fault::on_pin(1, 0, 1)), (vec![0, D, D], 1));
    assert_eq!(five(&board_t(), 1, 1, Fault::on_pin(1, 0, 0)), (vec![1, D_BAR, 1], 0));
    assert_eq!(five(&board_t(), 1, 1, Fault::on_pin(1, 0, 1)), (vec![1, 0, 1], 0));
    assert_eq!(five(&board_t(), 0, 0, Fault::on_pin(1, 0, 1)), (vec![X, X, X], 0));
    assert_eq!(five(&shared(), 2, 2, Fault::on_pin(2, 0, 0)), (vec![X, 1, X, 1, X], 0));
    assert_eq!(five(&shared(), 2, 2, Fault::on_pin(2, 1, 0)), (vec![X, 1, X, 1, X], 0));
    assert_eq!(five(&shared(), 3, 3, Fault::on_pin(2, 1, 0)), (vec![1, 1, D, 1, 0], 1));
    assert_eq!(five(&shared(), 1, 1, Fault::on_pin(4, 0, 0)), (vec![1, X, X, 1, D_BAR], 1));
}

// A pin not below the gate's pin count is 12, of any width; every pin of an input is.
#[test]
fn absent_pins() {
    let pins = [2, 3, 4, 255, 256, 1 << 32, 1 << 63, 1_000_000_000_000_000_000, u64::MAX];
    for pin in pins {
        assert_eq!(calls::find(&board_t(), Fault::on_pin(2, pin, 1)), Err(Refusal::Plain(12)));
        assert_eq!(calls::judge(&board_t(), 0, Fault::on_pin(2, pin, 0)), Err(Refusal::Plain(12)));
    }
    for pin in [0, 1].into_iter().chain(pins) {
        assert_eq!(calls::find(&board_t(), Fault::on_pin(0, pin, 1)), Err(Refusal::Plain(12)));
    }
    assert_eq!(calls::find(&board_t(), Fault::on_pin(1, 1, 0)), Err(Refusal::Plain(12)));
    assert_eq!(calls::find(&board_s(), Fault::on_pin(11, 3, 0)), Ok(Some(8)));
    assert_eq!(calls::find(&board_s(), Fault::on_pin(11, 4, 0)), Err(Refusal::Plain(12)));
}

// 12 comes after 6 and 7 and before 8 and 9, and keeps what is lent.
#[test]
fn order_of_12() {
    let ask = |pattern, fault, length: usize| {
        let (mut good, mut faulty) = (vec![9; length], vec![9; 3]);
        let outcome = calls::rows(&board_t(), pattern, fault, &mut good, &mut faulty).unwrap_err();
        assert_eq!(calls::five(&board_t(), pattern, 0, fault, &mut good), Err(outcome));
        assert_eq!((good, faulty), (vec![9; length], vec![9; 3]));
        outcome.to_string()
    };
    assert_eq!(ask(2, Fault::on_pin(3, 2, 2), 2), "refused 6");
    assert_eq!(ask(2, Fault::on_pin(2, 2, 2), 2), "refused 7");
    assert_eq!(ask(2, Fault::on_pin(2, 2, 1), 2), "refused 12");
    assert_eq!(ask(2, Fault::on_pin(2, 1, 1), 2), "refused 8");
    assert_eq!(ask(1, Fault::on_pin(2, 2, 1), 2), "refused 12");
    assert_eq!(ask(1, Fault::on_pin(2, 1, 1), 2), "refused 9");
    assert_eq!(calls::judge(&board_t(), 2, Fault::on_pin(0, 0, 2)), Err(Refusal::Plain(7)));
    assert_eq!(calls::judge(&board_t(), 2, Fault::on_pin(0, 0, 1)), Err(Refusal::Plain(12)));
}

// The pin book of T: eight entries a line, none for absent pins, and its own count.
#[test]
fn t_pin_book() {
    let mut pins = [99; 24];
    assert_eq!(calls::pin_book(&board_t(), &mut pins), Ok(3));
    let wanted = [vec![NONE; 8], vec![NONE, 0], vec![NONE; 6], vec![1, NONE, 0, NONE], vec![NONE; 4]].concat();
    assert_eq!(pins, wanted[..]);
}

// A pin book of any other length is 9, and keeps its entries.
#[test]
fn pin_book_length() {
    for length in [0, 6, 7, 12, 23, 25, 48] {
        let mut pins = vec![99; length];
        assert_eq!(calls::pin_book(&board_t(), &mut pins), Err(Refusal::Plain(9)));
        assert_eq!(pins, vec![99; length]);
    }
}

// The absent pins of 32 inputs are not searched for, and those of a gate neither.
#[test]
fn absent_pins_cost_nothing() {
    let mut pins = [99; 264];
    assert_eq!(calls::pin_book(&wide(32), &mut pins), Ok(2));
    assert_eq!(pins, [vec![NONE; 256], vec![1, 0], vec![NONE; 6]].concat()[..]);
}

// H with line 3 altered: entries on lines 1 and 3 are fresh, absent pins' too; those on 0 and 2 keep their numbers.
#[test]
fn h_altered() {
    let mut image = board_h();
    let (mut book, mut pins) = ([99; 8], [99; 32]);
    assert_eq!(calls::alter(&mut image, 3, &record(NOT, &[1]), &mut book, &mut pins), Ok(8 + 18));
    assert_eq!(book, [99, 99, 2, 0, 99, 99, 0, 2]);
    assert_eq!(pins, [vec![99; 8], vec![NONE; 8], vec![99; 8], vec![2, 0], vec![NONE; 6]].concat()[..]);
}

// Pins that an alteration takes away become none where touched, and those that it brings get their answers.
#[test]
fn pin_counts_change() {
    let x = record(INPUT, &[]);
    let mut image = image(0, &[x, x, record(AND, &[0, 1]), record(BUFFER, &[1])], &[2]);
    let (mut book, mut pins) = ([99; 8], [99; 32]);
    assert_eq!(calls::alter(&mut image, 2, &record(NOT, &[0]), &mut book, &mut pins), Ok(6 + 10));
    assert_eq!(book, [1, 0, NONE, NONE, 0, 1, 99, 99]);
    assert_eq!(pins[16..], [vec![1, 0], vec![NONE; 6], vec![99; 8]].concat()[..]);
    assert_eq!(calls::find(&image, Fault::on_pin(2, 1, 1)), Err(Refusal::Plain(12)));
    calls::alter(&mut image, 2, &record(OR, &[1, 0, 1]), &mut book, &mut pins).unwrap();
    assert_eq!(pins[16..24], [NONE, 0, 1, 0, NONE, 0, NONE, NONE]);
    assert_eq!(pins[24..], [99; 8]);
}

// An altered line that reaches no output keeps every entry, those of pins that it no longer has too.
#[test]
fn loose_line_altered() {
    let x = record(INPUT, &[]);
    let mut image = image(0, &[x, x, record(AND, &[0, 1])], &[0]);
    let (mut book, mut pins) = ([7; 6], [7; 24]);
    assert_eq!(calls::alter(&mut image, 2, &record(NOT, &[0]), &mut book, &mut pins), Ok(6 + 24));
    assert_eq!((book, pins), ([7; 6], [7; 24]));
}
