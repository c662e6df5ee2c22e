//! The numbers of the bench sheet, starred and unstarred.

use super::*;
use crate::board::{gate, gate_five, Fault, D, D_BAR, X};
use crate::calls::{self, Counts, Entry, NONE};
use crate::image::Refusal;
use crate::text::book_text;

// Gives the patterns that show a fault, by asking Judge about every pattern.
fn showing(image: &[u8], patterns: u64, fault: Fault) -> Vec<u64> {
    (0..patterns).filter(|&pattern| calls::judge(image, pattern, fault).unwrap()).collect()
}

// Gives the book of an image and its count.
fn book(image: &[u8]) -> (Vec<Entry>, usize) {
    let mut book = vec![99; 2 * calls::check(image).unwrap().lines];
    let found = calls::book(image, &mut book).unwrap();
    (book, found)
}

// S, line 4 at 0: pattern 0, and no other pattern shows it.
#[test]
fn s_line_4_at_0() {
    assert_eq!(calls::find(&board_s(), Fault::on_line(4, 0)), Ok(Some(0)));
    assert_eq!(showing(&board_s(), 16, Fault::on_line(4, 0)), [0]);
}

// S, line 4 at 1: pattern 6; the patterns that show it are 6, 7, 14.
#[test]
fn s_line_4_at_1() {
    assert_eq!(calls::find(&board_s(), Fault::on_line(4, 1)), Ok(Some(6)));
    assert_eq!(showing(&board_s(), 16, Fault::on_line(4, 1)), [6, 7, 14]);
}

// S, pin 0 of line 4 at 1: line 4 is then 0, which pattern 0 alone shows; at 0 no pattern shows it.
#[test]
fn s_pin_0_of_line_4() {
    assert_eq!(calls::find(&board_s(), Fault::on_pin(4, 0, 1)), Ok(Some(0)));
    assert_eq!(showing(&board_s(), 16, Fault::on_pin(4, 0, 1)), [0]);
    assert_eq!(calls::find(&board_s(), Fault::on_pin(4, 0, 0)), Ok(None));
    assert!(book_text(&board_s()).contains("\n4.0/1 0\n"));
}

// Board T's book, and its counts.
#[test]
fn t_book() {
    assert_eq!(book(&board_t()), (vec![NONE, NONE, 0, NONE, 0, NONE], 2));
    assert_eq!(calls::check(&board_t()), Ok(Counts { lines: 3, inputs: 1, outputs: 1 }));
}

// Board T's book as text, whole.
#[test]
fn t_text() {
    let lines =
        "board 3 lines 1 inputs 1 outputs\n0/0 none\n0/1 none\n1/0 0\n1/1 none\n2/0 0\n2/1 none\nfound 2 of 6\n";
    let pins = "1.0/0 none\n1.0/1 0\n2.0/0 1\n2.0/1 none\n2.1/0 0\n2.1/1 none\npins found 3 of 6\n";
    assert_eq!(book_text(&board_t()), format!("{lines}{pins}"));
}

// A board of inputs has no pin line.
#[test]
fn text_of_inputs() {
    let text = "board 1 lines 1 inputs 1 outputs\n0/0 1\n0/1 0\nfound 2 of 2\npins found 0 of 0\n";
    assert_eq!(book_text(&image(0, &[record(INPUT, &[])], &[0])), text);
}

// T with line 2 altered to and(0,1).
#[test]
fn t_altered() {
    let mut image = board_t();
    let (mut entries, _) = book(&image);
    let mut pins = [99; 24];
    assert_eq!(calls::alter(&mut image, 2, &record(AND, &[0, 1]), &mut entries, &mut pins), Ok(2 + 3));
    assert_eq!(entries, [NONE, NONE, NONE, 1, NONE, 0]);
    let mut wanted = board_t();
    wanted[20..30].copy_from_slice(&record(AND, &[0, 1]));
    assert_eq!(image, wanted);
}

// Board H's book.
#[test]
fn h_book() {
    assert_eq!(book(&board_h()), (vec![1, 0, 2, 0, 0, 1, 2, 0], 8));
}

// H with line 3 altered to not(1): the untouched entries stay, right or wrong.
#[test]
fn h_altered() {
    for (before, after) in [(1, 1), (99, 99), (NONE, NONE)] {
        let mut image = board_h();
        let (mut entries, _) = book(&image);
        entries[0] = before;
        let found = if before == NONE { 7 } else { 8 };
        let mut pins = [99; 32];
        assert_eq!(calls::alter(&mut image, 3, &record(NOT, &[1]), &mut entries, &mut pins), Ok(found + 18));
        assert_eq!(entries, [after, 0, 2, 0, 0, 1, 0, 2]);
    }
}

// Exclusive-or of 1,1,1 is 1, and of 1,1,x it is x: as a gate and on a board.
#[test]
fn exclusive_or() {
    assert_eq!(gate(XOR, 3, 3), 1);
    assert_eq!(gate_five(XOR, &[1, 1, 1]), 1);
    assert_eq!(gate_five(XOR, &[1, 1, X]), X);
    let mut records = vec![record(INPUT, &[]); 3];
    records.push(record(XOR, &[0, 1, 2]));
    let image = image(0, &records, &[3]);
    let mut row = [9; 4];
    assert_eq!(calls::five(&image, 7, 7, Fault::on_line(3, 0), &mut row), Ok(1));
    assert_eq!(row, [1, 1, 1, D]);
    assert_eq!(calls::five(&image, 3, 3, Fault::on_line(3, 1), &mut row), Ok(0));
    assert_eq!(row, [1, 1, X, X]);
    assert_eq!(calls::judge(&image, 7, Fault::on_line(3, 0)), Ok(true));
}

// Exclusive-or of three and four pins is odd in how many are 1, kind 8 is the opposite, and an x on any pin leaves it open.
#[test]
fn odd_pins() {
    for (count, values) in [(3, &[0, 1, 0, 1][..]), (4, &[0, 1, 0, 1, 0])] {
        for (ones, &value) in values.iter().enumerate() {
            assert_eq!(gate(XOR, count, ones as u8), value);
            assert_eq!(gate(XNOR, count, ones as u8), 1 - value);
        }
    }
    for x in 0..4 {
        let mut pins = [1, D, 0, D_BAR];
        pins[x] = X;
        assert_eq!((gate_five(XOR, &pins), gate_five(XNOR, &pins)), (X, X));
    }
    assert_eq!((gate_five(XOR, &[1, D, 0, D_BAR]), gate_five(XNOR, &[1, D, 0, D_BAR])), (0, 1));
    assert_eq!((gate_five(XOR, &[1, D, D, D_BAR]), gate_five(XNOR, &[1, D, D, D_BAR])), (D, D_BAR));
}

// And of D, D-bar is 0; and of D, x is x; exclusive-or of one x line with itself is x.
#[test]
fn five_values_of_gates() {
    assert_eq!(gate_five(AND, &[D, D_BAR]), 0);
    assert_eq!(gate_five(AND, &[D, X]), X);
    assert_eq!(gate_five(XOR, &[X, X]), X);
    assert_eq!(gate_five(AND, &[X, 0]), 0);
    assert_eq!(gate_five(OR, &[D, D_BAR]), 1);
    assert_eq!(gate_five(NOT, &[D]), D_BAR);
}

// 4,096 lines accepted, 4,097 refused 2.
#[test]
fn line_limit() {
    for lines in [512, 513, 4_096] {
        assert_eq!(calls::check(&chain(lines)), Ok(Counts { lines, inputs: 1, outputs: 1 }));
    }
    assert_eq!(calls::check(&chain(4_097)), Err(Refusal::Plain(2)));
}

// A 33rd input at line 32: refused 4, field 0.
#[test]
fn input_limit() {
    for inputs in [24, 25, 32] {
        assert_eq!(calls::check(&wide(inputs)), Ok(Counts { lines: inputs + 1, inputs, outputs: 1 }));
    }
    assert_eq!(calls::check(&wide(33)), Err(Refusal::BadRecord { line: 32, field: 0 }));
}

// A note of 256 accepted, of 257 refused 3; the empty image refused 1.
#[test]
fn note_limit() {
    let with_note = |length: usize| [vec![0; length], board_t()].concat();
    assert!(calls::check(&with_note(256)).is_ok());
    assert_eq!(calls::check(&with_note(257)), Err(Refusal::Plain(3)));
    assert_eq!(calls::check(&[]), Err(Refusal::Plain(1)));
}

// On T, pattern 1 accepted, 2 refused 8.
#[test]
fn pattern_limit() {
    assert_eq!(calls::judge(&board_t(), 1, Fault::on_line(2, 0)), Ok(true));
    assert_eq!(calls::judge(&board_t(), 1, Fault::on_line(1, 1)), Ok(false));
    assert_eq!(calls::judge(&board_t(), 2, Fault::on_line(2, 0)), Err(Refusal::Plain(8)));
}

// The longest good image has 41,356 bytes: all limits at once.
#[test]
fn longest_image() {
    let mut records = vec![record(INPUT, &[]); 32];
    records.resize(4_096, record(AND, &[0, 1, 2, 3]));
    let outputs: Vec<u16> = (4_032..4_096).collect();
    let good = image(256, &records, &outputs);
    assert_eq!(good.len(), 41_356);
    assert_eq!(calls::check(&good), Ok(Counts { lines: 4_096, inputs: 32, outputs: 64 }));
    let longer = image(257, &records, &outputs);
    assert_eq!(book_text(&longer), "refused 3\n");
}
