//! Lines tied to a rail: what a tie is worth, where it may stand, its faults, alterations and drawings.

use super::*;
use crate::board::{gate_five, Fault, D, D_BAR, X};
use crate::calls::{self, NONE};
use crate::drawing::{image_of, text_of};
use crate::image::Refusal;

// Gives the text of Check's refusal of a board of these records with output 0, or `good`.
fn said(records: &[[u8; RECORD]]) -> String {
    calls::check(&image(0, records, &[0])).map_or_else(|refusal| refusal.to_string(), |_| "good".to_string())
}

// Gives a record with another byte at a place.
fn with(mut record: [u8; RECORD], place: usize, byte: u8) -> [u8; RECORD] {
    record[place] = byte;
    record
}

// Gives a board of an input, both ties, and(0,2) and or(0,1); the gates and the ties are outputs.
fn tied() -> Vec<u8> {
    let ties = [record(TIE0, &[]), record(TIE1, &[])];
    image(3, &[record(INPUT, &[]), ties[0], ties[1], record(AND, &[0, 2]), record(OR, &[0, 1])], &[1, 2, 3, 4])
}

// A tie is good after an input, with no pins alone.
#[test]
fn records() {
    let x = record(INPUT, &[]);
    for tie in [TIE0, TIE1] {
        assert_eq!(said(&[x, record(tie, &[])]), "good");
        for count in [1, 2, 3, 4, 5, 255] {
            assert_eq!(said(&[x, with(record(tie, &[]), 1, count)]), "refused 4 at 1.1");
        }
        for pin in 0..8 {
            assert_eq!(said(&[x, with(record(tie, &[]), 2 + pin, 1)]), format!("refused 4 at 1.{}", 2 + pin / 2));
        }
        assert_eq!(said(&[x, record(tie, &[]), x]), "refused 4 at 2.0");
        assert_eq!(said(&[x, record(tie, &[]), record(AND, &[1, 0]), x]), "refused 4 at 3.0");
    }
    for kind in [11, 12, 128, 255] {
        assert_eq!(said(&[x, record(kind, &[])]), "refused 4 at 1.0");
    }
}

// Whatever is no input is bad at line 0 by its kind.
#[test]
fn line_0() {
    for kind in 1..=255 {
        for count in [0, 1, 2, 4, 5, 255] {
            for pin in [0, 1, 255] {
                let bytes = with(with(record(kind, &[]), 1, count), 3, pin);
                assert_eq!(said(&[bytes, record(INPUT, &[])]), "refused 4 at 0.0");
            }
        }
    }
    assert_eq!(said(&[with(record(INPUT, &[]), 1, 1)]), "refused 4 at 0.1");
}

// A tie is its value in every row and among the five, whatever is x.
#[test]
fn values() {
    assert_eq!((gate_five(TIE0, &[]), gate_five(TIE1, &[])), (0, 1));
    let (mut good, mut faulty) = ([9; 5], [9; 5]);
    for pattern in 0..2 {
        let input = pattern as u8;
        assert_eq!(calls::rows(&tied(), pattern, Fault::on_line(2, 0), &mut good, &mut faulty), Ok(()));
        assert_eq!((good, faulty), ([input, 0, 1, input, input], [input, 0, 0, 0, input]));
        good[1..].fill(9);
        assert_eq!(calls::refresh(&tied(), 1, pattern, &mut good), Ok(()));
        assert_eq!(good, [input, 0, 1, input, input]);
    }
    let mut five = |named, values, fault| (calls::five(&tied(), named, values, fault, &mut good).unwrap(), good);
    assert_eq!(five(0, 0, Fault::on_line(0, 0)), (0, [X, 0, 1, X, X]));
    assert_eq!(five(0, 0, Fault::on_line(1, 0)), (0, [X, 0, 1, X, X]));
    assert_eq!(five(0, 0, Fault::on_line(1, 1)), (1, [X, D_BAR, 1, X, X]));
    assert_eq!(five(0, 0, Fault::on_line(2, 0)), (1, [X, 0, D, X, X]));
    assert_eq!(five(1, 1, Fault::on_line(2, 0)), (2, [1, 0, D, D, 1]));
    assert_eq!(five(1, 0, Fault::on_pin(4, 1, 1)), (1, [0, 0, 1, 0, D_BAR]));
}

// A tie has faults of its line and none of a pin.
#[test]
fn faults() {
    assert_eq!(calls::find(&tied(), Fault::on_line(1, 0)), Ok(None));
    assert_eq!(calls::find(&tied(), Fault::on_line(1, 1)), Ok(Some(0)));
    assert_eq!(calls::find(&tied(), Fault::on_line(2, 0)), Ok(Some(0)));
    assert_eq!(calls::find(&tied(), Fault::on_line(2, 1)), Ok(None));
    assert_eq!(calls::find(&tied(), Fault::on_pin(3, 1, 0)), Ok(Some(1)));
    for (line, pin) in [(1, 0), (2, 0), (1, 3), (2, 4), (2, u64::MAX)] {
        assert_eq!(calls::find(&tied(), Fault::on_pin(line, pin, 1)), Err(Refusal::Plain(12)));
        assert_eq!(calls::judge(&tied(), 9, Fault::on_pin(line, pin, 1)), Err(Refusal::Plain(12)));
        assert_eq!(calls::judge(&tied(), 9, Fault::on_pin(line, pin, 2)), Err(Refusal::Plain(7)));
    }
    let mut pins = [9; 40];
    assert_eq!(calls::pin_book(&tied(), &mut pins), Ok(6));
    let used = [vec![1, 0, 1, NONE], vec![NONE; 4], vec![1, 0, NONE, 0], vec![NONE; 4]].concat();
    assert_eq!(pins, [vec![NONE; 24], used].concat()[..]);
}

// An alteration may bring a tie in, put another in its place, and take it away.
#[test]
fn alterations() {
    let mut image = board_t();
    let (mut book, mut pins) = ([99; 6], [99; 24]);
    let mut alter = |line, bytes| calls::alter(&mut image, line, &bytes, &mut book, &mut pins).map(|_| book);
    assert_eq!(alter(2, record(TIE1, &[])), Ok([NONE, NONE, NONE, NONE, 0, NONE]));
    assert_eq!(alter(2, record(TIE1, &[])), Ok([NONE, NONE, NONE, NONE, 0, NONE]));
    assert_eq!(alter(2, record(TIE0, &[])), Ok([NONE, NONE, NONE, NONE, NONE, 0]));
    assert_eq!(alter(2, record(OR, &[0, 1])), Ok([NONE, NONE, 0, NONE, 0, NONE]));
    assert_eq!(alter(1, record(TIE0, &[])), Ok([1, 0, NONE, 0, 1, 0]));
    assert_eq!(alter(1, record(NOT, &[0])), Ok([NONE, NONE, 0, NONE, 0, NONE]));
    for bytes in [record(11, &[]), record(TIE0, &[0]), record(TIE1, &[0, 1]), with(record(TIE1, &[]), 8, 1)] {
        assert_eq!(alter(2, bytes), Err(Refusal::Plain(10)));
    }
    assert_eq!(alter(0, record(TIE0, &[])), Err(Refusal::Plain(10)));
    assert_eq!(image, board_t());
}

// Drawings there and back, and where they depart.
#[test]
fn drawings() {
    let text = "INPUT(n0)\nOUTPUT(n1)\nOUTPUT(n2)\nOUTPUT(n3)\nOUTPUT(n4)\n\
        n1 = TIE0()\nn2 = TIE1()\nn3 = AND(n0, n2)\nn4 = OR(n0, n1)\n";
    assert_eq!(text_of(&tied()), Ok(text.as_bytes().to_vec()));
    assert_eq!(image_of(text.as_bytes()), Ok(tied()[3..].to_vec()));
    let departs =
        |text: &str, length| assert_eq!(image_of(text.as_bytes()), Err(Refusal::Departure { length }), "{text:?}");
    for (text, length) in [
        ("n0 = T", 6),
        ("n0 = TIX", 7),
        ("n0 = TIE", 8),
        ("n0 = TIE(", 8),
        ("n0 = TIE2()\n", 8),
        ("n0 = TIE00()\n", 9),
        ("n0 = TIE0(", 10),
        ("n0 = TIE0(n0)\n", 10),
        ("n0 = TIE1( )\n", 10),
        ("n0 = TIE1()", 11),
        ("n0 = TIE1() \n", 11),
        ("n0 = tie0()\n", 5),
        ("n0 = AND()\n", 9),
    ] {
        departs(text, length);
    }
    let bad_at_0 = Err(Refusal::BadRecord { line: 0, field: 0 });
    for gate in ["TIE0()", "TIE1()", "BUFF(n0)", "NOT(n0, n9)", "AND(n7)", "XOR(n0, n0)"] {
        assert_eq!(image_of(format!("OUTPUT(n9)\nn0 = {gate}\n").as_bytes()), bad_at_0);
    }
}
