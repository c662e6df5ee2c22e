//! Each refusal at its boundary, in the order tested, with the lent buffers kept.

use super::*;
use crate::board::{Fault, D, D_BAR, X};
use crate::calls::{self, NONE};
use crate::image::Refusal;
use crate::text::{book_text, read_image};

// Gives the text of Check's refusal, or `good`.
fn said(image: &[u8]) -> String {
    calls::check(image).map_or_else(|refusal| refusal.to_string(), |_| "good".to_string())
}

// Gives board T with some bytes replaced from a place on.
fn t_with(place: usize, bytes: &[u8]) -> Vec<u8> {
    let mut image = board_t();
    image[place..place + bytes.len()].copy_from_slice(bytes);
    image
}

// Refusal 1: fewer than 12 bytes, or no mark; a trailer alone is long enough.
#[test]
fn refusal_1() {
    let trailer = &board_t()[32..];
    assert_eq!(said(&[]), "refused 1");
    assert_eq!(said(&trailer[1..]), "refused 1");
    assert_eq!(said(&trailer[8..]), "refused 1");
    assert_eq!(said(trailer), "refused 3");
    for place in 40..44 {
        assert_eq!(said(&t_with(place, &[0])), "refused 1");
    }
    assert_eq!(said(&[board_t(), vec![0]].concat()), "refused 1");
}

// Refusal 2: line count 0, 4,097 and more, output count 0, 65 and more; before refusal 3.
#[test]
fn refusal_2() {
    assert_eq!(said(&t_with(32, &[0, 0])), "refused 2");
    assert_eq!(said(&t_with(32, &[1, 16])), "refused 2");
    assert_eq!(said(&t_with(32, &[0, 16])), "refused 3");
    assert_eq!(said(&t_with(32, &[255, 255])), "refused 2");
    assert_eq!(said(&t_with(34, &[0, 0])), "refused 2");
    assert_eq!(said(&t_with(34, &[65, 0])), "refused 2");
    assert_eq!(said(&t_with(34, &[64, 0])), "refused 3");
    assert_eq!(said(&t_with(34, &[1, 1])), "refused 2");
    let records = vec![record(INPUT, &[]); 32];
    assert_eq!(said(&image(0, &records, &[])), "refused 2");
}

// Refusal 2 and the output count's upper limit, on boards that are otherwise right.
#[test]
fn output_limit() {
    let mut records = vec![record(INPUT, &[])];
    records.resize(70, record(BUFFER, &[0]));
    let outputs: Vec<u16> = (0..65).collect();
    assert_eq!(said(&image(0, &records, &outputs[..64])), "good");
    assert_eq!(said(&image(0, &records, &outputs)), "refused 2");
}

// Refusal 3: the distance's whole 32 bits, an image too short for it, a note too long.
#[test]
fn refusal_3() {
    assert_eq!(said(&t_with(36, &[0x2B])), "refused 3");
    assert_eq!(said(&t_with(36, &[0x2D])), "refused 3");
    assert_eq!(said(&t_with(36, &[0x2C, 0, 1, 0])), "refused 3");
    assert_eq!(said(&t_with(36, &[0x2C, 0, 0, 0x80])), "refused 3");
    assert_eq!(said(&board_t()[1..]), "refused 3");
    assert_eq!(said(&[vec![0], board_t()].concat()), "good");
    assert_eq!(said(&[board_t(), board_t()].concat()), "good");
    let bad = image(257, &[record(9, &[])], &[7]);
    assert_eq!(said(&bad), "refused 3");
}

// Refusal 4, field 0: kind over 10, an input after a gate.
#[test]
fn refusal_4_kind() {
    assert_eq!(said(&t_with(0, &[9])), "refused 4 at 0.0");
    assert_eq!(said(&t_with(20, &[8])), "good");
    assert_eq!(said(&t_with(20, &[10])), "refused 4 at 2.1");
    assert_eq!(said(&t_with(20, &[11])), "refused 4 at 2.0");
    assert_eq!(said(&t_with(20, &[255, 255])), "refused 4 at 2.0");
    assert_eq!(said(&t_with(20, &[0; 10])), "refused 4 at 2.0");
    assert_eq!(said(&t_with(10, &[0; 10])), "good");
    assert_eq!(said(&image(0, &vec![record(INPUT, &[]); 32], &[0])), "good");
    assert_eq!(said(&image(0, &vec![record(INPUT, &[]); 33], &[0])), "refused 4 at 32.0");
}

// Refusal 4, field 1: a count not allowed for the kind, for every kind.
#[test]
fn refusal_4_count() {
    for kind in 0..=10 {
        for count in [0, 1, 2, 3, 4, 5, 128, 255] {
            let mut bytes = record(kind, &[]);
            bytes[1] = count;
            let allowed = match kind {
                0 | 9 | 10 => count == 0,
                1 | 2 => count == 1,
                _ => (2..=4).contains(&count),
            };
            let image = image(0, &[record(INPUT, &[]), bytes], &[1]);
            assert_eq!(said(&image), if allowed { "good" } else { "refused 4 at 1.1" });
        }
    }
}

// Refusal 4, fields 2 to 5: a used pin not below its own line, an unused pin not 0.
#[test]
fn refusal_4_pins() {
    for i in 0..4 {
        let three = record(INPUT, &[]);
        let mut pins = [0, 1, 2, 2];
        assert_eq!(said(&image(0, &[three, three, three, record(AND, &pins)], &[3])), "good");
        pins[i] = 3;
        let bad = image(0, &[three, three, three, record(AND, &pins)], &[3]);
        assert_eq!(said(&bad), format!("refused 4 at 3.{}", 2 + i));
        let mut input = record(INPUT, &[]);
        input[3 + 2 * i] = 1;
        assert_eq!(said(&image(0, &[input], &[0])), format!("refused 4 at 0.{}", 2 + i));
    }
    assert_eq!(said(&t_with(26, &[1])), "refused 4 at 2.4");
    assert_eq!(said(&t_with(14, &[1])), "refused 4 at 1.3");
    assert_eq!(said(&t_with(24, &[2, 0, 1])), "refused 4 at 2.3");
    assert_eq!(said(&t_with(25, &[1])), "refused 4 at 2.3");
}

// Refusal 4 names the first bad record, and comes before 5.
#[test]
fn refusal_4_first() {
    let bad = image(0, &[record(INPUT, &[]), record(11, &[]), record(1, &[7])], &[9]);
    assert_eq!(said(&bad), "refused 4 at 1.0");
    assert_eq!(said(&image(0, &[record(INPUT, &[]), record(1, &[7])], &[9])), "refused 4 at 1.2");
}

// Refusal 5: an output not below the line count, or not above the one before.
#[test]
fn refusal_5() {
    let board = |outputs: &[u16]| said(&image(0, &[record(INPUT, &[]); 4], outputs));
    assert_eq!(board(&[0]), "good");
    assert_eq!(board(&[3]), "good");
    assert_eq!(board(&[4]), "refused 5 at 0");
    assert_eq!(board(&[0, 1, 2, 3]), "good");
    assert_eq!(board(&[0, 0]), "refused 5 at 1");
    assert_eq!(board(&[2, 1, 0]), "refused 5 at 1");
    assert_eq!(board(&[0, 2, 256 + 3]), "refused 5 at 2");
    assert_eq!(board(&[65_535]), "refused 5 at 0");
}

// Every call gives refusals 1 to 5 first, and keeps its buffers.
#[test]
fn image_first() {
    for mut image in [vec![], t_with(20, &[9]), t_with(30, &[3])] {
        let wanted = calls::check(&image).unwrap_err();
        let (mut good, mut faulty, mut book, mut pins) = ([9], [9], [99], [99]);
        for fault in [Fault::on_line(99, 99), Fault::on_pin(99, 99, 99)] {
            assert_eq!(calls::rows(&image, 99, fault, &mut good, &mut faulty), Err(wanted));
            assert_eq!(calls::judge(&image, 99, fault), Err(wanted));
            assert_eq!(calls::find(&image, fault), Err(wanted));
            assert_eq!(calls::five(&image, 99, 99, fault, &mut good), Err(wanted));
        }
        assert_eq!(calls::book(&image, &mut book), Err(wanted));
        assert_eq!(calls::pin_book(&image, &mut pins), Err(wanted));
        assert_eq!(calls::refresh(&image, 99, 99, &mut good), Err(wanted));
        let old = image.clone();
        assert_eq!(calls::alter(&mut image, 99, &[0; 10], &mut book, &mut pins), Err(wanted));
        assert_eq!((image, good, faulty, book, pins), (old, [9], [9], [99], [99]));
    }
}

// Rows: 6, 7, 8, 9 in that order; a refused call keeps both rows.
#[test]
fn rows_order() {
    let ask = |pattern, line, stuck, lengths: (usize, usize)| {
        let (mut good, mut faulty) = (vec![9; lengths.0], vec![9; lengths.1]);
        let outcome = calls::rows(&board_t(), pattern, Fault::on_line(line, stuck), &mut good, &mut faulty);
        let kept = good.iter().chain(&faulty).all(|&byte| byte == 9);
        assert_eq!(outcome.is_err(), kept);
        outcome.map_err(|refusal| refusal.to_string())
    };
    assert_eq!(ask(2, 3, 2, (2, 2)).unwrap_err(), "refused 6");
    assert_eq!(ask(2, u64::MAX, 2, (2, 2)).unwrap_err(), "refused 6");
    assert_eq!(ask(2, 2, 2, (2, 2)).unwrap_err(), "refused 7");
    assert_eq!(ask(2, 2, 255, (2, 2)).unwrap_err(), "refused 7");
    assert_eq!(ask(2, 2, 1, (2, 2)).unwrap_err(), "refused 8");
    assert_eq!(ask(1 << 63, 2, 1, (3, 3)).unwrap_err(), "refused 8");
    assert_eq!(ask(1, 2, 1, (2, 3)).unwrap_err(), "refused 9");
    assert_eq!(ask(1, 2, 1, (3, 4)).unwrap_err(), "refused 9");
    assert_eq!(ask(1, 2, 1, (3, 3)), Ok(()));
}

// Judge: 6, 7, 8; Find: 6, 7.
#[test]
fn judge_and_find_order() {
    assert_eq!(calls::judge(&board_t(), 2, Fault::on_line(3, 2)), Err(Refusal::Plain(6)));
    assert_eq!(calls::judge(&board_t(), 2, Fault::on_line(2, 2)), Err(Refusal::Plain(7)));
    assert_eq!(calls::judge(&board_t(), 2, Fault::on_line(2, 1)), Err(Refusal::Plain(8)));
    assert_eq!(calls::find(&board_t(), Fault::on_line(3, 2)), Err(Refusal::Plain(6)));
    assert_eq!(calls::find(&board_t(), Fault::on_line(2, 2)), Err(Refusal::Plain(7)));
    assert_eq!(calls::find(&board_t(), Fault::on_line(2, 1)), Ok(None));
}

// Refusal 8 at the most inputs: patterns of 32 bits are let in, of 33 and of 64 bits not, whatever their lower half.
#[test]
fn widest_patterns() {
    let ask = |pattern: u64| calls::judge(&wide(32), pattern, Fault::on_line(0, 0));
    assert_eq!(ask((1 << 32) - 1), Ok(true));
    assert_eq!(ask(1 << 31), Ok(false));
    for pattern in [1 << 32, (1 << 32) + 1, (1 << 33) - 1, 1 << 63, u64::MAX] {
        assert_eq!(ask(pattern), Err(Refusal::Plain(8)));
    }
    let mut row = vec![7; 33];
    let mut five = |named: u64, values: u64| calls::five(&wide(32), named, values, Fault::on_line(32, 0), &mut row);
    assert_eq!(five((1 << 32) - 1, 1), Ok(1));
    assert_eq!(five(1 << 32, 0), Err(Refusal::Plain(8)));
    assert_eq!(five((1 << 32) - 1, 1 << 32), Err(Refusal::Plain(8)));
    assert_eq!((row[0], row[31], row[32]), (1, 0, D));
}

// Book: 9 for any other length, and then the book keeps its entries.
#[test]
fn book_length() {
    for length in [0, 3, 5, 7, 12] {
        let mut book = vec![99; length];
        assert_eq!(calls::book(&board_t(), &mut book), Err(Refusal::Plain(9)));
        assert_eq!(book, vec![99; length]);
    }
}

// Gives Alter's outcome on board T with books of these lengths; a refused call keeps image and books.
fn alter_lent(line: u64, bytes: [u8; 10], lengths: (usize, usize)) -> Result<usize, String> {
    let mut image = board_t();
    let (mut book, mut pins) = (vec![99; lengths.0], vec![99; lengths.1]);
    let outcome = calls::alter(&mut image, line, &bytes, &mut book, &mut pins);
    if outcome.is_err() {
        assert_eq!((image, book, pins), (board_t(), vec![99; lengths.0], vec![99; lengths.1]));
    }
    outcome.map_err(|refusal| refusal.to_string())
}

// Gives Alter's outcome on board T with a book of this length and a right pin book.
fn alter_t(line: u64, bytes: [u8; 10], length: usize) -> Result<usize, String> {
    alter_lent(line, bytes, (length, 24))
}

// Alter: 6, 9, 10 in that order; 10 for an input, for kind 0, and for a record bad there.
#[test]
fn alter_order() {
    assert_eq!(alter_t(3, [0; 10], 5).unwrap_err(), "refused 6");
    assert_eq!(alter_t(0, [0; 10], 5).unwrap_err(), "refused 9");
    assert_eq!(alter_t(2, record(OR, &[0, 1]), 7).unwrap_err(), "refused 9");
    assert_eq!(alter_t(0, record(INPUT, &[]), 6).unwrap_err(), "refused 10");
    assert_eq!(alter_t(0, record(BUFFER, &[0]), 6).unwrap_err(), "refused 10");
    assert_eq!(alter_t(1, record(INPUT, &[]), 6).unwrap_err(), "refused 10");
    assert_eq!(alter_t(2, record(11, &[0, 1]), 6).unwrap_err(), "refused 10");
    assert_eq!(alter_t(2, record(BUFFER, &[0, 1]), 6).unwrap_err(), "refused 10");
    assert_eq!(alter_t(2, record(AND, &[0]), 6).unwrap_err(), "refused 10");
    assert_eq!(alter_t(2, record(AND, &[0, 2]), 6).unwrap_err(), "refused 10");
    assert_eq!(alter_t(2, [3, 2, 0, 0, 0, 0, 0, 0, 0, 1], 6).unwrap_err(), "refused 10");
    assert_eq!(alter_t(2, [3, 5, 0, 0, 0, 0, 0, 0, 0, 0], 6).unwrap_err(), "refused 10");
    assert_eq!(alter_t(2, record(AND, &[0, 0, 1, 1]), 6), Ok(2 + 1));
    assert_eq!(alter_t(2, record(OR, &[0, 1]), 6), Ok(2 + 3));
}

// Touched: before or after, a common output; a line that reaches no output touches nothing.
#[test]
fn touched_both_ways() {
    let (x, y) = (record(INPUT, &[]), record(INPUT, &[]));
    let mut image = image(3, &[x, y, record(BUFFER, &[0]), record(NOT, &[1])], &[2]);
    let (mut book, mut pins) = (vec![99; 8], vec![99; 32]);
    assert_eq!(calls::alter(&mut image, 3, &record(BUFFER, &[0]), &mut book, &mut pins), Ok(8 + 32));
    assert_eq!((&book[..], &pins[..]), (&[99; 8][..], &[99; 32][..]));
    assert_eq!(calls::alter(&mut image, 2, &record(BUFFER, &[1]), &mut book, &mut pins), Ok(6 + 10));
    assert_eq!(book, [NONE, NONE, 2, 0, 2, 0, 99, 99]);
    assert_eq!(pins, [vec![NONE; 16], vec![2, 0], vec![NONE; 6], vec![99; 8]].concat());
    assert_eq!(calls::alter(&mut image, 2, &record(BUFFER, &[0]), &mut book, &mut pins), Ok(6 + 10));
    assert_eq!(book, [1, 0, NONE, NONE, 1, 0, 99, 99]);
    assert_eq!(pins, [vec![NONE; 16], vec![1, 0], vec![NONE; 6], vec![99; 8]].concat());
}

// Refresh: 6, 8, 9, 11 in that order.
#[test]
fn refresh_order() {
    let ask = |line, pattern, row: &[u8]| {
        let mut lent = row.to_vec();
        let outcome = calls::refresh(&board_t(), line, pattern, &mut lent);
        assert!(outcome.is_ok() || lent == row);
        outcome.map(|()| lent).map_err(|refusal| refusal.to_string())
    };
    assert_eq!(ask(3, 2, &[9, 9]).unwrap_err(), "refused 6");
    assert_eq!(ask(2, 2, &[9, 9]).unwrap_err(), "refused 8");
    assert_eq!(ask(2, 1, &[9, 9]).unwrap_err(), "refused 9");
    assert_eq!(ask(2, 1, &[9, 9, 9, 9]).unwrap_err(), "refused 9");
    assert_eq!(ask(2, 1, &[9, 1, 9]).unwrap_err(), "refused 11");
    assert_eq!(ask(2, 1, &[1, 2, 9]).unwrap_err(), "refused 11");
    assert_eq!(ask(1, 1, &[1, 2, 9]), Ok(vec![1, 0, 1]));
    assert_eq!(ask(2, 1, &[0, 0, 9]), Ok(vec![0, 0, 0]));
    assert_eq!(ask(1, 1, &[0, 255, 9]), Ok(vec![0, 1, 1]));
    assert_eq!(ask(0, 1, &[9, 9, 9]), Ok(vec![1, 0, 1]));
}

// Five values: 6, 7, 8 in its three ways, 9.
#[test]
fn five_order() {
    let ask = |named, values, line, stuck, length: usize| {
        let mut row = vec![9; length];
        let outcome = calls::five(&board_h(), named, values, Fault::on_line(line, stuck), &mut row);
        assert!(outcome.is_ok() || row.iter().all(|&byte| byte == 9));
        outcome.map(|count| (count, row)).map_err(|refusal| refusal.to_string())
    };
    assert_eq!(ask(4, 4, 4, 2, 3).unwrap_err(), "refused 6");
    assert_eq!(ask(4, 4, 3, 2, 3).unwrap_err(), "refused 7");
    assert_eq!(ask(4, 0, 3, 1, 3).unwrap_err(), "refused 8");
    assert_eq!(ask(3, 4, 3, 1, 4).unwrap_err(), "refused 8");
    assert_eq!(ask(1, 2, 3, 1, 4).unwrap_err(), "refused 8");
    assert_eq!(ask(1 << 63, 1 << 63, 3, 1, 4).unwrap_err(), "refused 8");
    assert_eq!(ask(3, 3, 3, 1, 3).unwrap_err(), "refused 9");
    assert_eq!(ask(3, 1, 3, 1, 4), Ok((1, vec![1, 0, 0, D_BAR])));
    assert_eq!(ask(2, 2, 1, 0, 4), Ok((1, vec![X, D, X, D])));
    assert_eq!(ask(0, 0, 1, 0, 4), Ok((0, vec![X, X, X, X])));
    assert_eq!(ask(2, 2, 1, 1, 4), Ok((0, vec![X, 1, X, 1])));
}

// Show: from a line to the end; empty at and past the end.
#[test]
fn show_parts() {
    assert_eq!(calls::show(&[1, 2, 3], 0), [1, 2, 3]);
    assert_eq!(calls::show(&[1, 2, 3], 2), [3]);
    assert_eq!(calls::show(&[1, 2, 3], 3), []);
    assert_eq!(calls::show(&[1, 2, 3], u64::MAX), []);
    assert_eq!(calls::show(&[], 0), []);
}

// Gives what the book program writes for these bytes on its input.
fn program(mut input: &[u8]) -> String {
    book_text(&read_image(&mut input).unwrap())
}

// The book program: refusals as one line, and input longer than any good image.
#[test]
fn program_refusals() {
    assert_eq!(program(&[]), "refused 1\n");
    assert_eq!(program(&t_with(24, &[2])), "refused 4 at 2.3\n");
    assert_eq!(program(&t_with(30, &[3])), "refused 5 at 0\n");
    for note in [257, 5_517 - 44, 41_356 - 44, 41_357 - 44, 70_000, 200_000] {
        let long = |tail: Vec<u8>| program(&[vec![0x31; note], tail].concat());
        assert_eq!(long(board_t()), "refused 3\n");
        assert_eq!(long(t_with(43, &[0])), "refused 1\n");
        assert_eq!(long(t_with(34, &[0])), "refused 2\n");
        assert_eq!(long(t_with(0, &[9])), "refused 3\n");
    }
}
