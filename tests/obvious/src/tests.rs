//! The papers' boards, with the numbers that the papers give for them.

use crate::board::{Board, Fault};
use crate::console::Console;

const T: &str = "000000000000000000000201000000000000000005020000010000000000020003000100 2c000000 42524431";
const H: &str = "0000000000000000000000000000000000000000020100000000000000000101010000000000000002000300 04000200 38000000 42524431";

// Gives the answers of a console to `load` of an image and then to these commands.
fn answers(part: Option<u64>, image: &str, commands: &[&str]) -> Vec<String> {
    let mut console = Console::new(part);
    console.answer(&format!("load {}", image.replace(' ', "")));
    commands.iter().map(|command| console.answer(command)).collect()
}

// Gives the image of inputs and then gates, each a kind and its pins, with its last line the one output.
fn image(inputs: usize, gates: &[(u8, &[u16])]) -> Vec<u8> {
    let lines = (inputs + gates.len()) as u16;
    let mut image = vec![0; 10 * inputs];
    for (kind, pins) in gates {
        let mut record = [0; 10];
        record[0] = *kind;
        record[1] = pins.len() as u8;
        pins.iter().enumerate().for_each(|(i, pin)| record[2 + 2 * i..4 + 2 * i].copy_from_slice(&pin.to_le_bytes()));
        image.extend(record);
    }
    [lines - 1, lines, 1].iter().for_each(|number| image.extend(number.to_le_bytes()));
    image.extend((10 * u32::from(lines) + 14).to_le_bytes());
    image.extend([0x42, 0x52, 0x44, 0x31]);
    image
}

// Gives board S of document 01.
fn board_s() -> Board {
    let pins: [&[u16]; 8] = [&[1, 2], &[4, 0], &[4, 3], &[0, 2], &[7, 1], &[1, 3], &[9, 2], &[5, 6, 8, 10]];
    let gates: Vec<(u8, &[u16])> = pins.iter().map(|&pins| (6, pins)).collect();
    Board::of(&image(4, &gates)).unwrap()
}

// Gives the value of one gate of a kind on inputs that hold these values.
fn gate(kind: u8, values: &[u8]) -> u8 {
    let pins: Vec<u16> = (0..values.len() as u16).collect();
    let board = Board::of(&image(values.len(), &[(kind, &pins)])).unwrap();
    let pattern = values.iter().rev().fold(0, |pattern, &value| 2 * pattern + u64::from(value));
    let mut row = vec![9; values.len() + 1];
    board.run(pattern, None, &mut row);
    row[values.len()]
}

#[test]
fn books_of_t_are_the_papers() {
    let said = answers(None, T, &["entries", "book", "entries", "pin book", "pin entries"]);
    let with_none = |line: &str| line.replace('x', "18446744073709551615");
    assert_eq!(said[0], "entries 99 99 99 99 99 99");
    assert_eq!(said[1], "found 2 of 6");
    assert_eq!(said[2], with_none("entries x x 0 x 0 x"));
    assert_eq!(said[3], "found 3 of 24");
    assert_eq!(said[4], with_none("pins x x x x x x x x x 0 x x x x x x 1 x 0 x x x x x"));
}

#[test]
fn book_of_h_is_the_papers() {
    assert_eq!(answers(None, H, &["book", "entries"]), ["found 8 of 8", "entries 1 0 2 0 0 1 2 0"]);
}

#[test]
fn line_4_of_s_is_shown_by_the_papers_patterns() {
    let fault = |pin, stuck| Fault { line: 4, pin, stuck };
    assert_eq!(board_s().find(fault(None, 0), 16), (0, 1));
    assert_eq!(board_s().find(fault(None, 1), 16), (6, 7));
    assert_eq!(board_s().find(fault(Some(0), 1), 16), (0, 1));
    assert_eq!(board_s().find(fault(None, 1), 6), (crate::board::NONE, 6));
}

#[test]
fn the_largest_boards_are_taken() {
    let on = |line, stuck| Fault { line, pin: None, stuck };
    let buffer: &[(u8, &[u16])] = &[(1, &[11])];
    let wide = Board::of(&image(32, buffer)).unwrap();
    assert_eq!(wide.find(on(32, 1), 1 << 32), (0, 1));
    assert_eq!(wide.find(on(11, 0), 1 << 32), (2048, 2049));
    assert!(Board::of(&image(33, buffer)).is_none());
    let pins: Vec<[u16; 1]> = (0..4095).map(|pin| [pin]).collect();
    let chain: Vec<(u8, &[u16])> = pins.iter().map(|pin| (1, &pin[..])).collect();
    let long = Board::of(&image(1, &chain)).unwrap();
    assert_eq!((long.find(on(0, 0), 2), long.find(on(4095, 1), 2)), ((1, 2), (0, 1)));
    let mut row = vec![9; 33];
    wide.run((1 << 31) + (1 << 11), None, &mut row);
    assert_eq!((row[11], row[30], row[31], row[32]), (1, 0, 1, 1));
}

#[test]
fn every_kind_has_its_value() {
    let ones = |kind, count: usize| -> Vec<u8> {
        (0..=count).map(|ones| gate(kind, &[vec![1; ones], vec![0; count - ones]].concat())).collect()
    };
    assert_eq!((1..=2).map(|kind| ones(kind, 1)).collect::<Vec<_>>(), [[0, 1], [1, 0]]);
    let two = [[0, 0, 1], [1, 1, 0], [0, 1, 1], [1, 0, 0], [0, 1, 0], [1, 0, 1]];
    assert_eq!((3..=8).map(|kind| ones(kind, 2)).collect::<Vec<_>>(), two);
    let four = [[0, 0, 0, 0, 1], [1, 1, 1, 1, 0], [0, 1, 1, 1, 1], [1, 0, 0, 0, 0], [0, 1, 0, 1, 0], [1, 0, 1, 0, 1]];
    assert_eq!((3..=8).map(|kind| ones(kind, 4)).collect::<Vec<_>>(), four);
}

#[test]
fn a_tie_has_its_value_and_no_pins() {
    let board = Board::of(&image(1, &[(9, &[]), (10, &[]), (8, &[0, 1, 2])])).unwrap();
    let mut row = [9; 4];
    for pattern in 0..2 {
        board.run(pattern, None, &mut row);
        assert_eq!(row, [pattern as u8, 0, 1, pattern as u8]);
    }
    let on = |line, pin, stuck| board.find(Fault { line, pin, stuck }, 2).0;
    let none = crate::board::NONE;
    assert_eq!([on(1, None, 0), on(1, None, 1), on(2, None, 0), on(2, None, 1)], [none, 0, 0, none]);
    assert_eq!([on(3, Some(1), 0), on(3, Some(1), 1)], [none, 0]);
    let pins = board.pin_faults();
    assert!(pins[..24].iter().all(Option::is_none) && pins[24..30].iter().all(Option::is_some));
    for (kind, pins) in [(9, &[0][..]), (10, &[0, 0]), (11, &[]), (255, &[])] {
        assert!(Board::of(&image(1, &[(kind, pins)])).is_none());
    }
}

#[test]
fn part_of_a_book_says_how_many_patterns_were_tried() {
    let said = answers(Some(1), T, &["book", "entries", "pin book"]);
    assert!(said[0].starts_with("tried 6 patterns in "), "{}", said[0]);
    assert_eq!(said[1], "entries x x 0 x 0 x".replace('x', "18446744073709551615"));
    assert!(said[2].starts_with("tried 6 patterns in "), "{}", said[2]);
    assert!(answers(Some(9), T, &["book"])[0].starts_with("tried 10 patterns in "));
}

#[test]
fn what_is_not_known_here_answers_a_question_mark() {
    for command in ["", "check", "find 0/0", "load 00", "load 0", "load -", "open nowhere", " book", "book "] {
        assert!(answers(None, T, &[command])[0].starts_with('?'), "{command}");
    }
    assert!(Console::new(None).answer("book").starts_with('?'));
}
