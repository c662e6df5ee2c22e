//! Drawings: the readings one by one, every refusal in its order, and 13's length against completions by trial.

use super::*;
use crate::calls;
use crate::console::Console;
use crate::drawing::{image_of, text_of};
use crate::image::MOST_IMAGE;
use std::collections::BTreeSet;

/// The drawings of boards T, S and H.
const T: &str = "INPUT(n0)\nOUTPUT(n2)\nn1 = NOT(n0)\nn2 = OR(n0, n1)\n";
const S: &str = "INPUT(n0)\nINPUT(n1)\nINPUT(n2)\nINPUT(n3)\nOUTPUT(n11)\nn4 = NOR(n1, n2)\nn5 = NOR(n4, n0)\n\
    n6 = NOR(n4, n3)\nn7 = NOR(n0, n2)\nn8 = NOR(n7, n1)\nn9 = NOR(n1, n3)\nn10 = NOR(n9, n2)\n\
    n11 = NOR(n5, n6, n8, n10)\n";
const H: &str = "INPUT(n0)\nINPUT(n1)\nOUTPUT(n2)\nOUTPUT(n3)\nn2 = NOT(n0)\nn3 = BUFF(n1)\n";

// Gives what the reader answers with room enough: `read`, or its refusal's one line.
fn said(text: &[u8]) -> String {
    calls::read(text, &mut [9; MOST_IMAGE]).map_or_else(|refusal| refusal.to_string(), |_| "read".to_string())
}

// Checks that a text is refused by 13 at this length.
fn departs(text: &str, length: usize) {
    assert_eq!(said(text.as_bytes()), format!("refused 13 at {length}"), "{text:?}");
}

// The sheet's boards both ways, and the note that is lost.
#[test]
fn sheet() {
    for (text, image) in [(T, board_t()), (S, board_s()), (H, board_h())] {
        assert_eq!(image_of(text.as_bytes()), Ok(image.clone()));
        assert_eq!(text_of(&image), Ok(text.as_bytes().to_vec()));
        assert_eq!(text_of(&[vec![7; 256], image].concat()), Ok(text.as_bytes().to_vec()));
    }
}

// Every word, with every count of pins that its kind takes.
#[test]
fn words() {
    let words = ["BUFF", "NOT", "AND", "NAND", "OR", "NOR", "XOR", "XNOR"];
    for (kind, word) in (1..).zip(words) {
        for pins in [vec![2], vec![0, 1], vec![2, 1, 0], vec![1, 2, 1, 0]] {
            let names: Vec<String> = pins.iter().map(|pin| format!("n{pin}")).collect();
            let inputs = "INPUT(n0)\nINPUT(n1)\nINPUT(n2)\nOUTPUT(n3)\n";
            let text = format!("{inputs}n3 = {word}({})\n", names.join(", "));
            let image = image(0, &[vec![record(INPUT, &[]); 3], vec![record(kind, &pins)]].concat(), &[3]);
            if (kind <= 2) == (pins.len() == 1) {
                assert_eq!(image_of(text.as_bytes()), Ok(image.clone()));
                assert_eq!(text_of(&image), Ok(text.into_bytes()));
            } else {
                assert_eq!(said(text.as_bytes()), "refused 4 at 3.1");
            }
        }
    }
}

// The lengths that the readings name.
#[test]
fn departures() {
    departs("OUTPUT(n65536)\n", 12);
    departs("OUTPUT(n00)\n", 9);
    departs("OUTPUT(n05)\n", 9);
    departs("OUTPUT(n100000)\n", 13);
    departs("INPUT(n1)\n", 7);
    departs("INPUT(n00)\n", 8);
    departs("n0 = NO(n0)\n", 7);
    departs("n0 = AND()\n", 9);
    departs("n0 = AND(n1, n2, n3, n4, n5)\n", 23);
    departs("n0 = AND(n1, n2, n3, n65535, n5)\n", 27);
    departs("n0 = AND(n1,n2)\n", 12);
    departs("n0 = AND(n1 , n2)\n", 11);
    departs("n0= AND(n1, n2)\n", 2);
    departs("n0 =AND(n1, n2)\n", 4);
    departs("n1 = NOT(n0)\n", 1);
    departs("input(n0)\n", 0);
    departs("INPUT(n0)\r\n", 9);
    departs("INPUT(n0)\n\n", 10);
    departs("INPUT(n0)\nINPUT(n0)\n", 17);
    departs("INPUT(n0)\nINPUT(n2)\n", 17);
    departs("OUTPUT(n0)\nINPUT(n0)\n", 11);
    departs("INPUT(n0)\nn1 = NOT(n0)\nOUTPUT(n1)\n", 23);
    departs("INPUT(n0)\nn1 = NOT(n0)\nINPUT(n2)\n", 23);
    departs("INPUT(n0)\nn1 = NOT(n-1)\n", 20);
    departs("INPUT(n0)\nn1 = NOT(n+1)\n", 20);
    assert_eq!(said(b"INPUT(n\xC3\xA9)\n"), "refused 13 at 7");
    let ten: String = (0..10).map(|line| format!("INPUT(n{line})\n")).collect();
    departs(&(ten.clone() + "INPUT(n1)\n"), 108);
    departs(&(ten.clone() + "INPUT(n100)\n"), 109);
    departs(&(ten.clone() + "n1 = NOT(n0)\n"), 102);
    departs(&(ten + "n11 = NOT(n0)\n"), 102);
}

// A text cut anywhere is refused by 13 at its full length, unless it ends with a line feed.
#[test]
fn cut() {
    for text in [T, S, H] {
        for length in 1..text.len() {
            let last = text.as_bytes()[length - 1];
            if last != b'\n' {
                departs(&text[..length], length);
            }
        }
    }
}

// The board named is held to document 01's rules: 2, then 4, then 5.
#[test]
fn boards_named() {
    let inputs = |count: usize| (0..count).map(|line| format!("INPUT(n{line})\n")).collect::<String>();
    let outputs = |count: usize| (0..count).map(|line| format!("OUTPUT(n{line})\n")).collect::<String>();
    let gates = |lines: usize| (1..lines).map(|line| format!("n{line} = NOT(n0)\n")).collect::<String>();
    let board = |lines: usize, count: usize| said((inputs(1) + &outputs(count) + &gates(lines)).as_bytes());
    assert_eq!(said(b""), "refused 2");
    assert_eq!(said(inputs(1).as_bytes()), "refused 2");
    assert_eq!(said(outputs(1).as_bytes()), "refused 2");
    assert_eq!((board(4_096, 1), board(4_097, 1)), ("read".to_string(), "refused 2".to_string()));
    assert_eq!((board(64, 64), board(65, 65)), ("read".to_string(), "refused 2".to_string()));
    assert_eq!(said((inputs(65_537) + &outputs(1)).as_bytes()), "refused 2");
    assert_eq!(said((inputs(1) + &outputs(1).repeat(65_537)).as_bytes()), "refused 2");
    assert_eq!(said((inputs(33) + "OUTPUT(n99)\n").as_bytes()), "refused 4 at 32.0");
    assert_eq!(said(b"OUTPUT(n0)\nn0 = NOT(n0)\n"), "refused 4 at 0.0");
    assert_eq!(said(b"OUTPUT(n0)\nn0 = AND(n0)\n"), "refused 4 at 0.0");
    assert_eq!(said(b"INPUT(n0)\nOUTPUT(n9)\nn1 = AND(n0, n65535)\n"), "refused 4 at 1.3");
    assert_eq!(said(b"INPUT(n0)\nOUTPUT(n9)\nn1 = AND(n0, n0, n0, n1)\n"), "refused 4 at 1.5");
    assert_eq!(said(b"INPUT(n0)\nOUTPUT(n9)\nn1 = AND(n0, n0)\n"), "refused 5 at 0");
    assert_eq!(said(b"INPUT(n0)\nOUTPUT(n0)\nOUTPUT(n0)\n"), "refused 5 at 1");
    assert_eq!(said(b"INPUT(n0)\nINPUT(n1)\nOUTPUT(n1)\nOUTPUT(n0)\n"), "refused 5 at 1");
    assert_eq!(said(b"OUTPUT(n0)\nn0 = NOT(n0)\n "), "refused 13 at 24");
}

// A target too short is refused last and left alone; beyond the length it keeps its bytes.
#[test]
fn targets() {
    for (text, image) in [(T, board_t()), (S, board_s()), (H, board_h())] {
        for more in [0, 1, 300] {
            let mut target = vec![9; image.len() + more];
            assert_eq!(calls::read(text.as_bytes(), &mut target), Ok(image.len()));
            assert_eq!(target, [image.clone(), vec![9; more]].concat());
            let mut target = vec![9; text.len() + more];
            assert_eq!(calls::write(&image, &mut target), Ok(text.len()));
            assert_eq!(target, [text.as_bytes().to_vec(), vec![9; more]].concat());
        }
        let (mut short, mut shorter) = (vec![9; image.len() - 1], vec![9; text.len() - 1]);
        assert_eq!(calls::read(text.as_bytes(), &mut short).unwrap_err().to_string(), "refused 14");
        assert_eq!(calls::write(&image, &mut shorter).unwrap_err().to_string(), "refused 14");
        assert_eq!((short, shorter), (vec![9; image.len() - 1], vec![9; text.len() - 1]));
    }
    assert_eq!(calls::read(b"INPUT(n0)\nOUTPUT(n1)\n", &mut []).unwrap_err().to_string(), "refused 5 at 0");
    assert_eq!(calls::write(&board_t()[1..], &mut []).unwrap_err().to_string(), "refused 3");
}

// The console: the target through its commands, and a drawing through a file.
#[test]
fn through_the_console() {
    let path = std::env::temp_dir().join(format!("oracle-drawing-{}", std::process::id()));
    let mut console = Console::default();
    let mut asks = |command: String, wanted: &str| assert_eq!(console.answer(command.as_bytes()), wanted, "{command}");
    let hex = |bytes: &[u8]| bytes.iter().map(|byte| format!("{byte:02x}")).collect::<String>();
    asks("target".to_string(), "target -");
    asks("write".to_string(), "refused 1");
    asks(format!("export {}", path.display()), "refused 1");
    assert!(!path.exists());
    asks("lend target 262145".to_string(), "? too many");
    asks("lend target 46".to_string(), "lent");
    asks(format!("read {}", hex(T.as_bytes())), "read 44");
    asks("target".to_string(), &format!("target {}0909", hex(&board_t())));
    asks(format!("load {}", hex(&[vec![1; 9], board_h()].concat())), "board 4 lines 2 inputs 2 outputs");
    asks("write".to_string(), "refused 14");
    asks(format!("export {}", path.display()), "saved");
    assert_eq!(std::fs::read(&path).unwrap(), H.as_bytes());
    asks("load -".to_string(), "refused 1");
    asks(format!("import {}", path.display()), "board 4 lines 2 inputs 2 outputs");
    asks("image".to_string(), &format!("image {}", hex(&board_h())));
    asks("show good 0".to_string(), "row 09090909");
    std::fs::write(&path, " ".repeat(1_048_576)).unwrap();
    asks(format!("import {}", path.display()), "refused 13 at 0");
    std::fs::write(&path, " ".repeat(1_048_577)).unwrap();
    asks(format!("import {}", path.display()), "? cannot read");
    asks("image".to_string(), &format!("image {}", hex(&board_h())));
    asks("target".to_string(), &format!("target {}0909", hex(&board_t())));
    std::fs::remove_file(&path).unwrap();
}

// Gives a statement written anew from what stands in it, read with no care for its form; none where it is no statement.
fn anew(statement: &str, line: usize) -> Option<(u8, String)> {
    let numbers = statement.split(|c: char| !c.is_ascii_digit()).filter(|digits| !digits.is_empty());
    let numbers: Vec<u64> = numbers.map(|digits| digits.parse().ok()).collect::<Option<_>>()?;
    let word =
        ["BUFF", "NAND", "AND", "XNOR", "NOR", "XOR", "OR", "NOT"].into_iter().find(|word| statement.contains(word));
    if statement.starts_with("INPUT") {
        return Some((0, format!("INPUT(n{line})")));
    }
    if statement.starts_with("OUTPUT") {
        let &output = numbers.first().filter(|&&output| output <= 65_535)?;
        return Some((1, format!("OUTPUT(n{output})")));
    }
    if let Some(tie) = ["TIE0", "TIE1"].into_iter().find(|tie| statement.contains(tie)) {
        return Some((2, format!("n{line} = {tie}()")));
    }
    let pins: Vec<String> = numbers.iter().skip(1).filter(|&&pin| pin <= 65_535).map(|pin| format!("n{pin}")).collect();
    (1..=4).contains(&pins.len()).then_some((2, format!("n{line} = {}({})", word?, pins.join(", "))))
}

// Gives whether a text is of the form: its statements written anew are the text, and their sections never fall.
fn of_the_form(text: &str) -> bool {
    let (mut again, mut section, mut line) = (String::new(), 0, 0);
    for statement in text.split('\n').take(text.matches('\n').count()) {
        match anew(statement, line) {
            Some((next, words)) if next >= section => {
                again = again + &words + "\n";
                section = next;
                line += usize::from(next != 1);
            }
            _ => return false,
        }
    }
    again == text
}

// Gives every end of every statement that may complete one on a line below 5.
fn ends() -> BTreeSet<String> {
    let mut statements = vec!["OUTPUT(n0)\n".to_string()];
    for line in 0..5 {
        statements.extend([format!("INPUT(n{line})\n"), format!("n{line} = OR(n0, n0)\n")]);
        let words = ["BUFF", "NOT", "AND", "NAND", "OR", "NOR", "XOR", "XNOR"];
        statements.extend(words.map(|word| format!("n{line} = {word}(n0)\n")));
        statements.extend(["TIE0", "TIE1"].map(|tie| format!("n{line} = {tie}()\n")));
    }
    statements.iter().flat_map(|text| (0..=text.len()).map(|start| text[start..].to_string())).collect()
}

// Gives the texts that one change to a text makes: a byte gone, another put in or put in its place.
fn changed(text: &str) -> Vec<String> {
    let mut texts = Vec::new();
    for at in 0..=text.len() {
        let (before, rest) = text.split_at(at);
        let behind = if rest.is_empty() { "" } else { &rest[1..] };
        texts.push(format!("{before}{behind}"));
        for other in "INTOANXREn0156(), =\n\r".chars() {
            texts.extend([format!("{before}{other}{rest}"), format!("{before}{other}{behind}")]);
        }
    }
    texts
}

// 13 is given for what is not of the form alone, at a length that some end completes and one byte more none.
#[test]
fn lengths_by_trial() {
    let ends = ends();
    let begins = |text: &str| ends.iter().any(|end| of_the_form(&format!("{text}{end}")));
    let largest = "OUTPUT(n65535)\nOUTPUT(n10)\nn0 = XNOR(n65535, n0, n6553, n9)\n";
    let few = "INPUT(n0)\nn1 = BUFF(n10)\nn2 = NAND(n1, n20)\n";
    let tied = "INPUT(n0)\nn1 = TIE0()\nn2 = NOT(n0)\nn3 = TIE1()\n";
    for text in [T, largest, few, tied].into_iter().flat_map(changed) {
        match said(text.as_bytes()).strip_prefix("refused 13 at ") {
            None => assert!(of_the_form(&text), "{text:?}"),
            Some(length) => {
                let length: usize = length.parse().unwrap();
                assert!(!of_the_form(&text) && begins(&text[..length]), "{text:?} {length}");
                assert!(length == text.len() || !begins(&text[..length + 1]), "{text:?} {length}");
            }
        }
    }
}
