//! The console, command by command.

use super::*;
use crate::console::{talk, Console};

/// The entry for none, as the console writes it.
const NONE: &str = "18446744073709551615";
/// Lines that are no command.
#[rustfmt::skip]
const MALFORMED: &[&str] = &[
    "", " ", "nothing", "Check", "check ", " check", "check 1", "check\r", "check\t", "image x", "help me", "load",
    "load ", "load  -", "load 0", "load 0g", "load 0x00", "load --", "load - -", "load 00 00", "load\t-", "rows",
    "rows 0", "rows 0 0", "rows 0  0/0", "rows 0 0/0 0", "rows 0 /0", "rows 0 0/", "rows 0 0/0/0", "rows -1 0/0",
    "rows +1 0/0", "rows 0x1 0/0", "rows 1. 0/0", "rows 0 0.0/", "rows 0 +0/0", "rows 0 0/-1",
    "rows 18446744073709551616 0/0", "find 0/18446744073709551616", "find 99999999999999999999/0", "find 0/0\r",
    "judge 0", "judge 0 0", "find", "find 0", "book 6", "alter 1", "alter 1 -", "alter 1 020100000000000000",
    "alter 1 0201000000000000000000", "alter 1 0201000000000000000g", "refresh 0", "refresh 0 x", "five 0 0",
    "five 0 0 0", "show", "show good", "show bad 0", "show good -1", "show good 0 1", "entries 0", "open", "save",
    "open ", "save ", "open /nonexistent/board", "save /nonexistent/board", "open /", "save /", "open a b", "lend",
    "lend rows", "lend rows 1", "lend rows 1 8193", "lend rows 8193 1", "lend rows 1 1 1", "lend book",
    "lend book 16385", "lend book x", "lend good 1", "put", "put good", "put good 0", "put good 0G", "put bad 00",
    "put entry 0", "put entry 6 1", "put entry 0 18446744073709551616", "put entry 0 -1", "put entry 99999999999 1",
    "find 2.", "find .0/1", "find 2./1", "find 2.0", "find 2.0/", "find 2.0.1/1", "find 2..0/1", "find 2/0.1",
    "find 2.-1/1", "find 2.+0/1", "find 2.18446744073709551616/1", "find 18446744073709551616.0/1",
    "find 2.0/18446744073709551616", "find 2.0/0.1", "find 2/.0/1", "find 2 .0/1", "rows 0 2./1", "judge 0 .0/1",
    "five 0 0 2.0.0/1", "pin", "pins", "pin 0", "pin book 24", "pin entries 0", "Pin book", "pin  book", "pinbook",
    "pin book ", "lend pins", "lend pins x", "lend pins 65537", "lend pins 1 1", "lend pin 1", "put pin", "put pin 0",
    "put pin 24 1", "put pin 0 18446744073709551616", "put pin 0 -1", "put pins 0 1", "put pin 18446744073709551615 1",
    "target 0", "target ", "targets", "lend target", "lend target x", "lend target 262145", "lend target 1 1",
    "lend targets 1", "read", "read ", "read 0", "read 0g", "read - -", "read x", "write 1", "write ", "Write",
    "import", "import ", "import a b", "import /", "import /nonexistent/drawing", "export", "export ", "export a b", "export /",
    "export /nonexistent/drawing",
];

// Gives the HEX word of some bytes, lower case.
fn hex(bytes: &[u8]) -> String {
    bytes.iter().map(|byte| format!("{byte:02x}")).collect()
}

// Gives a console with an image loaded.
fn loaded(image: &[u8]) -> Console {
    let mut console = Console::default();
    console.answer(format!("load {}", hex(image)).as_bytes());
    console
}

// Gives the answers to an input, as the program writes them.
fn talked(mut input: &[u8]) -> String {
    let mut output = Vec::new();
    talk(&mut input, &mut output).unwrap();
    String::from_utf8(output).unwrap()
}

// Checks a list of commands and their answers; an answer `?` stands for any that begins with `? `, and N for none.
fn check_all(console: &mut Console, script: &[(&str, &str)]) {
    for (command, wanted) in script {
        let answer = console.answer(command.as_bytes());
        if *wanted == "?" {
            assert!(answer.starts_with("? ") && answer.len() > 2, "{command}: {answer}");
        } else {
            assert_eq!(answer, wanted.replace('N', NONE), "{command}");
        }
    }
}

// Before the first load everything is empty.
#[test]
fn before_load() {
    let script = [
        ("image", "image -"),
        ("check", "refused 1"),
        ("entries", "entries"),
        ("pin entries", "pins"),
        ("show good 0", "row -"),
        ("show faulty 5", "row -"),
        ("rows 0 0/0", "refused 1"),
        ("judge 0 0/0", "refused 1"),
        ("find 0/0", "refused 1"),
        ("find 0.0/0", "refused 1"),
        ("book", "refused 1"),
        ("pin book", "refused 1"),
        ("alter 0 00000000000000000000", "refused 1"),
        ("refresh 0 0", "refused 1"),
        ("five 0 0 0/0", "refused 1"),
        ("put entry 0 1", "?"),
        ("put pin 0 1", "?"),
    ];
    check_all(&mut Console::default(), &script);
}

// Board T through every call.
#[test]
fn board_t_through_every_call() {
    let load = format!("load {}", hex(&board_t()).to_uppercase());
    let image = format!("image {}", hex(&board_t()));
    let script = [
        (load.as_str(), "board 3 lines 1 inputs 1 outputs"),
        (&image[..5], &image[..]),
        ("show good 0", "row 090909"),
        ("show faulty 0", "row 090909"),
        ("entries", "entries 99 99 99 99 99 99"),
        ("check", "board 3 lines 1 inputs 1 outputs"),
        ("rows 1 1/1", "filled"),
        ("show good 0", "row 010001"),
        ("show faulty 1", "row 0101"),
        ("show faulty 3", "row -"),
        ("show faulty 18446744073709551615", "row -"),
        ("judge 0 1/0", "yes"),
        ("judge 1 1/0", "no"),
        ("find 1/0", "0"),
        ("find 1/1", "none"),
        ("book", "found 2 of 6"),
        ("entries", "entries N N 0 N 0 N"),
        ("alter 2 03020000010000000000", "found 5 of 30"),
        ("entries", "entries N N N 1 N 0"),
        ("five 0 0 2/1", "drives 0"),
        ("show good 0", "row 020202"),
        ("refresh 0 0", "filled"),
        ("show good 0", "row 000100"),
        ("put good 010100", "lent"),
        ("refresh 2 0", "filled"),
        ("show good 0", "row 010101"),
    ];
    check_all(&mut Console::default(), &script);
}

// Board T's pins through every call that takes a fault, and both books through an alteration.
#[test]
fn pins_through_every_call() {
    let load = format!("load {}", hex(&board_t()));
    let lent = format!("pins{}", " 99".repeat(24));
    let none = |count: usize| " N".repeat(count);
    let filled = format!("pins{} 0{} 1{} 0{}", none(9), none(6), none(1), none(5));
    let altered = format!("pins{} 1{} 0{} 1{}", none(8), none(8), none(1), none(4));
    let script = [
        (load.as_str(), "board 3 lines 1 inputs 1 outputs"),
        ("pin entries", &lent[..]),
        ("rows 1 2.0/0", "filled"),
        ("show good 0", "row 010001"),
        ("show faulty 0", "row 010000"),
        ("judge 1 2.0/0", "yes"),
        ("judge 0 2.00/0", "no"),
        ("find 2.0/0", "1"),
        ("find 2.0/1", "none"),
        ("find 2.1/0", "0"),
        ("find 1.0/1", "0"),
        ("five 1 1 2.0/0", "drives 1"),
        ("show good 0", "row 010003"),
        ("five 0 0 2.0/0", "drives 0"),
        ("show good 0", "row 020202"),
        ("pin book", "found 3 of 24"),
        ("pin entries", &filled[..]),
        ("entries", "entries 99 99 99 99 99 99"),
        ("alter 2 03020000010000000000", "found 5 of 30"),
        ("pin entries", &altered[..]),
        ("entries", "entries N N N 1 N 0"),
    ];
    check_all(&mut Console::default(), &script);
}

// The console's answers where a pin is not there, or a book is not of the right length.
#[test]
fn pin_refusals() {
    let script = [
        ("rows 9 2.2/0", "refused 12"),
        ("rows 9 2.1000000000000000000/0", "refused 12"),
        ("judge 9 0.0/0", "refused 12"),
        ("find 2.18446744073709551615/1", "refused 12"),
        ("find 2.4294967296/1", "refused 12"),
        ("find 2.2/2", "refused 7"),
        ("find 2.0/300", "refused 7"),
        ("find 3.0/0", "refused 6"),
        ("five 0 1 1.1/0", "refused 12"),
        ("lend book 24", "lent"),
        ("lend pins 6", "lent"),
        ("pin book", "refused 9"),
        ("pin entries", "pins 99 99 99 99 99 99"),
        ("alter 0 02010000000000000000", "refused 9"),
        ("lend book 6", "lent"),
        ("alter 2 03020000010000000000", "refused 9"),
        ("entries", "entries 99 99 99 99 99 99"),
        ("pin entries", "pins 99 99 99 99 99 99"),
        ("put pin 5 4294967295", "lent"),
        ("pin entries", "pins 99 99 99 99 99 4294967295"),
        ("entries", "entries 99 99 99 99 99 99"),
    ];
    check_all(&mut loaded(&board_t()), &script);
}

// Refusals reach the console; numbers as large as 64 bits reach the call.
#[test]
fn refusals() {
    let script = [
        ("rows 0 1000000000000000000/0", "refused 6"),
        ("rows 0 18446744073709551615/0", "refused 6"),
        ("rows 0 3/9", "refused 6"),
        ("rows 0 2/2", "refused 7"),
        ("rows 0 2/256", "refused 7"),
        ("find 2/300", "refused 7"),
        ("find 2/18446744073709551615", "refused 7"),
        ("judge 2 2/1", "refused 8"),
        ("judge 18446744073709551615 2/1", "refused 8"),
        ("five 1 1 3/0", "refused 6"),
        ("five 0 1 0/0", "refused 8"),
        ("refresh 3 0", "refused 6"),
        ("refresh 1 0", "refused 11"),
        ("alter 0 02010000000000000000", "refused 10"),
        ("alter 3 02010000000000000000", "refused 6"),
        ("lend rows 3 4", "lent"),
        ("rows 0 0/0", "refused 9"),
        ("five 0 0 0/0", "drives 0"),
        ("show good 0", "row 020202"),
        ("show faulty 0", "row 09090909"),
        ("lend rows 0 0", "lent"),
        ("refresh 1 0", "refused 9"),
        ("lend book 7", "lent"),
        ("book", "refused 9"),
        ("entries", "entries 99 99 99 99 99 99 99"),
        ("alter 2 03020000010000000000", "refused 9"),
    ];
    check_all(&mut loaded(&board_t()), &script);
}

// A refused image is kept, with rows and a book of length 0.
#[test]
fn refused_image() {
    let mut bad = board_t();
    bad[24] = 2;
    let load = format!("load {}", hex(&bad));
    let image = format!("image {}", hex(&bad));
    let script = [
        (load.as_str(), "refused 4 at 2.3"),
        ("image", &image[..]),
        ("show good 0", "row -"),
        ("entries", "entries"),
        ("pin entries", "pins"),
        ("check", "refused 4 at 2.3"),
        ("book", "refused 4 at 2.3"),
        ("lend book 2", "lent"),
        ("alter 2 03020000010000000000", "refused 4 at 2.3"),
        ("load -", "refused 1"),
        ("image", "image -"),
    ];
    check_all(&mut loaded(&board_t()), &script);
}

// What is no command changes nothing.
#[test]
fn malformed() {
    let mut console = loaded(&board_t());
    let image = format!("image {}", hex(&board_t()));
    let pins = format!("pins{}", " 99".repeat(24));
    for line in MALFORMED {
        check_all(&mut console, &[(line, "?"), ("image", &image), ("show good 0", "row 090909")]);
        check_all(&mut console, &[("show faulty 0", "row 090909"), ("entries", "entries 99 99 99 99 99 99")]);
        check_all(&mut console, &[("pin entries", &pins), ("target", "target -")]);
    }
    assert!(console.answer(b"find \xFF/0").starts_with("? "));
}

// Every number fits an entry, and the largest alone is none, in both books; an alteration that touches nothing counts them.
#[test]
fn wide_entries() {
    let loose = image(0, &[record(INPUT, &[]), record(INPUT, &[]), record(AND, &[0, 1])], &[0]);
    let script = [
        ("put entry 0 4294967295", "lent"),
        ("put entry 1 18446744073709551615", "lent"),
        ("put entry 2 18446744073709551614", "lent"),
        ("put entry 3 4294967296", "lent"),
        ("put pin 0 18446744073709551615", "lent"),
        ("put pin 1 18446744073709551614", "lent"),
        ("put pin 2 4294967295", "lent"),
        ("put pin 3 18446744073709551616", "?"),
        ("alter 2 05020000010000000000", "found 28 of 30"),
        ("entries", "entries 4294967295 N 18446744073709551614 4294967296 99 99"),
    ];
    let pins = format!("pins N 18446744073709551614 4294967295{}", " 99".repeat(21));
    let mut console = loaded(&loose);
    check_all(&mut console, &script);
    check_all(&mut console, &[("pin entries", &pins)]);
}

// The console's own limits, at the boundary.
#[test]
fn limits() {
    let mut console = Console::default();
    let bytes = |count: usize| "00".repeat(count);
    let put = format!("put good {}", bytes(8_192));
    let put_more = format!("put faulty {}", bytes(8_193));
    let load = format!("load {}", bytes(65_536));
    let load_more = format!("load {}", bytes(65_537));
    let script = [
        ("lend rows 8192 8192", "lent"),
        ("lend book 16384", "lent"),
        ("put entry 16383 18446744073709551615", "lent"),
        ("put entry 16384 0", "?"),
        ("put entry 0000 007", "lent"),
        ("lend pins 65536", "lent"),
        ("put pin 65535 18446744073709551615", "lent"),
        ("put pin 65536 0", "?"),
        (put.as_str(), "lent"),
        (put_more.as_str(), "?"),
        ("show faulty 8191", "row 09"),
        ("show good 8191", "row 00"),
        (load.as_str(), "refused 1"),
        (load_more.as_str(), "?"),
        ("show good 0", "row -"),
        ("put faulty fF", "lent"),
        ("show faulty 0", "row ff"),
        ("put faulty -", "lent"),
        ("show faulty 0", "row -"),
    ];
    check_all(&mut console, &script);
    assert_eq!(console.answer(b"image").len(), "image ".len() + 2 * 65_536);
}

// Lines: the last may lack its line feed, an empty one answers, a long one is skipped whole.
#[test]
fn lines() {
    assert_eq!(talked(b""), "");
    assert_eq!(talked(b"check"), "refused 1\n");
    assert_eq!(talked(b"check\n"), "refused 1\n");
    assert_eq!(talked(b"\ncheck\n\n"), "? empty line\nrefused 1\n? empty line\n");
    let long = |count: usize| [vec![b'0'; count], b"\ncheck\n".to_vec()].concat();
    assert_eq!(talked(&long(199_999)), "? no such command\nrefused 1\n");
    assert_eq!(talked(&long(200_000)), "? line too long\nrefused 1\n");
    assert_eq!(talked(&long(1_000_000)), "? line too long\nrefused 1\n");
    assert_eq!(talked(&vec![b'0'; 200_000]), "? line too long\n");
}

// Save and open carry the image through a file; a file too large or missing changes nothing.
#[test]
fn files() {
    let path = std::env::temp_dir().join(format!("oracle-test-{}", std::process::id()));
    let (save, open) = (format!("save {}", path.display()), format!("open {}", path.display()));
    let mut console = loaded(&board_h());
    check_all(&mut console, &[(save.as_str(), "saved"), ("load -", "refused 1")]);
    check_all(&mut console, &[(open.as_str(), "board 4 lines 2 inputs 2 outputs"), ("show good 0", "row 09090909")]);
    assert_eq!(std::fs::read(&path).unwrap(), board_h());
    std::fs::write(&path, vec![0; 65_537]).unwrap();
    check_all(&mut console, &[(open.as_str(), "? cannot read"), ("check", "board 4 lines 2 inputs 2 outputs")]);
    std::fs::write(&path, vec![0; 65_536]).unwrap();
    check_all(&mut console, &[(open.as_str(), "refused 1"), ("show good 0", "row -")]);
    std::fs::remove_file(&path).unwrap();
    check_all(&mut console, &[(open.as_str(), "? cannot read")]);
}
