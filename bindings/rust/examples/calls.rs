//! Each call on the sample boards: cargo run --example calls
use fortizembo::*;

fn board(name: &str) -> Vec<u8> {
    std::fs::read(format!("{}/../../boards/{name}.img", env!("CARGO_MANIFEST_DIR"))).expect("a sample board")
}

fn main() {
    let s = board("S");
    let (mut good, mut faulty) = ([0; 12], [0; 12]);
    let (at_1, pin_at_1) = (Fault::Line { line: 4, stuck: 1 }, Fault::Pin { line: 4, pin: 0, stuck: 1 });
    println!("check S: {:?}", check(&s));
    println!("find S 4/1: {:?}", find(&s, at_1));
    println!("find S 4.0/1: {:?}", find(&s, pin_at_1));
    println!("find S 4.2/1: {:?}", find(&s, Fault::Pin { line: 4, pin: 2, stuck: 1 }));
    println!("judge S 7 4/1: {:?}", judge(&s, 7, at_1));
    println!("judge S 7 4.0/1: {:?}", judge(&s, 7, pin_at_1));
    println!("rows S 6 4/1: {:?} {good:?} {faulty:?}", rows(&s, 6, at_1, &mut good, &mut faulty));
    println!("show the faulty row from 4: {:?}", show(&good, &faulty, true, 4));

    let mut t = board("T");
    let (mut row, mut entries, mut pins) = ([1, 9, 9], [0; 6], [0; 24]);
    println!("refresh T 1 from 1: {:?} {row:?}", refresh(&t, 1, 1, &mut row));
    println!("five T 1/1 2/0: {:?} {row:?}", five(&t, 1, 1, Fault::Line { line: 2, stuck: 0 }, &mut row));
    println!("five T 1/0 1.0/1: {:?} {row:?}", five(&t, 1, 0, Fault::Pin { line: 1, pin: 0, stuck: 1 }, &mut row));
    println!("book T: {:?} {entries:?}", book(&t, &mut entries));
    println!("pin book T: {:?} {:?} {:?}", pin_book(&t, &mut pins), &pins[8..10], &pins[16..20]);
    let and_0_1 = [3, 2, 0, 0, 1, 0, 0, 0, 0, 0];
    println!("alter T 2: {:?} {entries:?}", alter(&mut t, &mut entries, &mut pins, 2, and_0_1));
    println!("its used pins: {:?} {:?}", &pins[8..10], &pins[16..20]);

    let (mut text, mut again) = ([0; 51], [0; 44]);
    println!("write it: {:?}", write(&t, &mut text));
    print!("{}", String::from_utf8_lossy(&text));
    println!("read that: {:?}, the same image: {}", read(&text, &mut again), again[..] == t[..]);
    println!("read it without its last line feed: {:?}", read(&text[..50], &mut again));

    let mut rails = board("rails");
    let (mut entries, mut pins) = ([0; 16], [0; 64]);
    println!("find rails 2/1: {:?}", find(&rails, Fault::Line { line: 2, stuck: 1 }));
    println!("find rails 2/0: {:?}", find(&rails, Fault::Line { line: 2, stuck: 0 }));
    println!("find rails 6.2/0: {:?}", find(&rails, Fault::Pin { line: 6, pin: 2, stuck: 0 }));
    println!("find rails 3.0/0: {:?}", find(&rails, Fault::Pin { line: 3, pin: 0, stuck: 0 }));
    println!("books of rails: {:?} {:?}", book(&rails, &mut entries), pin_book(&rails, &mut pins));
    let low = [9, 0, 0, 0, 0, 0, 0, 0, 0, 0];
    println!("alter rails 3: {:?}", alter(&mut rails, &mut entries, &mut pins, 3, low));
}
