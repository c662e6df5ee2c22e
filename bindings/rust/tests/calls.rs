//! Each call with the papers' numbers, and each refusal with nothing lent changed.
use fortizembo::*;
use std::fs;

fn sample(name: &str) -> Vec<u8> {
    fs::read(format!("{}/../../boards/{name}", env!("CARGO_MANIFEST_DIR"))).expect("a sample")
}

fn board(name: &str) -> Vec<u8> {
    sample(&format!("{name}.img"))
}

fn at(line: usize, stuck: u8) -> Fault {
    Fault::Line { line, stuck }
}

fn pin_at(line: usize, pin: usize, stuck: u8) -> Fault {
    Fault::Pin { line, pin, stuck }
}

/// A pin book with these entries and NONE everywhere else.
fn pins<const N: usize>(entries: &[(usize, Entry)]) -> [Entry; N] {
    let mut all = [NONE; N];
    entries.iter().for_each(|&(i, entry)| all[i] = entry);
    all
}

const AND_0_1: [u8; 10] = [3, 2, 0, 0, 1, 0, 0, 0, 0, 0];
const NOT_0: [u8; 10] = [2, 1, 0, 0, 0, 0, 0, 0, 0, 0];
const NOT_1: [u8; 10] = [2, 1, 1, 0, 0, 0, 0, 0, 0, 0];
const OR_0_1: [u8; 10] = [5, 2, 0, 0, 1, 0, 0, 0, 0, 0];
const TIE_0: [u8; 10] = [9, 0, 0, 0, 0, 0, 0, 0, 0, 0];
const TIE_1: [u8; 10] = [10, 0, 0, 0, 0, 0, 0, 0, 0, 0];

#[test]
fn check_counts_lines_inputs_and_outputs() {
    assert_eq!(check(&board("S")), Checked::Good(Counts { lines: 12, inputs: 4, outputs: 1 }));
    assert_eq!(check(&board("T")), Checked::Good(Counts { lines: 3, inputs: 1, outputs: 1 }));
    assert_eq!(check(&board("H")), Checked::Good(Counts { lines: 4, inputs: 2, outputs: 2 }));
}

#[test]
fn find_gives_the_smallest_pattern_of_s() {
    let s = board("S");
    assert_eq!(find(&s, at(4, 0)), Found::Pattern(0));
    assert_eq!(find(&s, at(4, 1)), Found::Pattern(6));
    assert_eq!(find(&s, pin_at(4, 0, 0)), Found::Nothing);
    assert_eq!(find(&s, pin_at(4, 0, 1)), Found::Pattern(0));
}

#[test]
fn find_tells_none_from_pattern_0() {
    let t = board("T");
    assert_eq!(find(&t, at(0, 0)), Found::Nothing);
    assert_eq!(find(&t, at(1, 0)), Found::Pattern(0));
}

fn judged(answer: Judged, fault: Fault) -> Vec<u64> {
    let s = board("S");
    (0..16).filter(|&p| judge(&s, p, fault) == answer).collect()
}

#[test]
fn judge_says_yes_to_6_7_and_14_alone() {
    assert_eq!(judged(Judged::Yes, at(4, 1)), [6, 7, 14]);
    assert_eq!(judged(Judged::No, at(4, 1)).len(), 13);
}

#[test]
fn judge_says_yes_of_a_pin_to_0_alone() {
    assert_eq!(judged(Judged::Yes, pin_at(4, 0, 1)), [0]);
    assert_eq!(judged(Judged::No, pin_at(4, 0, 1)).len(), 15);
}

#[test]
fn rows_of_t_and_their_parts() {
    let (mut good, mut faulty) = ([9; 3], [9; 3]);
    assert_eq!(rows(&board("T"), 1, at(0, 0), &mut good, &mut faulty), Filled::Done);
    assert_eq!((good, faulty), ([1, 0, 1], [0, 1, 1]));
    assert_eq!(show(&good, &faulty, false, 1), [0, 1]);
    let part = show(&good, &faulty, true, 1);
    assert_eq!(part, [1, 1]);
    assert_eq!(part.as_ptr(), faulty[1..].as_ptr(), "that very part, no copy");
    for start in [3, 4, usize::MAX] {
        assert_eq!(show(&good, &faulty, true, start), [0; 0]);
    }
}

#[test]
fn a_pin_is_held_for_its_gate_alone() {
    let (t, mut good, mut faulty) = (board("T"), [9; 3], [9; 3]);
    assert_eq!(rows(&t, 1, pin_at(2, 0, 0), &mut good, &mut faulty), Filled::Done);
    assert_eq!((good, faulty), ([1, 0, 1], [1, 0, 0]));
    assert_eq!(rows(&t, 0, pin_at(2, 1, 0), &mut good, &mut faulty), Filled::Done);
    assert_eq!((good, faulty), ([0, 1, 1], [0, 1, 0]));
    assert_eq!(rows(&t, 0, pin_at(1, 0, 1), &mut good, &mut faulty), Filled::Done);
    assert_eq!((good, faulty), ([0, 1, 1], [0, 0, 0]));
}

#[test]
fn refresh_rewrites_from_the_line_on() {
    let mut row = [0, 9, 9];
    assert_eq!(refresh(&board("T"), 0, 1, &mut row), Filled::Done);
    assert_eq!(row, [0, 1, 1]);
}

#[test]
fn five_values_of_t() {
    let (t, mut row) = (board("T"), [9; 3]);
    assert_eq!(five(&t, 1, 1, at(2, 0), &mut row), Driven::Count(1));
    assert_eq!(row, [1, 0, 3]);
    assert_eq!(five(&t, 1, 1, at(1, 1), &mut row), Driven::Count(0));
    assert_eq!(row, [1, 4, 1]);
    assert_eq!(five(&t, 0, 0, at(2, 0), &mut row), Driven::Count(0));
    assert_eq!(row, [2, 2, 2]);
}

#[test]
fn five_values_of_pins_of_t() {
    let (t, mut row) = (board("T"), [9; 3]);
    assert_eq!(five(&t, 1, 0, pin_at(1, 0, 1), &mut row), Driven::Count(1));
    assert_eq!(row, [0, 3, 3]);
    assert_eq!(five(&t, 1, 1, pin_at(1, 0, 0), &mut row), Driven::Count(0));
    assert_eq!(row, [1, 4, 1]);
    assert_eq!(five(&t, 1, 0, pin_at(2, 1, 0), &mut row), Driven::Count(1));
    assert_eq!(row, [0, 1, 3]);
    assert_eq!(five(&t, 0, 0, pin_at(2, 1, 0), &mut row), Driven::Count(0));
    assert_eq!(row, [2, 2, 2]);
}

/// Three inputs and their exclusive-or, line 3, which is the output.
const ODD: [u8; 54] = [
    0, 0, 0, 0, 0, 0, 0, 0, 0, 0, 0, 0, 0, 0, 0, 0, 0, 0, 0, 0, 0, 0, 0, 0, 0, 0, 0, 0, 0, 0, //
    7, 3, 0, 0, 1, 0, 2, 0, 0, 0, 3, 0, 4, 0, 1, 0, 54, 0, 0, 0, 0x42, 0x52, 0x44, 0x31,
];

#[test]
fn exclusive_or_is_odd() {
    let (mut good, mut faulty) = ([9; 4], [9; 4]);
    assert_eq!(rows(&ODD, 7, pin_at(3, 2, 0), &mut good, &mut faulty), Filled::Done);
    assert_eq!((good, faulty), ([1, 1, 1, 1], [1, 1, 1, 0]));
    assert_eq!(judge(&ODD, 7, at(3, 0)), Judged::Yes);
    assert_eq!(five(&ODD, 3, 3, at(2, 0), &mut good), Driven::Count(0));
    assert_eq!(good, [1, 1, 2, 2]);
}

#[test]
fn a_tie_has_its_value_and_no_pin() {
    let (rails, mut row) = (board("rails"), [9; 8]);
    assert_eq!(check(&rails), Checked::Good(Counts { lines: 8, inputs: 2, outputs: 3 }));
    assert_eq!([find(&rails, at(2, 0)), find(&rails, at(2, 1))], [Found::Nothing, Found::Pattern(0)]);
    assert_eq!([find(&rails, at(3, 0)), find(&rails, at(3, 1))], [Found::Pattern(1), Found::Nothing]);
    assert_eq!([find(&rails, pin_at(6, 2, 0)), find(&rails, pin_at(6, 2, 1))], [Found::Pattern(2), Found::Nothing]);
    for (line, pin) in [(2, 0), (3, 0), (2, 3), (3, 4), (3, usize::MAX)] {
        assert_eq!(find(&rails, pin_at(line, pin, 1)), Found::Refused(Refusal::Pin));
        assert_eq!(judge(&rails, 4, pin_at(line, pin, 1)), Judged::Refused(Refusal::Pin));
    }
    assert_eq!(five(&rails, 0, 0, at(2, 1), &mut row), Driven::Count(0));
    assert_eq!(row, [2, 2, 4, 1, 2, 2, 2, 2]);
    assert_eq!(five(&rails, 1, 1, at(3, 0), &mut row), Driven::Count(2));
    assert_eq!(row, [1, 2, 0, 3, 0, 3, 0, 3]);
}

#[test]
fn gates_become_ties_and_ties_gates() {
    let (mut t, mut entries, mut pin_entries) = (board("T"), [7; 6], [7; 24]);
    assert_eq!(alter(&mut t, &mut entries, &mut pin_entries, 2, TIE_1), Counted::Entries(1));
    assert_eq!((entries, pin_entries), ([NONE, NONE, NONE, NONE, 0, NONE], [NONE; 24]));
    assert_eq!(t[20..30], TIE_1);
    assert_eq!(alter(&mut t, &mut entries, &mut pin_entries, 2, TIE_0), Counted::Entries(1));
    assert_eq!(entries, [NONE, NONE, NONE, NONE, NONE, 0]);
    assert_eq!(alter(&mut t, &mut entries, &mut pin_entries, 2, OR_0_1), Counted::Entries(5));
    assert_eq!(entries, [NONE, NONE, 0, NONE, 0, NONE]);
    assert_eq!(pin_entries, pins(&[(9, 0), (16, 1), (18, 0)]));
    let old = t.clone();
    for (line, record) in [
        (0, TIE_0),
        (2, [9, 1, 0, 0, 0, 0, 0, 0, 0, 0]),
        (2, [10, 0, 0, 0, 0, 0, 0, 0, 1, 0]),
        (2, [11, 0, 0, 0, 0, 0, 0, 0, 0, 0]),
    ] {
        assert_eq!(alter(&mut t, &mut entries, &mut pin_entries, line, record), Counted::Refused(Refusal::Alteration));
    }
    assert_eq!((t, entries), (old, [NONE, NONE, 0, NONE, 0, NONE]));
}

#[test]
fn books_of_t_and_t_altered() {
    let (mut t, mut entries, mut pin_entries) = (board("T"), [7; 6], [7; 24]);
    assert_eq!(book(&t, &mut entries), Counted::Entries(2));
    assert_eq!(entries, [NONE, NONE, 0, NONE, 0, NONE]);
    assert_eq!(pin_book(&t, &mut pin_entries), Counted::Entries(3));
    assert_eq!(pin_entries, pins(&[(9, 0), (16, 1), (18, 0)]));
    assert_eq!(alter(&mut t, &mut entries, &mut pin_entries, 2, AND_0_1), Counted::Entries(5));
    assert_eq!(entries, [NONE, NONE, NONE, 1, NONE, 0]);
    assert_eq!(pin_entries, pins(&[(8, 1), (17, 0), (19, 1)]));
    assert_eq!(t[20..30], AND_0_1);
}

#[test]
fn a_pin_that_the_new_gate_lacks_becomes_none() {
    let (mut t, mut entries, mut pin_entries) = (board("T"), [7; 6], [7; 24]);
    assert_eq!(alter(&mut t, &mut entries, &mut pin_entries, 2, NOT_0), Counted::Entries(6));
    assert_eq!(entries, [1, 0, NONE, NONE, 0, 1]);
    assert_eq!(pin_entries, pins(&[(16, 1), (17, 0)]));
}

#[test]
fn h_altered_keeps_untouched_99s() {
    let (mut h, mut entries, mut pin_entries) = (board("H"), [7; 8], [7; 32]);
    assert_eq!(book(&h, &mut entries), Counted::Entries(8));
    assert_eq!(entries, [1, 0, 2, 0, 0, 1, 2, 0]);
    assert_eq!(pin_book(&h, &mut pin_entries), Counted::Entries(4));
    assert_eq!(pin_entries, pins(&[(16, 1), (17, 0), (24, 2), (25, 0)]));
    (entries[0], pin_entries[7], pin_entries[8]) = (99, 99, 99);
    assert_eq!(alter(&mut h, &mut entries, &mut pin_entries, 3, NOT_1), Counted::Entries(13));
    assert_eq!(entries, [99, 0, 2, 0, 0, 1, 0, 2]);
    assert_eq!(pin_entries, pins(&[(7, 99), (16, 1), (17, 0), (24, 2), (25, 0)]));
}

#[test]
fn bad_images_are_refused_by_their_number() {
    let changed = |at: usize, byte: u8| {
        let mut t = board("T");
        t[at] = byte;
        check(&t)
    };
    assert_eq!(check(&[]), Checked::Refused(Refusal::Mark));
    assert_eq!(changed(32, 0), Checked::Refused(Refusal::Counts));
    assert_eq!(changed(38, 1), Checked::Refused(Refusal::Distance));
    assert_eq!(changed(24, 2), Checked::Refused(Refusal::Record { line: 2, field: 3 }));
    assert_eq!(changed(20, 10), Checked::Refused(Refusal::Record { line: 2, field: 1 }));
    assert_eq!(changed(20, 11), Checked::Refused(Refusal::Record { line: 2, field: 0 }));
    assert_eq!(changed(0, 9), Checked::Refused(Refusal::Record { line: 0, field: 0 }));
    assert_eq!(changed(0, 3), Checked::Refused(Refusal::Record { line: 0, field: 0 }));
    assert_eq!(changed(30, 3), Checked::Refused(Refusal::Output(0)));
}

#[test]
fn bad_questions_are_refused_and_nothing_is_changed() {
    let t = board("T");
    let (mut good, mut faulty, mut row) = ([9; 3], [9; 3], [0, 2, 0]);
    for fault in [at(2, 0), pin_at(2, 1, 0)] {
        assert_eq!(rows(&t, 2, fault, &mut good, &mut faulty), Filled::Refused(Refusal::Pattern));
        assert_eq!(rows(&t, 1, fault, &mut good, &mut faulty[..2]), Filled::Refused(Refusal::Lent));
        assert_eq!(five(&t, 0, 1, fault, &mut row), Driven::Refused(Refusal::Pattern));
    }
    for (line, stuck, refusal) in [(3, 2, Refusal::Line), (usize::MAX, 0, Refusal::Line), (2, 2, Refusal::Stuck)] {
        for fault in [at(line, stuck), pin_at(line, usize::MAX, stuck)] {
            assert_eq!(find(&t, fault), Found::Refused(refusal));
            assert_eq!(judge(&t, 1, fault), Judged::Refused(refusal));
        }
    }
    assert_eq!(refresh(&t, 1, 2, &mut row), Filled::Refused(Refusal::Row));
    assert_eq!((good, faulty, row), ([9; 3], [9; 3], [0, 2, 0]));
}

#[test]
fn absent_pins_are_refused_and_nothing_is_changed() {
    let t = board("T");
    let (mut good, mut faulty, mut row) = ([9; 3], [9; 3], [9; 3]);
    for (line, pin) in [(0, 0), (1, 1), (2, 2), (2, 3), (2, 1 << 63), (2, usize::MAX)] {
        let fault = pin_at(line, pin, 1);
        assert_eq!(rows(&t, 2, fault, &mut good, &mut faulty), Filled::Refused(Refusal::Pin));
        assert_eq!(judge(&t, 2, fault), Judged::Refused(Refusal::Pin));
        assert_eq!(five(&t, 2, 2, fault, &mut row), Driven::Refused(Refusal::Pin));
        assert_eq!(find(&t, fault), Found::Refused(Refusal::Pin));
    }
    assert_eq!((good, faulty, row), ([9; 3], [9; 3], [9; 3]));
}

#[test]
fn bad_books_and_alterations_are_refused_and_nothing_is_changed() {
    let mut t = board("T");
    let (old, mut entries, mut pin_entries) = (t.clone(), [7; 24], [8; 25]);
    for (b, p) in [(6, 23), (6, 25), (6, 0), (6, 7), (0, 24), (5, 24), (7, 24), (24, 6)] {
        let (lines_lent, pins_lent) = (&mut entries[..b], &mut pin_entries[..p]);
        assert_eq!(alter(&mut t, lines_lent, pins_lent, 0, NOT_1), Counted::Refused(Refusal::Lent));
        assert_eq!(alter(&mut t, lines_lent, pins_lent, 3, NOT_1), Counted::Refused(Refusal::Line));
        assert!(b == 6 || book(&t, lines_lent) == Counted::Refused(Refusal::Lent));
        assert!(p == 24 || pin_book(&t, pins_lent) == Counted::Refused(Refusal::Lent));
    }
    let (lines_lent, pins_lent) = (&mut entries[..6], &mut pin_entries[..24]);
    assert_eq!(alter(&mut t, lines_lent, pins_lent, 0, NOT_1), Counted::Refused(Refusal::Alteration));
    assert_eq!((t, entries, pin_entries), (old, [7; 24], [8; 25]));
}

/// What was made, with 9s beyond it up to so many bytes.
fn with_nines(made: &[u8], length: usize) -> Vec<u8> {
    [made, &vec![9; length - made.len()][..]].concat()
}

#[test]
fn drawings_there_and_back_leave_the_target_beyond() {
    for (name, text_length, image_length) in [("S", 199, 134), ("T", 50, 44), ("H", 69, 56), ("rails", 148, 98)] {
        let (img, text) = (board(name), sample(&format!("{name}.txt")));
        for beyond in [0, 1, 300] {
            let (mut drawn, mut imaged) = (vec![9; text_length + beyond], vec![9; image_length + beyond]);
            assert_eq!(write(&img, &mut drawn), Made::Bytes(text_length));
            assert_eq!(read(&text, &mut imaged), Made::Bytes(image_length));
            assert_eq!(drawn, with_nines(&text, text_length + beyond));
            assert_eq!(imaged, with_nines(&img, image_length + beyond));
        }
    }
}

#[test]
fn a_note_is_not_drawn() {
    let (noted, mut drawn) = ([board("H"), board("T")].concat(), [9; 50]);
    assert_eq!(write(&noted, &mut drawn), Made::Bytes(50));
    assert_eq!(drawn[..], sample("T.txt"));
}

#[test]
fn bad_texts_are_refused_and_nothing_is_changed() {
    let mut target = [9; 64];
    for (text, refusal) in [
        ("", Refusal::Counts),
        ("INPUT(n1)\n", Refusal::Form(7)),
        ("INPUT(n0)", Refusal::Form(9)),
        ("OUTPUT(n65536)\n", Refusal::Form(12)),
        ("n0 = NO(n0)\n", Refusal::Form(7)),
        ("n0 = AND(n0, n0, n0, n0, n0)\n", Refusal::Form(23)),
        ("n0 = TIE2()\n", Refusal::Form(8)),
        ("n0 = TIE1(n0)\n", Refusal::Form(10)),
        ("n0 = TIE0()", Refusal::Form(11)),
        ("OUTPUT(n0)\nn0 = TIE0()\n", Refusal::Record { line: 0, field: 0 }),
        ("INPUT(n0)\nOUTPUT(n0)\nn1 = NOT(n0, n0)\n", Refusal::Record { line: 1, field: 1 }),
        ("INPUT(n0)\nOUTPUT(n0)\nn1 = AND(n0, n1)\n", Refusal::Record { line: 1, field: 3 }),
        ("INPUT(n0)\nOUTPUT(n0)\nOUTPUT(n0)\n", Refusal::Output(1)),
    ] {
        for length in [0, 64] {
            assert_eq!(read(text.as_bytes(), &mut target[..length]), Made::Refused(refusal));
        }
    }
    assert_eq!(target, [9; 64]);
}

#[test]
fn bad_targets_are_refused_last_and_nothing_is_changed() {
    let (s, mut target) = (board("S"), [9; 199]);
    for length in [0, 1, 133, 198] {
        assert_eq!(write(&s, &mut target[..length]), Made::Refused(Refusal::Target));
    }
    for length in [0, 1, 133] {
        assert_eq!(read(&sample("S.txt"), &mut target[..length]), Made::Refused(Refusal::Target));
        assert_eq!(write(&s[..133], &mut target[..length]), Made::Refused(Refusal::Mark));
        assert_eq!(write(&s[1..], &mut target[..length]), Made::Refused(Refusal::Distance));
    }
    assert_eq!(target, [9; 199]);
}

/// Inputs, then a chain of nots from input 0, whose last line is the output.
fn chain(lines: u16, inputs: u16) -> Vec<u8> {
    let record = |line: u16| {
        let pin = if line == inputs { 0 } else { line.wrapping_sub(1) }.to_le_bytes();
        if line < inputs {
            [0; 10]
        } else {
            [2, 1, pin[0], pin[1], 0, 0, 0, 0, 0, 0]
        }
    };
    let mut img: Vec<u8> = (0..lines).flat_map(record).collect();
    img.extend([(lines - 1).to_le_bytes(), lines.to_le_bytes(), 1u16.to_le_bytes()].concat());
    img.extend((14 + 10 * u32::from(lines)).to_le_bytes());
    img.extend(*b"BRD1");
    img
}

#[test]
fn boards_of_4096_lines_and_32_inputs_are_the_largest() {
    assert_eq!(check(&chain(4096, 32)), Checked::Good(Counts { lines: 4096, inputs: 32, outputs: 1 }));
    assert_eq!(check(&chain(4097, 32)), Checked::Refused(Refusal::Counts));
    assert_eq!(check(&chain(4096, 33)), Checked::Refused(Refusal::Record { line: 32, field: 0 }));
}

#[test]
fn patterns_have_32_bits() {
    let (img, mut row) = (chain(4096, 32), vec![9; 4096]);
    assert_eq!(judge(&img, 0xFFFF_FFFF, at(32, 1)), Judged::Yes);
    assert_eq!(judge(&img, 1 << 32, at(32, 1)), Judged::Refused(Refusal::Pattern));
    assert_eq!(five(&img, 1 << 32, 0, at(32, 1), &mut row), Driven::Refused(Refusal::Pattern));
    assert_eq!(five(&img, 0xFFFF_FFFF, 0xFFFF_FFFE, at(32, 0), &mut row), Driven::Count(1));
    assert_eq!(find(&img, at(4095, 0)), Found::Pattern(1));
    assert_eq!(find(&img, pin_at(4095, 0, 0)), Found::Pattern(0));
}

#[test]
fn an_entry_is_none_at_64_bits_alone() {
    let (mut h, mut entries, mut pin_entries) = (board("H"), [4_294_967_295; 8], [NONE; 32]);
    assert_eq!(alter(&mut h, &mut entries, &mut pin_entries, 3, NOT_1), Counted::Entries(10));
    assert_eq!(entries, [4_294_967_295, 4_294_967_295, 2, 0, 4_294_967_295, 4_294_967_295, 0, 2]);
}
