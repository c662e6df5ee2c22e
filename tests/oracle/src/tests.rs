//! Tests, and the boards they use.

mod console;
mod drawing;
mod exhaustion;
mod pins;
mod refusals;
mod sheet;
mod ties;

use crate::image::RECORD;

/// Short names for the kinds.
pub const INPUT: u8 = 0;
pub const BUFFER: u8 = 1;
pub const NOT: u8 = 2;
pub const AND: u8 = 3;
pub const OR: u8 = 5;
pub const NOR: u8 = 6;
pub const XOR: u8 = 7;
pub const XNOR: u8 = 8;
pub const TIE0: u8 = 9;
pub const TIE1: u8 = 10;

// Gives the 10 bytes of a record of this kind with these pins.
pub fn record(kind: u8, pins: &[u16]) -> [u8; RECORD] {
    let mut bytes = [0; RECORD];
    bytes[0] = kind;
    bytes[1] = pins.len() as u8;
    for (i, pin) in pins.iter().enumerate() {
        bytes[2 + 2 * i..4 + 2 * i].copy_from_slice(&pin.to_le_bytes());
    }
    bytes
}

// Gives an image: a note of this length, these records, these outputs and a right trailer.
pub fn image(note: usize, records: &[[u8; RECORD]], outputs: &[u16]) -> Vec<u8> {
    let mut image = vec![0xA5; note];
    image.extend(records.iter().flatten());
    for output in outputs {
        image.extend(output.to_le_bytes());
    }
    let distance = 12 + 2 * outputs.len() + 10 * records.len();
    image.extend((records.len() as u16).to_le_bytes());
    image.extend((outputs.len() as u16).to_le_bytes());
    image.extend((distance as u32).to_le_bytes());
    image.extend([0x42, 0x52, 0x44, 0x31]);
    image
}

// Gives board T as the papers write it, byte by byte.
pub fn board_t() -> Vec<u8> {
    vec![
        0, 0, 0, 0, 0, 0, 0, 0, 0, 0, //
        2, 1, 0, 0, 0, 0, 0, 0, 0, 0, //
        5, 2, 0, 0, 1, 0, 0, 0, 0, 0, //
        2, 0, //
        3, 0, 1, 0, 0x2C, 0, 0, 0, 0x42, 0x52, 0x44, 0x31,
    ]
}

// Gives board S: four inputs, eight nor gates, output 11.
pub fn board_s() -> Vec<u8> {
    let mut records = vec![record(INPUT, &[]); 4];
    let gates: [&[u16]; 8] = [&[1, 2], &[4, 0], &[4, 3], &[0, 2], &[7, 1], &[1, 3], &[9, 2], &[5, 6, 8, 10]];
    records.extend(gates.iter().map(|pins| record(NOR, pins)));
    image(0, &records, &[11])
}

// Gives board H: two inputs, not(0), buffer(1), both outputs.
pub fn board_h() -> Vec<u8> {
    let records = [record(INPUT, &[]), record(INPUT, &[]), record(NOT, &[0]), record(BUFFER, &[1])];
    image(0, &records, &[2, 3])
}

// Gives a good image with this many lines: one input and a chain of buffers.
pub fn chain(lines: usize) -> Vec<u8> {
    let buffers = (1..lines).map(|line| record(BUFFER, &[line as u16 - 1]));
    let records: Vec<_> = std::iter::once(record(INPUT, &[])).chain(buffers).collect();
    image(0, &records, &[lines as u16 - 1])
}

// Gives an image with this many inputs and one buffer after them.
pub fn wide(inputs: usize) -> Vec<u8> {
    let mut records = vec![record(INPUT, &[]); inputs];
    records.push(record(BUFFER, &[0]));
    image(0, &records, &[inputs as u16])
}
