//! The archive's functions, as bindings/c/fortizembo.h has them.

/// An answer in numbers: 0 or a refusal's number, how many values are returned beside it, and these.
#[repr(C)]
#[derive(Clone, Copy)]
pub struct Answer {
    pub number: u64,
    pub values: u64,
    pub first: u64,
    pub second: u64,
    pub third: u64,
}

/// A fault in numbers: its sort is 0 for a line's, which has no use for the pin, and another number for a pin's.
#[repr(C)]
#[derive(Clone, Copy)]
pub struct FaultNumbers {
    pub line: usize,
    pub pin: usize,
    pub sort: u8,
    pub stuck: u8,
}

extern "C" {
    pub fn fortizembo_check(img: *const u8, len: usize) -> Answer;
    pub fn fortizembo_rows(
        img: *const u8,
        len: usize,
        pattern: u64,
        fault: FaultNumbers,
        good: *mut u8,
        good_len: usize,
        faulty: *mut u8,
        faulty_len: usize,
    ) -> Answer;
    pub fn fortizembo_judge(img: *const u8, len: usize, pattern: u64, fault: FaultNumbers) -> Answer;
    pub fn fortizembo_refresh(
        img: *const u8,
        len: usize,
        pattern: u64,
        line: usize,
        row: *mut u8,
        row_len: usize,
    ) -> Answer;
    pub fn fortizembo_show(
        good: *const u8,
        good_len: usize,
        faulty: *const u8,
        faulty_len: usize,
        wants_faulty: u8,
        start: usize,
    ) -> Answer;
    pub fn fortizembo_five(
        img: *const u8,
        len: usize,
        named: u64,
        values: u64,
        fault: FaultNumbers,
        row: *mut u8,
        row_len: usize,
    ) -> Answer;
    pub fn fortizembo_find(img: *const u8, len: usize, fault: FaultNumbers) -> Answer;
    pub fn fortizembo_book(img: *const u8, len: usize, book: *mut u64, entries: usize) -> Answer;
    pub fn fortizembo_pin_book(img: *const u8, len: usize, book: *mut u64, entries: usize) -> Answer;
    pub fn fortizembo_alter(
        img: *mut u8,
        len: usize,
        book: *mut u64,
        entries: usize,
        pins: *mut u64,
        pin_entries: usize,
        line: usize,
        record: *const u8,
    ) -> Answer;
    pub fn fortizembo_read(text: *const u8, len: usize, target: *mut u8, target_len: usize) -> Answer;
    pub fn fortizembo_write(img: *const u8, len: usize, target: *mut u8, target_len: usize) -> Answer;
}
