//! The border to the static library: the only unsafe code. Every length that crosses is that of the slice beside it, and every function
//! of the library answers on all inputs, so that nothing has to be tested here first.

use std::mem::size_of;

use crate::runs::{Row, Run, Second};

/// How many numbers a record has; lindenscoop.h names them in order.
pub const RECORD_NUMBERS: usize = 29;
pub type FlatRecord = [u32; RECORD_NUMBERS];

/// How many bytes a listener's state has.
pub const STATE_BYTES: usize = 70;
pub type State = [u8; STATE_BYTES];

/// What `feed` and `feed_all` answer for a record handed out.
pub const HANDED_OUT: u32 = 100;

/// A record by value, and the answer to it.
#[repr(C)]
struct RecordNumbers {
    numbers: FlatRecord,
}

#[repr(C)]
struct AddedNumbers {
    answer: u32,
    used: u32,
}

/// The library counts the rows of a table in these bytes.
const _: () =
    assert!(size_of::<Second>() == 24 && size_of::<Run>() == 52 && size_of::<Row>() == 56);

extern "C" {
    fn lindenscoop_read_numbers(
        form: u32,
        input: *const u8,
        input_length: usize,
        numbers: *mut u32,
        numbers_length: usize,
    ) -> u32;
    fn lindenscoop_write_numbers(
        form: u32,
        numbers: *const u32,
        numbers_length: usize,
        out: *mut u8,
        out_length: usize,
        written: *mut usize,
    ) -> u32;
    fn lindenscoop_search_numbers(
        form: u32,
        bytes: *const u8,
        bytes_length: usize,
        start: usize,
        place: *mut usize,
        numbers: *mut u32,
        numbers_length: usize,
    ) -> u32;
    fn lindenscoop_start_raw(form: u32, state: *mut u8, state_length: usize) -> u32;
    fn lindenscoop_feed_numbers(
        state: *mut u8,
        state_length: usize,
        byte: u8,
        numbers: *mut u32,
        numbers_length: usize,
    ) -> u32;
    fn lindenscoop_feed_all_numbers(
        state: *mut u8,
        state_length: usize,
        bytes: *const u8,
        bytes_length: usize,
        used: *mut usize,
        numbers: *mut u32,
        numbers_length: usize,
    ) -> u32;
    fn lindenscoop_mark_raw(
        form: u32,
        bytes: *const u8,
        bytes_length: usize,
        marks: *mut u8,
        marks_length: usize,
    ) -> u32;
    fn lindenscoop_full_year_raw(yy: u32, year: *mut u32) -> u32;
    fn lindenscoop_days_since_1980_raw(yy: u32, month: u32, day: u32, days: *mut u32) -> u32;
    fn lindenscoop_add_rack_second_numbers(
        rows: *mut Row,
        rows_length: usize,
        used: u32,
        rack: u32,
        record: RecordNumbers,
    ) -> AddedNumbers;
}

pub fn read(form: u32, input: &[u8]) -> (u32, FlatRecord) {
    let mut numbers = [0; RECORD_NUMBERS];
    let number = unsafe {
        lindenscoop_read_numbers(
            form,
            input.as_ptr(),
            input.len(),
            numbers.as_mut_ptr(),
            RECORD_NUMBERS,
        )
    };
    (number, numbers)
}

pub fn write(form: u32, numbers: &FlatRecord, out: &mut [u8]) -> (u32, usize) {
    let mut written = 0;
    let number = unsafe {
        lindenscoop_write_numbers(
            form,
            numbers.as_ptr(),
            RECORD_NUMBERS,
            out.as_mut_ptr(),
            out.len(),
            &mut written,
        )
    };
    (number, written)
}

pub fn search(form: u32, bytes: &[u8], start: usize) -> (u32, usize, FlatRecord) {
    let (mut place, mut numbers) = (0, [0; RECORD_NUMBERS]);
    let number = unsafe {
        lindenscoop_search_numbers(
            form,
            bytes.as_ptr(),
            bytes.len(),
            start,
            &mut place,
            numbers.as_mut_ptr(),
            RECORD_NUMBERS,
        )
    };
    (number, place, numbers)
}

pub fn start(form: u32, state: &mut State) -> u32 {
    unsafe { lindenscoop_start_raw(form, state.as_mut_ptr(), STATE_BYTES) }
}

pub fn feed(state: &mut State, byte: u8) -> (u32, FlatRecord) {
    let mut numbers = [0; RECORD_NUMBERS];
    let number = unsafe {
        lindenscoop_feed_numbers(
            state.as_mut_ptr(),
            STATE_BYTES,
            byte,
            numbers.as_mut_ptr(),
            RECORD_NUMBERS,
        )
    };
    (number, numbers)
}

pub fn feed_all(state: &mut State, bytes: &[u8]) -> (u32, usize, FlatRecord) {
    let (mut used, mut numbers) = (0, [0; RECORD_NUMBERS]);
    let number = unsafe {
        lindenscoop_feed_all_numbers(
            state.as_mut_ptr(),
            STATE_BYTES,
            bytes.as_ptr(),
            bytes.len(),
            &mut used,
            numbers.as_mut_ptr(),
            RECORD_NUMBERS,
        )
    };
    (number, used, numbers)
}

pub fn mark(form: u32, bytes: &[u8], marks: &mut [u8]) -> u32 {
    unsafe {
        lindenscoop_mark_raw(
            form,
            bytes.as_ptr(),
            bytes.len(),
            marks.as_mut_ptr(),
            marks.len(),
        )
    }
}

pub fn full_year(yy: u32) -> (u32, u32) {
    let mut year = 0;
    let number = unsafe { lindenscoop_full_year_raw(yy, &mut year) };
    (number, year)
}

pub fn days_since_1980(yy: u32, month: u32, day: u32) -> (u32, u32) {
    let mut days = 0;
    let number = unsafe { lindenscoop_days_since_1980_raw(yy, month, day, &mut days) };
    (number, days)
}

/// The answer, and the number of rows in use afterwards.
pub fn add_second(rows: &mut [Row], used: u32, rack: u32, numbers: FlatRecord) -> (u32, u32) {
    let record = RecordNumbers { numbers };
    let added = unsafe {
        lindenscoop_add_rack_second_numbers(rows.as_mut_ptr(), rows.len(), used, rack, record)
    };
    (added.answer, added.used)
}
