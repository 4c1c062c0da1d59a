//! The library's exports as C sees them: a slice is a pointer and then a count of elements.
//!
//! The proofs don't reach past this boundary: nothing but the tests holds these declarations
//! against the library's own source.

use crate::raw::{FieldRead, Reading, Written};

extern "C" {
    pub fn qs_decode(raw: *const u8, raw_len: usize, out: *mut u8, out_len: usize) -> i64;
    pub fn qs_utf8(bytes: *const u8, bytes_len: usize) -> i32;
    pub fn qs_parse(
        depth: u32,
        form: u32,
        zeros: u32,
        input: *const u8,
        input_len: usize,
        records: *mut u32,
        records_len: usize,
        text: *mut u8,
        text_len: usize,
    ) -> Reading;
    pub fn qs_text(
        depth: u32,
        form: u32,
        zeros: u32,
        duplicates: u32,
        input: *const u8,
        input_len: usize,
        name: *const u8,
        name_len: usize,
        records: *mut u32,
        records_len: usize,
        text: *mut u8,
        text_len: usize,
    ) -> FieldRead;
    pub fn qs_list(
        depth: u32,
        form: u32,
        zeros: u32,
        duplicates: u32,
        input: *const u8,
        input_len: usize,
        name: *const u8,
        name_len: usize,
        records: *mut u32,
        records_len: usize,
        text: *mut u8,
        text_len: usize,
        list: *mut u32,
        list_len: usize,
    ) -> FieldRead;
    pub fn qs_fields(
        depth: u32,
        form: u32,
        zeros: u32,
        duplicates: u32,
        input: *const u8,
        input_len: usize,
        names: *const u8,
        names_len: usize,
        ends: *const u32,
        ends_len: usize,
        records: *mut u32,
        records_len: usize,
        text: *mut u8,
        text_len: usize,
        answers: *mut u32,
        answers_len: usize,
    ) -> Reading;
    pub fn qs_sheet(
        depth: u32,
        form: u32,
        zeros: u32,
        input: *const u8,
        input_len: usize,
        records: *mut u32,
        records_len: usize,
        text: *mut u8,
        text_len: usize,
        page: *mut u8,
        page_len: usize,
    ) -> Reading;
    pub fn qs_write(
        depth: u32,
        form: u32,
        zeros: u32,
        input: *const u8,
        input_len: usize,
        records: *mut u32,
        records_len: usize,
        text: *mut u8,
        text_len: usize,
        out: *mut u8,
        out_len: usize,
    ) -> Written;
}
