//! The archive's functions as C sees them: what stands here must say the same
//! as `include/vdv.h` and as the exported functions of `crates/vdv`, for no
//! tool compares them.

use crate::{Refusal, Row};

#[repr(C)]
#[derive(Clone, Copy)]
pub struct HeaderAnswer {
    pub refusal: Refusal,
    pub source_from: usize,
    pub source_to: usize,
    pub year: u64,
    pub month: u64,
    pub day: u64,
    pub hour: u64,
    pub minute: u64,
    pub second: u64,
    pub latin: bool,
    pub ver_from: usize,
    pub ver_to: usize,
    pub ifv_from: usize,
    pub ifv_to: usize,
    pub dve: bool,
    pub dve_from: usize,
    pub dve_to: usize,
    pub fft: bool,
    pub fft_from: usize,
    pub fft_to: usize,
}

#[repr(C)]
#[derive(Clone, Copy)]
pub struct RowAnswer {
    pub refusal: Refusal,
    pub row: Row,
}

#[repr(C)]
#[derive(Clone, Copy)]
pub struct ValueAnswer {
    pub refusal: Refusal,
    pub kind: u32,
    pub amount: u64,
    pub from: usize,
    pub to: usize,
}

#[repr(C)]
#[derive(Clone, Copy)]
pub struct LengthAnswer {
    pub refusal: Refusal,
    pub length: usize,
}

#[repr(C)]
#[derive(Clone, Copy)]
pub struct TextAnswer {
    pub refusal: Refusal,
    pub length: usize,
    pub owner: u32,
}

extern "C" {
    pub fn vdv_check(file: *const u8, length: usize) -> Refusal;
    pub fn vdv_header(file: *const u8, length: usize) -> HeaderAnswer;
    pub fn vdv_section(file: *const u8, length: usize, section: usize) -> RowAnswer;
    pub fn vdv_list(file: *const u8, length: usize, rows: *mut Row, room: usize) -> Refusal;
    pub fn vdv_value(
        file: *const u8,
        length: usize,
        section: usize,
        record: usize,
        field: usize,
    ) -> ValueAnswer;
    pub fn vdv_text(
        file: *const u8,
        length: usize,
        section: usize,
        record: usize,
        field: usize,
        out: *mut u8,
        room: usize,
    ) -> TextAnswer;
    pub fn vdv_table(
        file: *const u8,
        length: usize,
        section: usize,
        cells: *mut u64,
        room: usize,
    ) -> LengthAnswer;
    pub fn vdv_write(file: *const u8, length: usize, out: *mut u8, room: usize) -> LengthAnswer;
    pub fn vdv_fill(
        file: *const u8,
        length: usize,
        section: usize,
        record: usize,
        field: usize,
        text: *const u8,
        size: usize,
        out: *mut u8,
        room: usize,
    ) -> LengthAnswer;
    pub fn vdv_strip(file: *const u8, length: usize, out: *mut u8, room: usize) -> LengthAnswer;
}

#[cfg(test)]
mod tests {
    use super::*;
    use std::mem::{offset_of, size_of};

    #[test]
    fn the_layout_of_the_c_header() {
        assert_eq!(size_of::<Refusal>(), 24);
        assert_eq!(offset_of!(Refusal, section), 8);
        assert_eq!(offset_of!(Refusal, line), 16);
        assert_eq!(size_of::<Row>(), 48);
        assert_eq!(offset_of!(Row, verdict), 32);
        assert_eq!(size_of::<HeaderAnswer>(), 176);
        assert_eq!(offset_of!(HeaderAnswer, latin), 88);
        assert_eq!(offset_of!(HeaderAnswer, dve), 128);
        assert_eq!(offset_of!(HeaderAnswer, fft), 152);
        assert_eq!(size_of::<RowAnswer>(), 72);
        assert_eq!(offset_of!(RowAnswer, row), 24);
        assert_eq!(size_of::<LengthAnswer>(), 32);
        assert_eq!(size_of::<TextAnswer>(), 40);
        assert_eq!(offset_of!(TextAnswer, owner), 32);
        assert_eq!(size_of::<ValueAnswer>(), 56);
        assert_eq!(offset_of!(ValueAnswer, amount), 32);
    }
}
