//! The functions of the archive, as include/dayunglipo.h declares them.

use crate::types::{Fields, Reading, Valued, Words};

extern "C" {
    pub fn dayunglipo_read(bytes: *const u8, length: usize) -> Reading;
    pub fn dayunglipo_write(g: Fields, out: *mut u8, room: usize) -> u32;
    pub fn dayunglipo_outputs(g: Fields, t: usize, state: Words, out: *mut u32, room: usize)
        -> u32;
    pub fn dayunglipo_value(y: u64, l: u32) -> Valued;
    pub fn dayunglipo_question(
        g: Fields,
        t: usize,
        l: usize,
        work: *mut u64,
        room: usize,
    ) -> crate::Reply;
    pub fn dayunglipo_basis_check(g: Fields, t: usize, l: usize, room: usize) -> u32;
    pub fn dayunglipo_basis(
        g: Fields,
        t: usize,
        l: usize,
        work: *mut u64,
        room: usize,
    ) -> crate::basis::BasisReply;
    pub fn dayunglipo_report(g: Fields, work: *mut u64, room: usize) -> crate::Report;
    pub fn dayunglipo_listing(
        bytes: *const u8,
        length: usize,
        text: *mut u8,
        room: usize,
    ) -> usize;
}
