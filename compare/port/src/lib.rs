//! The port through its boundary to C: the declarations of include/ladlewillow.h, and a thin safe cover.
//!
//! Images are taken as `&mut` throughout, so that a library that stores where it must not is seen by the comparison,
//! and is no breach of Rust's own rules on our side.

use std::mem::{offset_of, size_of};

/// lw_block
#[repr(C)]
#[derive(Clone, Copy, Debug, PartialEq, Eq)]
pub struct Block {
    pub physical: u8,
    pub count: u8,
    /// 0 free, 1 clean, 2 changed.
    pub condition: u8,
}

/// lw_mapping
#[repr(C)]
#[derive(Clone, Copy, Debug, PartialEq, Eq)]
pub struct Mapping {
    pub len: usize,
    pub blocks: [Block; 256],
    pub tickets: [u8; 2048],
}

/// lw_answer
#[repr(C)]
#[derive(Clone, Copy, Debug, PartialEq, Eq)]
pub struct Answer {
    pub number: u8,
    pub place: usize,
}

/// lw_outcome
#[repr(C)]
#[derive(Clone, Copy, Debug, PartialEq, Eq)]
pub struct Outcome {
    pub answer: Answer,
    pub mapping: Mapping,
}

// The layout that the header promises: nothing checks a C declaration against its source.
const _: () = {
    assert!(size_of::<usize>() == 8);
    assert!(size_of::<Block>() == 3);
    assert!(offset_of!(Block, physical) == 0 && offset_of!(Block, count) == 1 && offset_of!(Block, condition) == 2);
    assert!(size_of::<Mapping>() == 2824);
    assert!(offset_of!(Mapping, len) == 0);
    assert!(offset_of!(Mapping, blocks) == 8 && offset_of!(Mapping, tickets) == 776);
    assert!(size_of::<Answer>() == 16);
    assert!(offset_of!(Answer, number) == 0 && offset_of!(Answer, place) == 8);
    assert!(size_of::<Outcome>() == 2840);
    assert!(offset_of!(Outcome, answer) == 0 && offset_of!(Outcome, mapping) == 16);
};

extern "C" {
    fn lw_crc16(bytes: *const u8, n: usize) -> u16;
    fn lw_format(image: *mut u8, n: usize) -> Answer;
    fn lw_open(image: *const u8, n: usize) -> Outcome;
    fn lw_len(m: Mapping) -> usize;
    fn lw_read(image: *const u8, n: usize, m: Mapping, place: usize, buf: *mut u8, count: usize) -> Outcome;
    fn lw_write(image: *mut u8, n: usize, m: Mapping, place: usize, bytes: *const u8, count: usize) -> Outcome;
    fn lw_commit(image: *mut u8, n: usize, m: Mapping) -> Outcome;
}

// SAFETY, for each call below: the pointers and lengths are those of slices that live through the call. The two slices
// of a read or a write do not overlap, by Rust's rules, and the library keeps no pointer.

pub fn crc16(bytes: &[u8]) -> u16 {
    unsafe { lw_crc16(bytes.as_ptr(), bytes.len()) }
}

pub fn format(image: &mut [u8]) -> Answer {
    unsafe { lw_format(image.as_mut_ptr(), image.len()) }
}

pub fn open(image: &mut [u8]) -> Outcome {
    unsafe { lw_open(image.as_mut_ptr(), image.len()) }
}

pub fn len(m: Mapping) -> usize {
    unsafe { lw_len(m) }
}

pub fn read(image: &mut [u8], m: Mapping, place: usize, buf: &mut [u8]) -> Outcome {
    unsafe { lw_read(image.as_mut_ptr(), image.len(), m, place, buf.as_mut_ptr(), buf.len()) }
}

pub fn write(image: &mut [u8], m: Mapping, place: usize, bytes: &[u8]) -> Outcome {
    unsafe { lw_write(image.as_mut_ptr(), image.len(), m, place, bytes.as_ptr(), bytes.len()) }
}

pub fn commit(image: &mut [u8], m: Mapping) -> Outcome {
    unsafe { lw_commit(image.as_mut_ptr(), image.len(), m) }
}
