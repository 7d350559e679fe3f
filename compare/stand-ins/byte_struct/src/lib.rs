//! Stands in for the crate byte_struct, which cannot be fetched here. It has what byte_struct_common.rs and
//! random_access_file.rs use: the two traits, and fields of low byte first.

pub use byte_struct_derive::ByteStruct;

/// How many bytes a struct takes.
pub trait ByteStructLen {
    const BYTE_LEN: usize;
}

/// A struct that is stored as its fields, one after the other.
pub trait ByteStruct: ByteStructLen {
    fn write_bytes(&self, bytes: &mut [u8]);
    fn read_bytes(bytes: &[u8]) -> Self;
}

/// A field that is stored with its low byte first: what the derived code calls.
pub trait LeField: Sized {
    const LEN: usize;
    fn put(&self, to: &mut [u8]);
    fn get(from: &[u8]) -> Self;
}

impl LeField for u16 {
    const LEN: usize = 2;
    fn put(&self, to: &mut [u8]) {
        to.copy_from_slice(&self.to_le_bytes());
    }
    fn get(from: &[u8]) -> u16 {
        u16::from_le_bytes([from[0], from[1]])
    }
}

impl LeField for u32 {
    const LEN: usize = 4;
    fn put(&self, to: &mut [u8]) {
        to.copy_from_slice(&self.to_le_bytes());
    }
    fn get(from: &[u8]) -> u32 {
        u32::from_le_bytes([from[0], from[1], from[2], from[3]])
    }
}

impl<const N: usize> LeField for [u8; N] {
    const LEN: usize = N;
    fn put(&self, to: &mut [u8]) {
        to.copy_from_slice(self);
    }
    fn get(from: &[u8]) -> [u8; N] {
        let mut field = [0; N];
        field.copy_from_slice(from);
        field
    }
}
