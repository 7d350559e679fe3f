//! Stands in for the crate sha2, which cannot be fetched here. misc.rs names it in hash_movable, which nothing that
//! is compared calls: it panics rather than give a wrong hash.

#[derive(Default)]
pub struct Sha256 {}

impl Sha256 {
    #[must_use]
    pub fn new() -> Sha256 {
        panic!("hash_movable is no part of the comparison: its sha2 is a stand-in")
    }

    pub fn update(&mut self, _part: impl AsRef<[u8]>) {}

    pub fn finalize(self) -> [u8; 32] {
        [0; 32]
    }
}
