//! The Rust original, built unchanged from the folder that ORACLE_SRC names, with a thin face: an image in memory,
//! the four classes of answer, and the whole mapping.

include!(concat!(env!("OUT_DIR"), "/original.rs"));

mod quiet;

use error::Error;
use random_access_file::RandomAccessFile;
use std::cell::{Ref, RefCell};
use std::rc::Rc;
use wear_leveling::WearLeveling;

pub use quiet::overflow_panics;
pub use wear_leveling::crc16_ninty;
pub use wear_leveling::peek::Block;

/// Why the original did not do what it was asked.
#[derive(Clone, Copy, Debug, PartialEq, Eq)]
pub enum Failure {
    SizeMismatch,
    SignatureMismatch,
    InvalidValue,
    /// OutOfBound: no call of the domain gives it.
    OutOfBound,
    /// Any other of the original's errors: no call gives it.
    Other,
    Panicked,
}

impl From<Error> for Failure {
    fn from(error: Error) -> Failure {
        match error {
            Error::SizeMismatch => Failure::SizeMismatch,
            Error::SignatureMismatch => Failure::SignatureMismatch,
            Error::InvalidValue => Failure::InvalidValue,
            Error::OutOfBound => Failure::OutOfBound,
            _ => Failure::Other,
        }
    }
}

/// The original's MemoryFile, but its bytes can be looked at without a copy.
struct Bytes(RefCell<Vec<u8>>);

impl RandomAccessFile for Bytes {
    fn read(&self, pos: usize, buf: &mut [u8]) -> Result<(), Error> {
        let data = self.0.borrow();
        if pos + buf.len() > data.len() {
            return Err(Error::OutOfBound);
        }
        buf.copy_from_slice(&data[pos..pos + buf.len()]);
        Ok(())
    }

    fn write(&self, pos: usize, buf: &[u8]) -> Result<(), Error> {
        let mut data = self.0.borrow_mut();
        if pos + buf.len() > data.len() {
            return Err(Error::OutOfBound);
        }
        data[pos..pos + buf.len()].copy_from_slice(buf);
        Ok(())
    }

    fn len(&self) -> usize {
        self.0.borrow().len()
    }

    fn commit(&self) -> Result<(), Error> {
        Ok(())
    }
}

/// An image in memory, lent to the original.
#[derive(Clone)]
pub struct Image(Rc<Bytes>);

impl Image {
    /// A copy of these bytes.
    pub fn new(bytes: &[u8]) -> Image {
        Image(Rc::new(Bytes(RefCell::new(bytes.to_vec()))))
    }

    pub fn bytes(&self) -> Ref<'_, [u8]> {
        Ref::map(self.0 .0.borrow(), Vec::as_slice)
    }

    pub fn format(&self) -> Result<(), Failure> {
        quiet::guarded(|| WearLeveling::format(self.0.clone()))
    }

    pub fn open(&self) -> Result<Opened, Failure> {
        quiet::guarded(|| WearLeveling::new(self.0.clone())).map(Opened)
    }
}

/// An image that the original has opened. It goes on storing in the image that it came from.
pub struct Opened(WearLeveling);

impl Opened {
    pub fn read(&self, place: usize, buf: &mut [u8]) -> Result<(), Failure> {
        quiet::guarded(|| self.0.read(place, buf))
    }

    pub fn write(&self, place: usize, bytes: &[u8]) -> Result<(), Failure> {
        quiet::guarded(|| self.0.write(place, bytes))
    }

    pub fn commit(&self) -> Result<(), Failure> {
        quiet::guarded(|| self.0.commit())
    }

    /// The save's bytes, as the original's own `len` has them.
    pub fn save_len(&self) -> usize {
        self.0.len()
    }

    /// The whole mapping, going up.
    pub fn blocks(&self) -> Vec<Block> {
        wear_leveling::peek::blocks(&self.0)
    }
}
