//! The port and the paper's model on the same image: each call made on both and everything compared.

use crate::same::{self, Verdict};
use cases::paper::{self, Answer, Mapping};
use cases::rng::Rng;

/// Bytes with a margin on both sides that nobody may store to.
pub struct Guarded(Vec<u8>);

const MARGIN: usize = 64;
const UNTOUCHED: u8 = 0xA5;

impl Guarded {
    pub fn new(bytes: &[u8]) -> Guarded {
        let mut all = Vec::with_capacity(bytes.len() + 2 * MARGIN);
        all.resize(MARGIN, UNTOUCHED);
        all.extend_from_slice(bytes);
        all.resize(bytes.len() + 2 * MARGIN, UNTOUCHED);
        Guarded(all)
    }

    pub fn bytes(&self) -> &[u8] {
        &self.0[MARGIN..self.0.len() - MARGIN]
    }

    pub fn bytes_mut(&mut self) -> &mut [u8] {
        let end = self.0.len() - MARGIN;
        &mut self.0[MARGIN..end]
    }

    fn intact(&self, what: &str) -> Verdict {
        let (low, rest) = self.0.split_at(MARGIN);
        let high = &rest[rest.len() - MARGIN..];
        if low.iter().chain(high).all(|byte| *byte == UNTOUCHED) {
            Ok(())
        } else {
            Err(format!("the port stored outside of {what}"))
        }
    }
}

pub struct Pair {
    port: Guarded,
    paper: Vec<u8>,
}

impl Pair {
    pub fn new(image: &[u8]) -> Pair {
        Pair { port: Guarded::new(image), paper: image.to_vec() }
    }

    /// What both hold.
    pub fn image(&self) -> &[u8] {
        &self.paper
    }

    fn same_images(&self) -> Verdict {
        self.port.intact("the image")?;
        same::bytes("image", "the port", self.port.bytes(), "the paper", &self.paper)
    }

    pub fn format(&mut self) -> Result<Answer, String> {
        let got = port::format(self.port.bytes_mut());
        let answer = paper::format(&mut self.paper);
        same::answer(got, answer)?;
        self.same_images()?;
        Ok(answer)
    }

    /// Open: it stores nothing.
    pub fn open(&mut self) -> Result<(Answer, Mapping), String> {
        let got = port::open(self.port.bytes_mut());
        let (answer, m) = paper::open(&self.paper);
        same::answer(got.answer, answer)?;
        same::mapping("the port", &same::of_port(&got.mapping), "the paper", &m)?;
        same::save_len(&m)?;
        self.same_images()?;
        Ok((answer, m))
    }

    /// Read of n bytes, on the first `image_len` bytes of the image. The buffer starts as junk, which a refusal keeps.
    pub fn read(
        &mut self,
        rng: &mut Rng,
        image_len: usize,
        m: &Mapping,
        place: usize,
        n: usize,
    ) -> Result<(Answer, Vec<u8>), String> {
        let mut buffer = vec![0; n];
        rng.fill(&mut buffer);
        let mut theirs = Guarded::new(&buffer);
        let got = port::read(&mut self.port.bytes_mut()[..image_len], same::to_port(m), place, theirs.bytes_mut());
        let answer = paper::read(&self.paper[..image_len], m, place, &mut buffer);
        same::answer(got.answer, answer)?;
        same::mapping("the port", &same::of_port(&got.mapping), "the paper", m)?;
        theirs.intact("the buffer")?;
        same::bytes("buffer", "the port", theirs.bytes(), "the paper", &buffer)?;
        self.same_images()?;
        Ok((answer, buffer))
    }

    pub fn write(&mut self, image_len: usize, m: &mut Mapping, place: usize, bytes: &[u8]) -> Result<Answer, String> {
        let got = port::write(&mut self.port.bytes_mut()[..image_len], same::to_port(m), place, bytes);
        let answer = paper::write(&mut self.paper[..image_len], m, place, bytes);
        same::answer(got.answer, answer)?;
        same::mapping("the port", &same::of_port(&got.mapping), "the paper", m)?;
        self.same_images()?;
        Ok(answer)
    }

    pub fn commit(&mut self, image_len: usize, m: &mut Mapping) -> Result<Answer, String> {
        let got = port::commit(&mut self.port.bytes_mut()[..image_len], same::to_port(m));
        let answer = paper::commit(&mut self.paper[..image_len], m);
        same::answer(got.answer, answer)?;
        same::mapping("the port", &same::of_port(&got.mapping), "the paper", m)?;
        self.same_images()?;
        Ok(answer)
    }
}
