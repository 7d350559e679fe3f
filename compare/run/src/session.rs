//! An accepted open on all three: the original, the port and the paper, with a plain tape beside them.

use crate::pair::Pair;
use crate::same::{self, Verdict};
use cases::paper::{self, Answer, Mapping, BLOCK, OK};
use cases::rng::Rng;
use oracle::{Image, Opened};

pub struct Session {
    pub pair: Pair,
    pub m: Mapping,
    original: Image,
    opened: Opened,
    /// Whether the original's object stays through all commits, or each fresh open's takes its place.
    pub keeps: bool,
    /// Accepted commits that the original's object has made, and whether a write came after the last of them.
    pub commits: usize,
    pub written: bool,
    /// The save's bytes as they were when the tape began, and every accepted write since.
    tape: Vec<u8>,
}

/// What an open came to: its answer, and the session if it was accepted inside the domain.
pub struct Opening {
    pub answer: Answer,
    pub session: Option<Session>,
    pub pair: Option<Pair>,
}

/// Opens the image on all three. Outside the domain the original is not asked. Its object is one that stays.
pub fn open(image: &[u8]) -> Result<Opening, String> {
    let mut pair = Pair::new(image);
    let (answer, m) = pair.open()?;
    if paper::has_zero_count_entry(image, answer) {
        return Ok(Opening { answer, session: None, pair: Some(pair) });
    }
    let original = Image::new(image);
    let opened = original.open();
    same::class(&opened, answer)?;
    same::bytes("image after open", "the original", &original.bytes(), "the input", image)?;
    let Ok(opened) = opened else { return Ok(Opening { answer, session: None, pair: Some(pair) }) };
    let session = Session { pair, m, original, opened, keeps: true, commits: 0, written: false, tape: Vec::new() };
    session.same_state()?;
    Ok(Opening { answer, session: Some(session), pair: None })
}

impl Session {
    pub fn save(&self) -> usize {
        paper::len(&self.m)
    }

    fn len(&self) -> usize {
        self.m.len
    }

    /// Mapping, image and length of the original are those of the other two.
    fn same_state(&self) -> Verdict {
        self.same_state_as(&self.opened)
    }

    /// The same of this object of the original's.
    fn same_state_as(&self, opened: &Opened) -> Verdict {
        let theirs = same::of_original(self.len(), &opened.blocks())?;
        same::mapping("the port", &self.m, "the original", &theirs)?;
        same::number("len", "the port", self.save(), "the original", opened.save_len())?;
        same::bytes("image", "the port", self.pair.image(), "the original", &self.original.bytes())
    }

    /// The whole save as this object of the original's reads it.
    fn whole_save(&self, opened: &Opened) -> Result<Vec<u8>, String> {
        let mut save = vec![0; self.save()];
        let answer = opened.read(0, &mut save);
        same::class(&answer, OK)?;
        Ok(save)
    }

    /// Begins the tape: reads, writes and fresh opens need one.
    pub fn begin_tape(&mut self) -> Verdict {
        self.tape = self.whole_save(&self.opened)?;
        Ok(())
    }

    /// A read that 9 admits.
    pub fn read(&mut self, rng: &mut Rng, place: usize, n: usize) -> Verdict {
        let (answer, buffer) = self.pair.read(rng, self.len(), &self.m, place, n)?;
        same::number("answer", "the port", answer, "the paper", OK)?;
        let mut theirs = vec![!buffer.first().copied().unwrap_or(0); n];
        same::class(&self.opened.read(place, &mut theirs), OK)?;
        same::bytes("buffer", "the port", &buffer, "the original", &theirs)?;
        same::bytes("buffer", "the port", &buffer, "the tape", &self.tape[place..place + n])?;
        self.same_state()
    }

    /// A write that 9 admits.
    pub fn write(&mut self, place: usize, bytes: &[u8]) -> Verdict {
        let answer = self.pair.write(self.m.len, &mut self.m, place, bytes)?;
        same::number("answer", "the port", answer, "the paper", OK)?;
        same::class(&self.opened.write(place, bytes), OK)?;
        self.tape[place..place + bytes.len()].copy_from_slice(bytes);
        self.written = true;
        self.same_state()
    }

    /// Any commit with the latest mapping. Where 10 refuses it the original is not asked, and nothing is stored.
    pub fn commit(&mut self) -> Result<Answer, String> {
        let answer = self.pair.commit(self.m.len, &mut self.m)?;
        if answer.number != 10 {
            same::class(&self.opened.commit(), answer)?;
            self.commits += 1;
            self.written = false;
        }
        self.same_state()?;
        Ok(answer)
    }

    /// Straight after an accepted commit: accepted, the same mapping, a journal of 0xFF, and the same tape, on the
    /// original by a new object. The session goes on with it, or keeps the one that it has.
    pub fn fresh_open(&mut self) -> Verdict {
        let (answer, m) = self.pair.open()?;
        same::number("fresh open, answer", "the port", answer, "the paper", OK)?;
        same::mapping("the port, opened afresh", &m, "the latest mapping", &self.m)?;
        let opened = self.original.open();
        same::class(&opened, OK)?;
        let opened = opened.map_err(|failure| format!("the original, opened afresh: {failure:?}"))?;
        self.same_state_as(&opened)?;
        if let Some(chip) = paper::chip_of(self.len()) {
            let journal = &self.pair.image()[chip.journal..BLOCK];
            same::bytes("journal", "the port", journal, "the paper", &vec![0xFF; journal.len()])?;
        }
        same::bytes("save, opened afresh", "the original", &self.whole_save(&opened)?, "the tape", &self.tape)?;
        if !self.keeps {
            self.opened = opened;
            self.commits = 0;
        }
        Ok(())
    }
}
