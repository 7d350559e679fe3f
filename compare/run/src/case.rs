//! One case: an image made for an answer, opened on all three, and where it is accepted a run of calls.

use crate::forge;
use crate::pair::Pair;
use crate::same::{self, Verdict};
use crate::session::{self, Session};
use crate::tally::Tally;
use cases::aims::{Aim, Fault, Spot};
use cases::images;
use cases::paper::{self, Answer, Chip, Mapping, BLANK, BLOCK, CHIPS, FREE, OK, SECTOR, SLOT};
use cases::rng::Rng;

use Spot::{First, Last, Middle};

/// The aims, taken in turn, so that a short run has them all.
const AIMS: [Aim; 43] = [
    Aim::Accepted,
    Aim::Copies(First),
    Aim::Entry(First),
    Aim::Accepted,
    Aim::Ticket(First),
    Aim::Accepted,
    Aim::Physical(First),
    Aim::HighCount(First),
    Aim::Accepted,
    Aim::MapSum(First),
    Aim::Reserved(First),
    Aim::Accepted,
    Aim::FullJournal,
    Aim::Entry(Middle),
    Aim::Accepted,
    Aim::Copies(Middle),
    Aim::Accepted,
    Aim::Ticket(Middle),
    Aim::Entry(First),
    Aim::Accepted,
    Aim::Formatted,
    Aim::Physical(Middle),
    Aim::HighCount(Middle),
    Aim::Accepted,
    Aim::Length,
    Aim::MapSum(Middle),
    Aim::Accepted,
    Aim::Reserved(Middle),
    Aim::Damage,
    Aim::Accepted,
    Aim::Entry(Last),
    Aim::Copies(Last),
    Aim::Accepted,
    Aim::Ticket(Last),
    Aim::ZeroCount,
    Aim::Physical(Last),
    Aim::HighCount(Last),
    Aim::Accepted,
    Aim::MapSum(Last),
    Aim::Damage,
    Aim::Reserved(Last),
    Aim::Accepted,
    Aim::Noise,
];

/// The small chip twice: it is the quickest.
const TURNS: [usize; 4] = [0, 1, 0, 2];

/// A case by its number, with what was done so far in words.
pub struct Case {
    rng: Rng,
    pub chip: &'static Chip,
    pub aim: Aim,
    pub trace: Vec<String>,
}

impl Case {
    pub fn new(seed: u64, number: u64) -> Case {
        let turn = number as usize;
        Case {
            rng: Rng::of_case(seed, number),
            chip: &CHIPS[TURNS[turn % 4]],
            aim: AIMS[turn / 4 % AIMS.len()],
            trace: Vec::new(),
        }
    }

    pub fn run(&mut self, tally: &mut Tally) -> Verdict {
        let drawn = images::draw(&mut self.rng, self.chip, self.aim);
        self.a_sum(&drawn.image)?;
        if matches!(self.aim, Aim::Formatted | Aim::Length) {
            self.format(tally, &drawn.image)?;
        }
        self.trace.push(format!("open of {} bytes", drawn.image.len()));
        let opening = session::open(&drawn.image)?;
        tally.answer(self.chip, "open", opening.answer);
        if let (Some(fault), 5) = (drawn.fault, opening.answer.number) {
            tally.count(self.chip, &format!("entry broken {fault:?}"));
        }
        if opening.answer.number == 4 {
            self.note_copies(tally, &drawn.image, opening.answer.place);
        }
        if drawn.fault == Some(Fault::CZero) && opening.session.is_none() {
            tally.count(self.chip, "outside the domain: c = 0");
        }
        if let Some(mut pair) = opening.pair {
            return self.blank_refused(tally, &mut pair);
        }
        let Some(mut session) = opening.session else { return Ok(()) };
        self.note_shape(tally, &drawn.image);
        session.begin_tape()?;
        session.keeps = self.rng.one_in(2);
        if matches!(self.aim, Aim::HighCount(_)) && self.rng.one_in(2) {
            let answer = self.commit(tally, &mut session)?;
            tally.count(self.chip, &format!("commit {} straight after open", answer.number));
        }
        // An object that stays is to see several commits.
        let most = if session.keeps { 12 } else { 8 };
        for _ in 0..self.rng.below(most) {
            self.step(tally, &mut session)?;
        }
        self.commit(tally, &mut session)?;
        self.trace.push("read of the whole save".to_string());
        let save = session.save();
        session.read(&mut self.rng, 0, save)?;
        if self.rng.one_in(3) {
            self.loose(tally, &mut session.pair, &session.m)?;
        }
        Ok(())
    }

    /// The sum of some part of the image.
    fn a_sum(&mut self, image: &[u8]) -> Verdict {
        let longest = if self.rng.one_in(16) { image.len() } else { image.len().min(0x1000) };
        let n = self.rng.below(longest + 1);
        let at = self.rng.below(image.len() - n + 1);
        self.trace.push(format!("sum of {n} bytes at {at:#x}"));
        sum(&image[at..at + n])
    }

    fn format(&mut self, tally: &mut Tally, image: &[u8]) -> Verdict {
        let mut junk = image.to_vec();
        let zero = junk.len().min(BLOCK);
        self.rng.fill(&mut junk[..zero]);
        self.trace.push(format!("format of {} bytes", junk.len()));
        let mut pair = Pair::new(&junk);
        let answer = pair.format()?;
        let original = oracle::Image::new(&junk);
        same::class(&original.format(), answer)?;
        same::bytes("image", "the port", pair.image(), "the original", &original.bytes())?;
        tally.answer(self.chip, "format", answer);
        Ok(())
    }

    /// What an accepted image had in it, among what must not matter too.
    fn note_shape(&mut self, tally: &mut Tally, image: &[u8]) {
        let chip = self.chip;
        let slots: Vec<&[u8]> = image[chip.journal..BLOCK].chunks_exact(SLOT).collect();
        let entries = slots.iter().position(|slot| slot[0] == 0xFF).unwrap_or(chip.slots);
        let junk = |bytes: &[u8], plain: u8| bytes.iter().any(|byte| *byte != plain);
        let free_item = |item: &[u8]| item[0] & 0x80 == 0;
        let items: Vec<&[u8]> = image[8..8 + chip.v * chip.item].chunks_exact(chip.item).collect();
        let shapes = [
            (entries == chip.slots, "accepted full journal"),
            (slots[..entries].iter().any(|slot| slot[0] == slot[1]), "accepted v = w"),
            (junk(&image[..8], 0), "accepted junk in the header"),
            (slots[..entries].iter().any(|slot| junk(&slot[28..], 0xFF)), "accepted junk in bytes 28..31"),
            (slots[entries..].iter().skip(1).any(|slot| junk(slot, 0xFF)), "accepted junk after the end"),
            (!chip.large && items.iter().any(|i| free_item(i) && junk(&i[2..], 0)), "accepted junk in free tickets"),
            (chip.large && junk(&image[8 + chip.v * chip.item..chip.map], 0), "accepted junk in the padding"),
        ];
        for (_, name) in shapes.iter().filter(|(there, _)| *there) {
            tally.count(chip, name);
        }
    }

    /// Whether the copies that differ are those of an entry, or of a slot that would end the journal.
    fn note_copies(&mut self, tally: &mut Tally, image: &[u8], slot: usize) {
        let ends = image[self.chip.journal + slot * SLOT] == 0xFF;
        tally.count(self.chip, if ends { "copies differ, begins FF" } else { "copies differ, an entry" });
    }

    /// One call of a run: accepted or refused.
    fn step(&mut self, tally: &mut Tally, session: &mut Session) -> Verdict {
        let rng = &mut self.rng;
        let save = session.save();
        match rng.below(12) {
            0..=2 => {
                let (place, n) = forge::range(rng, save);
                self.trace.push(format!("read of {n} at {place:#x}"));
                session.read(rng, place, n)?;
                tally.count(self.chip, "read 0");
            }
            3..=6 => {
                let (place, n) = forge::range(rng, save);
                self.write(tally, session, place, n)?;
            }
            7 => {
                let place = rng.below(save);
                self.write(tally, session, place, 0)?;
            }
            8 => {
                self.commit(tally, session)?;
            }
            9 => {
                let (place, n) = forge::range_past_the_save(rng, save);
                let m = session.m.clone();
                self.calls_past_the_save(tally, &mut session.pair, &m, place, n)?;
            }
            _ => {
                let (forged, image_len, what) = forge::that_does_not_fit(rng, self.chip, &session.m);
                self.trace.push(format!("calls with a forged mapping: {what}"));
                same::save_len(&forged)?;
                if paper::fits(image_len, &forged).is_err() {
                    tally.count(self.chip, &format!("forged: {what}"));
                    self.refused_calls(tally, &mut session.pair, &forged, image_len)?;
                }
            }
        }
        Ok(())
    }

    fn write(&mut self, tally: &mut Tally, session: &mut Session, place: usize, n: usize) -> Verdict {
        self.trace.push(format!("write of {n} at {place:#x}"));
        let mut bytes = vec![0; n];
        self.rng.fill(&mut bytes);
        if n == 0 && !place.is_multiple_of(SECTOR) && session.m.blocks[place / BLOCK].condition == FREE {
            tally.count(self.chip, "write 0 empty unaligned, was free");
        }
        session.write(place, &bytes)?;
        tally.count(self.chip, "write 0");
        Ok(())
    }

    fn commit(&mut self, tally: &mut Tally, session: &mut Session) -> Result<Answer, String> {
        self.trace.push("commit".to_string());
        let high = session.m.blocks[..self.chip.v].iter().any(|block| block.count > 0x7F);
        let written = session.written;
        let answer = session.commit()?;
        tally.answer(self.chip, "commit", answer);
        if answer == OK {
            if high {
                tally.count(self.chip, "commit 0 with a count above 127");
            }
            if session.keeps {
                self.note_kept(tally, session.commits, written);
            }
            self.trace.push("fresh open".to_string());
            session.fresh_open()?;
        }
        Ok(answer)
    }

    /// Which commit of an object of the original's that stays this was, and whether there was something to record.
    fn note_kept(&mut self, tally: &mut Tally, commits: usize, written: bool) {
        let nth = match commits {
            1 => "1",
            2 => "2",
            _ => "3 on",
        };
        tally.count(self.chip, &format!("kept object, commit {nth}"));
        if written {
            tally.count(self.chip, &format!("kept object, commit {nth}, written"));
        }
    }

    /// Read and write with a range that 9 refuses.
    fn calls_past_the_save(
        &mut self,
        tally: &mut Tally,
        pair: &mut Pair,
        m: &Mapping,
        place: usize,
        n: usize,
    ) -> Verdict {
        self.trace.push(format!("read and write of {n} at {place:#x}, past the save"));
        let len = self.chip.len;
        let (answer, _) = pair.read(&mut self.rng, len, m, place, n)?;
        tally.answer(self.chip, "read", answer);
        let answer = pair.write(len, &mut m.clone(), place, &vec![0x11; n])?;
        tally.answer(self.chip, "write", answer);
        Ok(())
    }

    /// Read, write and commit with a mapping that does not fit: 8 comes first, also where the range is bad.
    fn refused_calls(&mut self, tally: &mut Tally, pair: &mut Pair, m: &Mapping, image_len: usize) -> Verdict {
        let (place, n) = match self.rng.below(3) {
            0 => (0, 0),
            1 => forge::range(&mut self.rng, self.chip.save),
            _ => forge::range_past_the_save(&mut self.rng, self.chip.save),
        };
        let (answer, _) = pair.read(&mut self.rng, image_len, m, place, n)?;
        tally.answer(self.chip, "read", answer);
        let answer = pair.write(image_len, &mut m.clone(), place, &vec![0x22; n])?;
        tally.answer(self.chip, "write", answer);
        let answer = pair.commit(image_len, &mut m.clone())?;
        tally.answer(self.chip, "commit", answer);
        Ok(())
    }

    /// After a refused open: its blank mapping is refused by the calls that take one.
    fn blank_refused(&mut self, tally: &mut Tally, pair: &mut Pair) -> Verdict {
        self.trace.push("calls with the blank mapping".to_string());
        let image_len = pair.image().len();
        self.refused_calls(tally, pair, &BLANK, image_len)
    }

    /// Calls with a mapping that fits and that no open gave: the port against the paper alone.
    fn loose(&mut self, tally: &mut Tally, pair: &mut Pair, m: &Mapping) -> Verdict {
        let mut m = forge::that_fits(&mut self.rng, self.chip, m);
        self.trace.push("a forged mapping that fits".to_string());
        let len = self.chip.len;
        for _ in 0..1 + self.rng.below(3) {
            let (place, n) = forge::range(&mut self.rng, self.chip.save);
            self.trace.push(format!("read and write of {n} at {place:#x}"));
            let (answer, _) = pair.read(&mut self.rng, len, &m, place, n)?;
            tally.answer(self.chip, "loose read", answer);
            let mut bytes = vec![0; n];
            self.rng.fill(&mut bytes);
            let answer = pair.write(len, &mut m, place, &bytes)?;
            tally.answer(self.chip, "loose write", answer);
        }
        self.trace.push("commit".to_string());
        let answer = pair.commit(len, &mut m)?;
        tally.answer(self.chip, "loose commit", answer);
        pair.open()?;
        Ok(())
    }
}

/// The sum of these bytes on all three.
pub fn sum(bytes: &[u8]) -> Verdict {
    let ours = port::crc16(bytes);
    same::number("sum", "the port", ours, "the original", oracle::crc16_ninty(bytes))?;
    same::number("sum", "the port", ours, "the paper", paper::sum(bytes))
}
