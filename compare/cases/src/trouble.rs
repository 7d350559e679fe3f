//! What is wrong with an image: one part of it broken, all before it sound.

use crate::aims::{Fault, Spot};
use crate::draft::Draft;
use crate::paper::{self, BLOCK, CLEAN, FREE, SECTOR};
use crate::rng::Rng;

impl Draft {
    /// Makes the copies of the next slot differ: in an entry, or in the slot that would end the journal.
    pub fn tear(&mut self, rng: &mut Rng, pool: usize) {
        if self.entries == self.chip.slots {
            return;
        }
        let held = if rng.one_in(2) { self.entry(rng, pool, None) } else { None };
        let entry = held.unwrap_or([0xFF, rng.byte(), rng.byte(), rng.byte(), rng.byte(), rng.byte()]);
        let at = self.put_slot(entry, rng.number().to_le_bytes());
        match rng.below(3) {
            // The store stopped inside the second copy, or inside the first.
            0 => self.image[at + 15 + rng.below(13)..at + 28].fill(0xFF),
            1 => self.image[at + 1 + rng.below(13)..at + 28].fill(0xFF),
            _ => {}
        }
        if self.image[at..at + 14] == self.image[at + 14..at + 28] {
            self.image[at + rng.below(28)] ^= rng.flip();
        }
    }

    /// An entry in the next slot that holds but for one part. What comes after it is whatever was there.
    pub fn break_entry(&mut self, rng: &mut Rng, fault: Fault) {
        let chip = self.chip;
        if self.entries == chip.slots {
            return;
        }
        if fault == Fault::InUse && !self.m.blocks.iter().any(|block| block.condition == CLEAN) {
            // Puts one in use first; at slot 0 it is the map that has to.
            self.m.blocks[0].condition = CLEAN;
            let tickets = self.tickets_for(rng, self.m.blocks[0]);
            paper::put_item(&mut self.image, chip, 0, self.m.blocks[0], &tickets);
        }
        let Some(mut e) = self.entry(rng, chip.v - 1, None) else { return };
        let other_number = |rng: &mut Rng, than: u8| loop {
            let number = 1 + rng.below(chip.p - 1) as u8;
            if number != than {
                return number;
            }
        };
        match fault {
            Fault::V => e[0] = (chip.v + rng.below(255 - chip.v)) as u8,
            Fault::W => e[1] = (chip.v + rng.below(256 - chip.v)) as u8,
            Fault::PZero => e[2] = 0,
            Fault::PHigh => e[2] = (chip.p + rng.below(256 - chip.p)) as u8,
            Fault::QZero => e[3] = 0,
            Fault::QHigh => e[3] = (chip.p + rng.below(256 - chip.p)) as u8,
            Fault::NotVs => e[3] = other_number(rng, e[3]),
            Fault::NotWs => e[2] = other_number(rng, e[2]),
            Fault::InUse => {
                let used: Vec<usize> = (0..chip.v).filter(|i| self.m.blocks[*i].condition == CLEAN).collect();
                let w = rng.pick(&used);
                e[1] = w as u8;
                e[2] = self.m.blocks[w].physical;
                e[4] = self.m.blocks[w].count.saturating_add(1);
            }
            Fault::D => e[5] ^= rng.flip(),
            Fault::CZero => {
                e[4] = 0;
                // Where w's count is 255 the builds of the original part.
                let full = |i: &usize| self.m.blocks[*i].condition == FREE && self.m.blocks[*i].count == 255;
                if let Some(w) = (0..chip.v).find(full) {
                    e[1] = w as u8;
                    e[2] = self.m.blocks[w].physical;
                }
            }
            Fault::C => {
                let right = e[4];
                while e[4] == right || e[4] == 0 {
                    e[4] = if rng.one_in(2) { rng.byte() } else { right.wrapping_add(rng.pick(&[1, 255])) };
                }
            }
        }
        self.put_slot(e, rng.number().to_le_bytes());
    }

    /// One of the map's numbers becomes zero, too high or that of an earlier block.
    pub fn break_number(&mut self, rng: &mut Rng, spot: Spot) {
        let chip = self.chip;
        let i = spot.among(rng, chip.v);
        let place = 8 + i * chip.item + usize::from(chip.large);
        let number = |draft: &Draft, j: usize| {
            let byte = draft.image[8 + j * chip.item + usize::from(chip.large)];
            if chip.large {
                byte
            } else {
                byte & 0x7F
            }
        };
        let bad = match rng.below(3) {
            0 if chip.p < 128 => (chip.p + rng.below(128 - chip.p)) as u8,
            1 if i > 0 => number(self, rng.below(i)),
            _ => 0,
        };
        let kept = if chip.large { 0 } else { self.image[place] & 0x80 };
        self.image[place] = kept | bad;
        // A later trouble in the journal must not hide this one.
        if rng.one_in(2) {
            let at = chip.journal + rng.below(BLOCK - chip.journal);
            self.image[at] ^= rng.flip();
        }
    }

    /// One sector's ticket no longer fits: the data, or the ticket that counts in the end, is changed.
    pub fn break_ticket(&mut self, rng: &mut Rng, spot: Spot) {
        let chip = self.chip;
        let used: Vec<usize> = (0..chip.v).filter(|i| self.m.blocks[*i].condition == CLEAN).collect();
        if chip.large || used.is_empty() {
            return;
        }
        let (i, s) = match spot {
            Spot::First => (used[0], rng.pick(&[0, 0, 3, 7])),
            Spot::Middle => (rng.pick(&used), rng.below(8)),
            Spot::Last => (used[used.len() - 1], rng.pick(&[7, 7, 4, 0])),
        };
        self.break_sector(rng, i, s);
        if rng.one_in(3) {
            // A second one that comes later.
            let later = rng.pick(&used);
            let sector = rng.below(8);
            if (later, sector) > (i, s) {
                self.break_sector(rng, later, sector);
            }
        }
    }

    fn break_sector(&mut self, rng: &mut Rng, i: usize, s: usize) {
        if rng.one_in(2) {
            let sector = usize::from(self.m.blocks[i].physical) * BLOCK + s * SECTOR;
            self.image[sector + rng.below(SECTOR)] ^= rng.flip();
        } else {
            let at = self.tickets_at[i] + s;
            self.image[at] ^= rng.flip();
            if at >= self.chip.journal {
                self.image[at + 14] = self.image[at];
            }
        }
    }
}
