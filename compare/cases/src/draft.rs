//! An image in the making: a map, and entries that hold.

use crate::aims::Spot;
use crate::paper::{self, Block, Chip, Mapping, BLANK, BLOCK, CLEAN, FREE, SLOT};
use crate::rng::Rng;

/// An image in the making, with the mapping that open's steps have reached so far.
pub struct Draft {
    pub chip: &'static Chip,
    pub image: Vec<u8>,
    pub m: Mapping,
    /// Where in block zero the tickets of each in-use block stand.
    pub tickets_at: [usize; 256],
    /// Entries in the journal so far.
    pub entries: usize,
}

impl Draft {
    pub fn new(rng: &mut Rng, chip: &'static Chip) -> Draft {
        let mut image = vec![0; chip.len];
        rng.fill(&mut image);
        let mut m = BLANK;
        m.len = chip.len;
        Draft { chip, image, m, tickets_at: [0; 256], entries: 0 }
    }

    /// How many entries to put where no slot matters.
    pub fn some_entries(&self, rng: &mut Rng) -> usize {
        match rng.below(8) {
            0 | 1 => 0,
            2 | 3 => 1,
            4 => self.chip.slots - 1,
            5 => rng.below(self.chip.slots),
            _ => rng.below(8),
        }
    }

    /// Numbers, counts and conditions as the map has them. A long journal needs counts with room above them.
    pub fn draw_blocks(&mut self, rng: &mut Rng, long: bool) {
        let v = self.chip.v;
        let mut numbers: Vec<u8> = (1..self.chip.p).map(|n| n as u8).collect();
        match rng.below(4) {
            0 => {}
            1 => numbers.reverse(),
            _ => {
                for i in (1..v).rev() {
                    numbers.swap(i, rng.below(i + 1));
                }
            }
        }
        let most = if self.chip.large { 127 } else { 255 };
        let style = if long { rng.below(2) } else { rng.below(5) };
        let in_use_percent = rng.pick(&[0, 0, 3, 3, 10, 10, 10, 50, 100]);
        for (i, physical) in numbers.into_iter().enumerate() {
            let count = match style {
                0 => 0,
                1 => rng.below(4),
                2 => rng.below(most + 1),
                3 => most - rng.below(3),
                _ => rng.pick(&[0, 1, most / 2, most - 1, most]),
            };
            let in_use = i < v - 1 && rng.below(100) < in_use_percent;
            let condition = if in_use { CLEAN } else { FREE };
            self.m.blocks[i] = Block { physical, count: count as u8, condition };
        }
    }

    /// The map, with tickets that fit where a block is in use and junk where it is free.
    pub fn put_map(&mut self, rng: &mut Rng) {
        for i in 0..self.chip.v {
            let block = self.m.blocks[i];
            let tickets = self.tickets_for(rng, block);
            paper::put_item(&mut self.image, self.chip, i, block, &tickets);
            self.tickets_at[i] = 8 + i * self.chip.item + 2;
        }
    }

    /// Tickets that fit; junk where nothing looks at them.
    pub fn tickets_for(&self, rng: &mut Rng, block: Block) -> [u8; 8] {
        if self.chip.large || block.condition == FREE {
            return rng.number().to_le_bytes();
        }
        paper::tickets_that_fit(&self.image, usize::from(block.physical))
    }

    /// v, w, p, q, c, d of an entry that holds. None where no free block can give its number away.
    pub fn entry(&self, rng: &mut Rng, pool: usize, v: Option<usize>) -> Option<[u8; 6]> {
        let chip = self.chip;
        let can_give = |i: &usize| self.m.blocks[*i].condition == FREE && self.m.blocks[*i].count < 255;
        let givers: Vec<usize> = (0..chip.v).filter(can_give).collect();
        if givers.is_empty() {
            return None;
        }
        let w = rng.pick(&givers);
        let v = match v {
            Some(v) => v,
            None if w < pool && rng.one_in(3) => w,
            None => rng.below(pool),
        };
        Some(self.entry_between(v, w))
    }

    /// One more entry that holds, where the journal has room.
    pub fn put_entry(&mut self, rng: &mut Rng, pool: usize, v: Option<usize>) {
        if self.entries == self.chip.slots {
            return;
        }
        let Some(entry) = self.entry(rng, pool, v) else { return };
        self.take(rng, entry);
    }

    /// v, w, p, q, c, d of the entry that gives w's number to v. It holds where w is free and its count below 255.
    pub fn entry_between(&self, v: usize, w: usize) -> [u8; 6] {
        let (gives, takes) = (self.m.blocks[w], self.m.blocks[v]);
        [v as u8, w as u8, gives.physical, takes.physical, gives.count + 1, takes.count]
    }

    /// Puts an entry that holds into the next slot, of which there is one, and does what it says.
    pub fn take(&mut self, rng: &mut Rng, entry: [u8; 6]) {
        let [v, w, p, q, c, d] = entry.map(usize::from);
        // Tickets that this entry replaces no longer matter.
        if self.m.blocks[v].condition != FREE && !self.chip.large && rng.one_in(2) {
            let old = self.tickets_at[v];
            rng.fill(&mut self.image[old..old + 8]);
            if old >= self.chip.journal {
                self.image.copy_within(old..old + 8, old + 14);
            }
        }
        self.m.blocks[w] = Block { physical: q as u8, count: d as u8, condition: FREE };
        self.m.blocks[v] = Block { physical: p as u8, count: c as u8, condition: CLEAN };
        let tickets = self.tickets_for(rng, self.m.blocks[v]);
        self.tickets_at[v] = self.put_slot(entry, tickets) + 6;
        self.entries += 1;
    }

    /// A free block, whose count becomes the highest that a large chip's map can hold.
    pub fn full_giver(&mut self, rng: &mut Rng) -> usize {
        let free: Vec<usize> = (0..self.chip.v).filter(|i| self.m.blocks[*i].condition == FREE).collect();
        let giver = rng.pick(&free);
        self.m.blocks[giver].count = 127;
        giver
    }

    /// The journal's first entries: one that gives a count of 128 to the block at this spot, and pairs that free that
    /// block and put it in use again, one higher. At the last spot one more leaves the high count with the reserved
    /// block, which is free.
    pub fn raise(&mut self, rng: &mut Rng, spot: Spot, giver: usize) {
        let reserved = self.chip.v - 1;
        let v = if spot == Spot::Last { rng.below(reserved) } else { spot.among(rng, reserved) };
        self.take(rng, self.entry_between(v, giver));
        for _ in 0..2 * rng.below(4) + usize::from(spot == Spot::Last) {
            self.take(rng, self.entry_between(v, reserved));
        }
    }

    /// Both copies in the next slot. Gives the slot's place.
    pub fn put_slot(&mut self, entry: [u8; 6], tickets: [u8; 8]) -> usize {
        let at = self.chip.journal + self.entries * SLOT;
        self.image[at..at + 6].copy_from_slice(&entry);
        self.image[at + 6..at + 14].copy_from_slice(&tickets);
        self.image.copy_within(at..at + 14, at + 14);
        at
    }

    /// The slot that ends the journal, if there is room for one. What comes after it is junk, blank or both.
    pub fn end(&mut self, rng: &mut Rng) {
        if self.entries == self.chip.slots {
            return;
        }
        let mut rest = [0xFF; 5];
        let mut tickets = [0xFF; 8];
        if rng.one_in(2) {
            rng.fill(&mut rest);
            rng.fill(&mut tickets);
        }
        let [w, p, q, c, d] = rest;
        let at = self.put_slot([0xFF, w, p, q, c, d], tickets);
        if rng.one_in(2) {
            self.image[at + SLOT..BLOCK].fill(0xFF);
        }
    }
}
