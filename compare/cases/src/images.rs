//! Images that reach each answer of open at first, middle and last places. Whatever a step ignores is junk: the
//! header, padding, tickets of free items, bytes 28 to 31 of slots, slots after the end, and data of free blocks.

use crate::aims::{Aim, Fault, Spot};
use crate::draft::Draft;
use crate::paper::{self, Chip, BLOCK, CLEAN, SECTOR};
use crate::rng::Rng;

pub struct Drawn {
    pub image: Vec<u8>,
    /// Where the aim was Entry or ZeroCount.
    pub fault: Option<Fault>,
}

/// An image with random data.
pub fn draw(rng: &mut Rng, chip: &'static Chip, aim: Aim) -> Drawn {
    draw_over(rng, chip, aim, |_| ())
}

/// An image whose data are given: `data` may store what it likes, before anything else is put there.
pub fn draw_over(rng: &mut Rng, chip: &'static Chip, aim: Aim, data: impl Fn(&mut [u8])) -> Drawn {
    if aim == Aim::Length {
        return Drawn { image: other_length(rng, chip), fault: None };
    }
    let mut draft = Draft::new(rng, chip);
    data(&mut draft.image);
    let fault = draft.make(rng, aim);
    Drawn { image: draft.image, fault }
}

/// An image that is not a chip's, of a length close to this one's or far off.
fn other_length(rng: &mut Rng, chip: &Chip) -> Vec<u8> {
    let near = [chip.len - 1, chip.len + 1, chip.len - BLOCK, chip.len + BLOCK, chip.len / 2 + chip.len];
    let far = [0, 1, SECTOR, BLOCK - 1, BLOCK, 0x40000];
    let len = if rng.one_in(2) { rng.pick(&near) } else { rng.pick(&far) };
    let mut image = vec![0; len];
    rng.fill(&mut image);
    image
}

impl Draft {
    /// Does what the aim asks for, over junk.
    fn make(&mut self, rng: &mut Rng, aim: Aim) -> Option<Fault> {
        let chip = self.chip;
        match aim {
            Aim::Formatted => {
                paper::format(&mut self.image);
                return None;
            }
            Aim::Noise => {
                if rng.one_in(2) {
                    paper::sign(&mut self.image, chip);
                }
                return None;
            }
            _ => {}
        }

        // The slot that matters decides how many entries stand before it.
        let slot = match aim {
            Aim::Copies(spot) | Aim::Entry(spot) | Aim::Reserved(spot) => Some(spot.among(rng, chip.slots)),
            Aim::ZeroCount => Some(rng.below(4)),
            Aim::FullJournal => Some(chip.slots),
            // So many more after those that raise the count.
            Aim::HighCount(_) => Some(rng.below(3)),
            _ => None,
        };
        let before = slot.unwrap_or_else(|| self.some_entries(rng));
        // Blocks that entries may put in use: few on most chips, since each costs sums.
        let pool = if rng.one_in(6) { chip.v - 1 } else { 1 + rng.below(6) };

        self.draw_blocks(rng, slot.is_some() && aim != Aim::ZeroCount);
        if let Aim::Ticket(spot) = aim {
            self.m.blocks[spot.among(rng, chip.v - 1)].condition = CLEAN;
        }
        if aim == Aim::Reserved(Spot::First) && rng.one_in(2) {
            self.m.blocks[chip.v - 1].condition = CLEAN;
        }
        if let Aim::HighCount(spot) = aim {
            let giver = self.full_giver(rng);
            self.put_map(rng);
            self.raise(rng, spot, giver);
        } else {
            self.put_map(rng);
        }
        for _ in 0..before {
            self.put_entry(rng, pool, None);
        }

        let fault = self.finish_journal(rng, aim, pool);
        self.spoil(rng, aim);
        fault
    }

    /// The slot that matters, or the end of the journal.
    fn finish_journal(&mut self, rng: &mut Rng, aim: Aim, pool: usize) -> Option<Fault> {
        let chip = self.chip;
        let fault = match aim {
            Aim::Entry(_) => {
                let possible = Fault::ALL.into_iter().filter(|f| f.can_occur(chip) && *f != Fault::CZero);
                Some(rng.pick(&possible.collect::<Vec<Fault>>()))
            }
            Aim::ZeroCount => Some(Fault::CZero),
            _ => None,
        };
        match (aim, fault) {
            (_, Some(fault)) => self.break_entry(rng, fault),
            (Aim::Copies(_), _) => self.tear(rng, pool),
            (Aim::Reserved(_), _) => {
                self.put_entry(rng, pool, Some(chip.v - 1));
                for _ in 0..rng.below(3) {
                    self.put_entry(rng, pool, None);
                }
                self.end(rng);
            }
            _ => self.end(rng),
        }
        fault
    }

    /// What is wrong outside of the journal, and the map's sum.
    fn spoil(&mut self, rng: &mut Rng, aim: Aim) {
        let chip = self.chip;
        if let Aim::Ticket(spot) = aim {
            self.break_ticket(rng, spot);
        }
        // A later trouble must not hide an earlier one.
        if rng.one_in(3)
            && !matches!(aim, Aim::Accepted | Aim::FullJournal | Aim::HighCount(_) | Aim::Ticket(_) | Aim::Damage)
        {
            let at = BLOCK + rng.below(chip.len - BLOCK);
            self.image[at] ^= rng.flip();
        }
        match aim {
            Aim::Physical(spot) => self.break_number(rng, spot),
            Aim::Damage => {
                for _ in 0..1 + rng.below(3) {
                    let at = rng.below(BLOCK);
                    self.image[at] ^= rng.flip();
                }
            }
            _ => {}
        }
        if aim != Aim::Damage || !rng.one_in(4) {
            paper::sign(&mut self.image, chip);
        }
        if let Aim::MapSum(spot) = aim {
            let at = spot.among(rng, chip.map + 2);
            self.image[at] ^= rng.flip();
        }
    }
}
