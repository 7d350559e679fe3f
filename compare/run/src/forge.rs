//! Mappings and ranges that no open gave: those that 8 and 9 refuse, and those that fit all the same.

use cases::paper::{Chip, Mapping, BLANK, BLOCK, CHANGED, CHIPS, CLEAN, FREE};
use cases::rng::Rng;

/// A mapping that does not fit, and the length of image to try it on.
pub fn that_does_not_fit(rng: &mut Rng, chip: &Chip, m: &Mapping) -> (Mapping, usize, &'static str) {
    let mut forged = m.clone();
    let any = rng.below(chip.v);
    let block = rng.pick(&[0, any, chip.v - 1]);
    let mut image_len = chip.len;
    let what = match rng.below(10) {
        0 => {
            let other = CHIPS[rng.below(3)].len;
            forged.len = rng.pick(&[0, 1, other, chip.len - 1, chip.len + 1, chip.len * 2, usize::MAX]);
            "a length"
        }
        1 => {
            image_len = rng.pick(&[0, BLOCK, chip.len - 1, chip.len / 2, CHIPS[0].len]);
            "another image"
        }
        2 => {
            forged.blocks[block].physical = 0;
            "a number of zero"
        }
        3 => {
            let other = (block + 1 + rng.below(chip.v - 1)) % chip.v;
            forged.blocks[block].physical = forged.blocks[other].physical;
            "a repeated number"
        }
        4 if !chip.large => {
            forged.blocks[block].physical = (chip.p + rng.below(256 - chip.p)) as u8;
            "a number too high"
        }
        5 => {
            forged.blocks[chip.v - 1].condition = rng.pick(&[CLEAN, CHANGED]);
            "the reserved block in use"
        }
        6 => {
            forged.blocks[rng.below(256)].condition = rng.pick(&[3, 0x80, 0xFF]);
            "a condition above 2"
        }
        7 => {
            forged.blocks[rng.pick(&[chip.v, 255, chip.v - 1, 0])].condition = 3;
            "a condition of 3 at an edge"
        }
        8 => {
            forged = BLANK;
            forged.len = rng.pick(&[0, chip.len]);
            "the blank mapping"
        }
        _ => {
            rng.fill(&mut forged.tickets);
            for block in &mut forged.blocks {
                block.physical = rng.byte();
                block.count = rng.byte();
                block.condition = rng.byte();
            }
            "noise"
        }
    };
    (forged, image_len, what)
}

/// A mapping that fits, and that no open need have given.
pub fn that_fits(rng: &mut Rng, chip: &Chip, m: &Mapping) -> Mapping {
    let mut forged = m.clone();
    if rng.one_in(2) {
        for i in (1..chip.v).rev() {
            let j = rng.below(i + 1);
            let held = forged.blocks[i].physical;
            forged.blocks[i].physical = forged.blocks[j].physical;
            forged.blocks[j].physical = held;
        }
    }
    // Few blocks changed on most, since each costs sums.
    let changed = if rng.one_in(8) { 2 } else { 20 };
    for i in 0..chip.v {
        if rng.one_in(3) {
            forged.blocks[i].count = rng.byte() & if chip.large { 0x7F } else { 0xFF };
        }
        let reserved = i == chip.v - 1;
        forged.blocks[i].condition = match rng.below(4) {
            _ if reserved => FREE,
            0 => FREE,
            _ if rng.one_in(changed) => CHANGED,
            _ => CLEAN,
        };
    }
    if chip.large && rng.one_in(2) {
        // High counts, for 10: at the edges, and past the blocks that count.
        let first = rng.pick(&[0, 0, 1, 100, chip.v - 2, chip.v - 1, chip.v - 1, chip.v]);
        for i in [first, rng.below(256).max(first)] {
            forged.blocks[i].count = 0x80 | rng.byte();
        }
    }
    // Past V, and on a large chip among the tickets, all is ignored and kept.
    for i in chip.v..256 {
        forged.blocks[i].physical = rng.byte();
        forged.blocks[i].count = rng.byte();
        forged.blocks[i].condition = rng.below(3) as u8;
    }
    if rng.one_in(2) {
        rng.fill(&mut forged.tickets);
    } else {
        rng.fill(&mut forged.tickets[8 * chip.v..]);
    }
    forged
}

/// A range that 9 admits.
pub fn range(rng: &mut Rng, save: usize) -> (usize, usize) {
    let edge = |rng: &mut Rng, step: usize| {
        let at = rng.below(save / step + 1) * step;
        (at + rng.below(3)).saturating_sub(1).min(save)
    };
    let place = match rng.below(8) {
        0 => 0,
        1 => save,
        2 => save - rng.below(0x400),
        3 => rng.below(save / 0x200 + 1) * 0x200,
        4 => edge(rng, 0x200),
        5 => edge(rng, BLOCK),
        _ => rng.below(save + 1),
    };
    let room = save - place;
    let n = match rng.below(16) {
        0..=2 => 0,
        3 | 4 => 1,
        5 => 511 + rng.below(3),
        6 => BLOCK - 1 + rng.below(3),
        7 => room.min(0x10000),
        8 if rng.one_in(4) => room,
        9 | 10 => rng.below(0x4000),
        _ => rng.below(0x600),
    };
    (place, n.min(room))
}

/// A range that 9 refuses.
pub fn range_past_the_save(rng: &mut Rng, save: usize) -> (usize, usize) {
    let k = rng.below(0x1800);
    match rng.below(9) {
        0 => (save, 1),
        1 => (save + 1, 0),
        2 => (save - k.min(save), k.min(save) + 1),
        3 => (0, save + 1),
        4 => (save + BLOCK, 0),
        5 => (save + 1 + k, k),
        6 => (usize::MAX - k, k),
        // Place and length together wrap round to a small number.
        7 => (usize::MAX - k, k + 1 + rng.below(2)),
        _ => ((1 << 63) + k, k),
    }
}
