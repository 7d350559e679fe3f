//! What every run does whole before its cases: short sums, and damage to each byte of block zero.

use crate::case;
use crate::same::Verdict;
use crate::session;
use crate::tally::Tally;
use cases::aims::Aim;
use cases::images;
use cases::paper::{self, Chip, BLOCK, CHIPS};
use cases::rng::Rng;

/// Every input of no, one and two bytes.
pub fn short_sums() -> Verdict {
    case::sum(&[])?;
    for x in 0..=255 {
        case::sum(&[x])?;
        for y in 0..=255 {
            case::sum(&[x, y])?;
        }
    }
    Ok(())
}

/// Each byte of block zero changed, with the map signed again and not. Where the image is still accepted it is
/// committed too, since an open alone shows little.
pub fn damage(seed: u64, tally: &mut Tally) -> Verdict {
    for chip in &CHIPS {
        let mut rng = Rng::of_case(seed, u64::MAX - chip.len as u64);
        let good = sparse_image(&mut rng, chip);
        let mut image = good.clone();
        for at in 0..BLOCK {
            for signed in [true, false] {
                // Past the map signing changes nothing.
                if at >= chip.journal && !signed {
                    continue;
                }
                image[..BLOCK].copy_from_slice(&good[..BLOCK]);
                image[at] ^= rng.flip();
                if signed {
                    paper::sign(&mut image, chip);
                }
                one(chip, &image, tally).map_err(|e| {
                    format!("{}: byte {at:#x} of block zero damaged, signed again: {signed}: {e}", chip.name)
                })?;
            }
        }
    }
    Ok(())
}

fn one(chip: &'static Chip, image: &[u8], tally: &mut Tally) -> Verdict {
    let opening = session::open(image)?;
    tally.answer(chip, "damaged open", opening.answer);
    if let Some(mut session) = opening.session {
        let answer = session.commit()?;
        tally.answer(chip, "damaged commit", answer);
    }
    Ok(())
}

/// An accepted image with a few blocks in use and some entries, so that opens are quick.
fn sparse_image(rng: &mut Rng, chip: &'static Chip) -> Vec<u8> {
    loop {
        let image = images::draw(rng, chip, Aim::Accepted).image;
        let (answer, m) = paper::open(&image);
        let in_use = m.blocks.iter().filter(|block| block.condition != paper::FREE).count();
        let entries = image[chip.journal..BLOCK].chunks_exact(paper::SLOT).take_while(|slot| slot[0] != 0xFF).count();
        if answer == paper::OK && (2..8).contains(&in_use) && (2..20).contains(&entries) {
            return image;
        }
    }
}
