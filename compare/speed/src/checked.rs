//! A read in plain Rust that makes the port's tests and hands the mapping about as the port does: what a call of one byte
//! is to be held against, since the original keeps its mapping to itself and tests nothing.

use cases::paper::{chip_of, Chip, BLOCK, CHANGED, FREE};
use port::{Answer, Mapping, Outcome};

const DOES_NOT_FIT: u8 = 8;
const OUT_OF_RANGE: u8 = 9;

/// The mapping has this chip's numbers, each once, a free reserved block, and no byte that is no condition.
fn fits(chip: &Chip, m: &Mapping) -> bool {
    let mut seen = [false; 256];
    for block in &m.blocks[..chip.v] {
        seen[usize::from(block.physical)] = true;
    }
    m.blocks.iter().all(|block| block.condition <= CHANGED)
        && seen[1..chip.p].iter().all(|&once| once)
        && m.blocks[chip.v - 1].condition == FREE
}

fn copy(image: &[u8], m: &Mapping, place: usize, buf: &mut [u8]) {
    let mut done = 0;
    while done < buf.len() {
        let (block, from) = (&m.blocks[(place + done) / BLOCK], (place + done) % BLOCK);
        let n = (BLOCK - from).min(buf.len() - done);
        let part = &mut buf[done..done + n];
        if block.condition == FREE {
            part.fill(0xFF);
        } else {
            part.copy_from_slice(&image[usize::from(block.physical) * BLOCK + from..][..n]);
        }
        done += n;
    }
}

/// Not inlined, and by value as at the boundary to C.
#[inline(never)]
pub fn read(image: &[u8], m: Mapping, place: usize, buf: &mut [u8]) -> Outcome {
    let number = match chip_of(m.len) {
        Some(chip) if m.len == image.len() && fits(chip, &m) => {
            if place <= chip.save && buf.len() <= chip.save - place {
                copy(image, &m, place, buf);
                0
            } else {
                OUT_OF_RANGE
            }
        }
        _ => DOES_NOT_FIT,
    };
    Outcome { answer: Answer { number, place: 0 }, mapping: m }
}
