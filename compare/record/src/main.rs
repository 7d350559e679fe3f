//! Writes a sample of the original's answers to standard output, for a program that replays it with no Rust at hand:
//!
//!     record SEED > FILE
//!
//! The same seed gives the same file. The port has no part in it: sums, classes, mappings, buffers and images are the
//! original's; an answer's number and place, which the original has not, are those of the paper's model.
//!
//! The file, all numbers with their low byte first:
//!
//!     file    = "LWR1", u32 sums, u32 images, u32 runs, then that many of each, then "LWR1" again
//!     sum     = u32 n, n bytes, u16 sum of these bytes
//!     image   = u32 length, u16 kept, kept bytes, u8 class, u8 number, u32 place, mapping if class is 0
//!     mapping = V times (u8 physical, u8 count, u8 condition); on small chips then V times 8 tickets
//!     run     = image of class 0, u16 steps, then that many steps, then the mapping after the last
//!     step    = u8 kind, u32 place, u32 n, u8 first, u16 sum, u16 sum of the rest
//!
//! An image is rebuilt from its length and the kept bytes. The kept bytes are the first ones of block zero; the rest of
//! block zero is 0xFF. Past block zero, the byte at an even place is the low byte of its sector's number (place / 512),
//! and the byte at an odd place the high byte. An image of class 1 keeps none, and may be shorter than block zero.
//!
//! The class is open's: 0 accepted, 1 SizeMismatch, 2 SignatureMismatch, 3 InvalidValue. Steps 1 to 6 alone give the
//! same number and place, except where the number is 7: there they accept.
//!
//! A step's kind: 0 read, 1 write, 2 commit (place, n and first are 0). Byte j of a write is
//! (first + j + j / 256) mod 256. After a read the first sum is that of the buffer, and the second is 0. After a write
//! or a commit the first is that of the map's bytes, and the second that of the image from there on. They are two,
//! since the sum over a map and its own stored sum is 0 whatever the map holds.

use cases::aims::{Aim, Spot};
use cases::images;
use cases::paper::{self, Answer, Chip, BLOCK, CHIPS, SECTOR, SLOT};
use cases::rng::Rng;
use oracle::{Failure, Image, Opened};
use std::io::{self, IsTerminal, Write};
use std::process::ExitCode;

/// What the file starts and ends with.
const MARK: &[u8; 4] = b"LWR1";

/// How often each aim is taken on each chip.
const OF_EACH: usize = 4;
const RUNS_OF_EACH_CHIP: usize = 10;

const AIMS: [Aim; 21] = [
    Aim::Accepted,
    Aim::Accepted,
    Aim::Accepted,
    Aim::FullJournal,
    Aim::Formatted,
    Aim::Length,
    Aim::MapSum(Spot::First),
    Aim::MapSum(Spot::Last),
    Aim::Physical(Spot::First),
    Aim::Physical(Spot::Middle),
    Aim::Physical(Spot::Last),
    Aim::Copies(Spot::First),
    Aim::Copies(Spot::Last),
    Aim::Entry(Spot::First),
    Aim::Entry(Spot::First),
    Aim::Entry(Spot::First),
    Aim::Entry(Spot::Last),
    Aim::Reserved(Spot::First),
    Aim::Ticket(Spot::First),
    Aim::Ticket(Spot::Middle),
    Aim::Ticket(Spot::Last),
];

fn main() -> ExitCode {
    let seed = std::env::args().nth(1).and_then(|word| word.parse::<u64>().ok());
    let (Some(seed), false) = (seed, io::stdout().is_terminal()) else {
        eprintln!("record SEED > FILE");
        return ExitCode::from(2);
    };
    let mut rng = Rng::of_case(seed, 0);
    let sums = sums(&mut rng);
    let images = sample(&mut rng);
    let runs = runs(&mut rng);

    let mut file = MARK.to_vec();
    for part in [&sums, &images, &runs] {
        file.extend((part.len() as u32).to_le_bytes());
    }
    for part in [sums, images, runs] {
        file.extend(part.concat());
    }
    file.extend(MARK);
    eprintln!("{} bytes", file.len());
    match io::stdout().write_all(&file) {
        Ok(()) => ExitCode::SUCCESS,
        Err(failure) => {
            eprintln!("standard output: {failure}");
            ExitCode::FAILURE
        }
    }
}

fn sums(rng: &mut Rng) -> Vec<Vec<u8>> {
    let lengths = (0..24).chain([31, 32, 33, 255, 256, 257, 511, 512, 513, 0x13E, 0x3FE, 0x4FE]);
    let one = |n: usize| {
        let mut bytes = vec![0; n];
        rng.fill(&mut bytes);
        let mut record = (n as u32).to_le_bytes().to_vec();
        record.extend(&bytes);
        record.extend(oracle::crc16_ninty(&bytes).to_le_bytes());
        record
    };
    lengths.map(one).collect()
}

fn sample(rng: &mut Rng) -> Vec<Vec<u8>> {
    let mut images = Vec::new();
    for chip in &CHIPS {
        for aim in AIMS {
            for _ in 0..OF_EACH {
                let image = draw(rng, chip, aim);
                let answer = paper::open(&image).0;
                // Outside the domain the original's builds part, and nothing is recorded.
                if !paper::has_zero_count_entry(&image, answer) {
                    images.push(image_record(&image, answer, &Image::new(&image).open()));
                }
            }
        }
    }
    images
}

/// An image for this aim that can be rebuilt from its length and the first bytes of block zero.
fn draw(rng: &mut Rng, chip: &'static Chip, aim: Aim) -> Vec<u8> {
    let mut image = images::draw_over(rng, chip, aim, known_data).image;
    if image.len() != chip.len {
        known_data(&mut image);
        image.iter_mut().take(BLOCK).for_each(|byte| *byte = 0xFF);
        return image;
    }
    let mut zero = image[..BLOCK].to_vec();
    known_data(&mut image);
    // Most journals are blank after the slot that decides, so that the file stays small.
    if !rng.one_in(8) {
        let ends = |slot: &[u8]| slot[0] == 0xFF;
        let answer = paper::open(&image_of(&image, &zero)).0;
        let end = match answer.number {
            4 | 5 => answer.place,
            _ => zero[chip.journal..].chunks_exact(SLOT).position(ends).unwrap_or(chip.slots - 1),
        };
        zero[chip.journal + (end + 1) * SLOT..].fill(0xFF);
    }
    image[..BLOCK].copy_from_slice(&zero);
    image
}

fn image_of(data: &[u8], zero: &[u8]) -> Vec<u8> {
    let mut image = data.to_vec();
    image[..BLOCK].copy_from_slice(zero);
    image
}

/// The bytes past block zero that the reader of the file can make for itself.
fn known_data(image: &mut [u8]) {
    for (place, byte) in image.iter_mut().enumerate().skip(BLOCK) {
        let [low, high, ..] = (place / SECTOR).to_le_bytes();
        *byte = if place % 2 == 0 { low } else { high };
    }
}

fn image_record(image: &[u8], answer: Answer, opened: &Result<Opened, Failure>) -> Vec<u8> {
    let class = match opened {
        Ok(_) => 0,
        Err(Failure::SizeMismatch) => 1,
        Err(Failure::SignatureMismatch) => 2,
        Err(Failure::InvalidValue) => 3,
        Err(failure) => panic!("the original left its three errors: {failure:?}"),
    };
    let zero = &image[..BLOCK.min(image.len())];
    let kept = zero.iter().rposition(|byte| *byte != 0xFF).map_or(0, |last| last + 1);
    let mut record = (image.len() as u32).to_le_bytes().to_vec();
    record.extend((kept as u16).to_le_bytes());
    record.extend(&zero[..kept]);
    record.extend([class, answer.number]);
    record.extend((answer.place as u32).to_le_bytes());
    if let Ok(opened) = opened {
        record.extend(mapping_record(image.len(), opened));
    }
    record
}

fn mapping_record(len: usize, opened: &Opened) -> Vec<u8> {
    let blocks = opened.blocks();
    let condition = |block: &oracle::Block| u8::from(block.initialized) + u8::from(block.dirty);
    let mut record: Vec<u8> = blocks.iter().flat_map(|b| [b.physical, b.count, condition(b)]).collect();
    if paper::chip_of(len).is_some_and(|chip| !chip.large) {
        record.extend(blocks.iter().flat_map(|block| block.tickets));
    }
    record
}

fn runs(rng: &mut Rng) -> Vec<Vec<u8>> {
    let mut runs = Vec::new();
    for chip in &CHIPS {
        for _ in 0..RUNS_OF_EACH_CHIP {
            runs.push(run(rng, chip));
        }
    }
    runs
}

fn run(rng: &mut Rng, chip: &'static Chip) -> Vec<u8> {
    let (lent, opened, mut record) = loop {
        let image = draw(rng, chip, Aim::Accepted);
        // A count above 127 on a large chip is outside the domain of commit.
        let (answer, m) = paper::open(&image);
        let commits = !chip.large || m.blocks.iter().all(|block| block.count < 0x80);
        let lent = Image::new(&image);
        let opened = lent.open();
        let record = image_record(&image, answer, &opened);
        if let (Ok(opened), true) = (opened, commits) {
            break (lent, opened, record);
        }
    };
    let steps = 3 + rng.below(8);
    record.extend((steps as u16).to_le_bytes());
    for step in 0..steps {
        // A commit last, so that the final mapping has new tickets.
        let kind = if step + 1 == steps { 2 } else { rng.pick(&[0, 0, 1, 1, 2]) };
        let place = place(rng, chip, &opened, kind == 0);
        let n = rng.pick(&[0, 1, SECTOR, SECTOR + 1, 3 * BLOCK]).min(chip.save - place);
        let (place, n, first) = if kind == 2 { (0, 0, 0) } else { (place, n, rng.byte()) };
        record.push(kind);
        record.extend((place as u32).to_le_bytes());
        record.extend((n as u32).to_le_bytes());
        record.push(first);
        let (sum, rest) = done(chip, &lent, &opened, kind, place, n, first);
        record.extend(sum.to_le_bytes());
        record.extend(rest.to_le_bytes());
    }
    record.extend(mapping_record(chip.len, &opened));
    record
}

/// Where a step starts: most reads start in a block that is in use, so that they see more than 0xFF.
fn place(rng: &mut Rng, chip: &Chip, opened: &Opened, read: bool) -> usize {
    let blocks = opened.blocks();
    let used: Vec<usize> = (0..chip.v - 1).filter(|&v| blocks[v].initialized).collect();
    if read && !used.is_empty() && !rng.one_in(4) {
        return rng.pick(&used) * BLOCK + rng.below(BLOCK);
    }
    if rng.one_in(2) {
        rng.below(chip.save)
    } else {
        rng.below(chip.save / SECTOR) * SECTOR
    }
}

/// Does one step on the original, and gives the two sums that tell of it.
fn done(chip: &Chip, lent: &Image, opened: &Opened, kind: u8, place: usize, n: usize, first: u8) -> (u16, u16) {
    let mut bytes: Vec<u8> = (0..n).map(|j| (usize::from(first) + j + j / 256) as u8).collect();
    let answer = match kind {
        0 => opened.read(place, &mut bytes),
        1 => opened.write(place, &bytes),
        _ => opened.commit(),
    };
    assert_eq!(answer, Ok(()), "the original refused a step of the domain");
    if kind == 0 {
        return (oracle::crc16_ninty(&bytes), 0);
    }
    let image = lent.bytes();
    let (map, rest) = image.split_at(chip.map);
    (oracle::crc16_ninty(map), oracle::crc16_ninty(rest))
}
