//! The intended differences, each with its smallest input: what the original does there in this build, and that the
//! port answers as the paper says. docs/DIFFERENCES.md lists them; a run fails where either does otherwise.

use crate::pair::Pair;
use crate::same::{self, Verdict};
use cases::paper::{self, Answer, Chip, BLOCK, CHIPS, SLOT};
use cases::rng::Rng;
use oracle::{Failure, Image, Opened};

/// What was seen of the original, and the port's answer, which is the paper's.
struct Seen {
    input: String,
    original: String,
    port: Answer,
}

/// What the list says: the input, the original with overflow checks, the original without, the port.
type Listed = (&'static str, &'static str, &'static str, Answer);

const fn refused(number: u8, place: usize) -> Answer {
    Answer { number, place }
}

const LIST: [Listed; 12] = [
    ("c = 0, w's count 0, 128 KiB", "panics", "InvalidValue", refused(5, 0)),
    ("c = 0, w's count 255, 128 KiB", "panics", "accepts: block 0 in use with count 0", refused(5, 0)),
    ("c = 0, w's count 127, 1 MiB", "panics", "InvalidValue", refused(5, 0)),
    ("read of 1 at 122880", "accepts", "accepts", refused(9, 0)),
    ("read of 1 at 126976", "panics", "panics", refused(9, 0)),
    ("read of 2 at the last place of all", "panics", "accepts", refused(9, 0)),
    ("write of 1 at 122880", "accepts; after commit, open: InvalidValue", "as checked", refused(9, 0)),
    ("empty write at 122881", "accepts; after commit, open: InvalidValue", "as checked", refused(9, 0)),
    ("write of 4097 at 122880", "panics; 4096 bytes are stored", "as checked", refused(9, 0)),
    ("write of 2 at the last place of all", "panics", "accepts; after commit, open: accepts", refused(9, 0)),
    ("count 128, in use, 1 MiB", "panics", "accepts; item 0 is 00 FF; open: block 0 is free", refused(10, 0)),
    ("count 128, free, 1 MiB", "accepts; open: InvalidValue", "as checked", refused(10, 254)),
];

/// Runs the list; prints it if asked to.
pub fn check(print: bool) -> Verdict {
    let all = seen()?;
    for (seen, (input, checked, release, port)) in all.iter().zip(LIST) {
        let plain = if release == "as checked" { checked } else { release };
        let original = if oracle::overflow_panics() { checked } else { plain };
        if print {
            println!("{}\n    the original {}\n    the port {:?}", seen.input, seen.original, seen.port);
        }
        same::number("input", "the code", seen.input.as_str(), "the list", input)?;
        same::number(input, "the original", seen.original.as_str(), "the list", original)?;
        same::number(input, "the port", seen.port, "the list", port)?;
    }
    same::number("intended differences", "the code", all.len(), "the list", LIST.len())
}

fn seen() -> Result<Vec<Seen>, String> {
    let (small, large) = (&CHIPS[0], &CHIPS[2]);
    let mut all = vec![
        zero_count("c = 0, w's count 0, 128 KiB", small, 0)?,
        zero_count("c = 0, w's count 255, 128 KiB", small, 255)?,
        zero_count("c = 0, w's count 127, 1 MiB", large, 127)?,
        read("read of 1 at 122880", 122_880, 1)?,
        read("read of 1 at 126976", 126_976, 1)?,
        read("read of 2 at the last place of all", usize::MAX, 2)?,
        write("write of 1 at 122880", 122_880, 1)?,
        write("empty write at 122881", 122_881, 0)?,
        write("write of 4097 at 122880", 122_880, 4097)?,
        write("write of 2 at the last place of all", usize::MAX, 2)?,
    ];
    all.extend(high_counts(large)?);
    Ok(all)
}

fn in_words<T>(answer: &Result<T, Failure>) -> String {
    match answer {
        Ok(_) => "accepts".to_string(),
        Err(Failure::Panicked) => "panics".to_string(),
        Err(failure) => format!("{failure:?}"),
    }
}

fn formatted(chip: &Chip) -> Vec<u8> {
    let mut image = vec![0; chip.len];
    paper::format(&mut image);
    image
}

fn put_entry(image: &mut [u8], chip: &Chip, slot: usize, entry: [u8; 6], tickets: [u8; 8]) {
    let at = chip.journal + slot * SLOT;
    image[at..at + 6].copy_from_slice(&entry);
    image[at + 6..at + 14].copy_from_slice(&tickets);
    image.copy_within(at..at + 14, at + 14);
}

/// A formatted image whose reserved block has this count.
fn with_reserved_count(chip: &Chip, count: u8) -> Vec<u8> {
    let mut image = formatted(chip);
    image[8 + (chip.v - 1) * chip.item + usize::from(!chip.large)] = count;
    paper::sign(&mut image, chip);
    image
}

/// Slot 0 is v 0, w V − 1, p P − 1, q 1, c 0, d 0, with tickets that fit.
fn zero_count(input: &str, chip: &Chip, w_count: u8) -> Result<Seen, String> {
    let mut image = with_reserved_count(chip, w_count);
    let tickets = paper::tickets_that_fit(&image, chip.p - 1);
    put_entry(&mut image, chip, 0, [0, (chip.v - 1) as u8, (chip.p - 1) as u8, 1, 0, 0], tickets);
    let opened = Image::new(&image).open();
    let mut original = in_words(&opened);
    if let Ok(opened) = opened {
        let block = opened.blocks()[0];
        let state = if block.initialized { "in use" } else { "free" };
        original += &format!(": block 0 {state} with count {}", block.count);
    }
    let (port, _) = Pair::new(&image).open().map_err(|what| format!("{input}: {what}"))?;
    Ok(Seen { input: input.to_string(), original, port })
}

fn open_formatted() -> Result<(Image, Opened, Pair, paper::Mapping), String> {
    let image = formatted(&CHIPS[0]);
    let original = Image::new(&image);
    let opened = original.open().map_err(|failure| format!("a formatted image: {failure:?}"))?;
    let mut pair = Pair::new(&image);
    let (_, m) = pair.open()?;
    Ok((original, opened, pair, m))
}

/// A read on a formatted 128 KiB image.
fn read(input: &str, place: usize, n: usize) -> Result<Seen, String> {
    let (_, opened, mut pair, m) = open_formatted()?;
    let original = in_words(&opened.read(place, &mut vec![0; n]));
    let answer = pair.read(&mut Rng::of_case(0, 0), m.len, &m, place, n);
    let (port, _) = answer.map_err(|what| format!("{input}: {what}"))?;
    Ok(Seen { input: input.to_string(), original, port })
}

/// A write of 0x11 on a formatted 128 KiB image of zeros, then a commit and an open.
fn write(input: &str, place: usize, n: usize) -> Result<Seen, String> {
    let (image, opened, mut pair, mut m) = open_formatted()?;
    let bytes = vec![0x11; n];
    let answer = opened.write(place, &bytes);
    let mut original = in_words(&answer);
    let stored = image.bytes()[BLOCK..].iter().filter(|byte| **byte == 0x11).count();
    if answer.is_ok() {
        let committed = opened.commit();
        same::class(&committed, paper::OK)?;
        original += &format!("; after commit, open: {}", in_words(&image.open()));
    } else if stored > 0 {
        original += &format!("; {stored} bytes are stored");
    }
    let port = pair.write(m.len, &mut m, place, &bytes).map_err(|what| format!("{input}: {what}"))?;
    Ok(Seen { input: input.to_string(), original, port })
}

/// Commits of a 1 MiB image with a count of 128: case L, and the same with one more entry, which leaves it free.
fn high_counts(chip: &Chip) -> Result<[Seen; 2], String> {
    let mut image = with_reserved_count(chip, 127);
    put_entry(&mut image, chip, 0, [0, 254, 255, 1, 128, 0], [0; 8]);
    let in_use = high_count(&image, |after| {
        let item = format!("item 0 is {:02X} {:02X}", after.bytes()[8], after.bytes()[9]);
        let block = after.open().map(|opened| opened.blocks()[0].initialized);
        format!("{item}; open: block 0 is {}", if block == Ok(false) { "free" } else { "not free" })
    })?;
    put_entry(&mut image, chip, 1, [0, 254, 1, 255, 1, 128], [0; 8]);
    let free = high_count(&image, |after| format!("open: {}", in_words(&after.open())))?;
    Ok([
        Seen { input: "count 128, in use, 1 MiB".to_string(), original: in_use.0, port: in_use.1 },
        Seen { input: "count 128, free, 1 MiB".to_string(), original: free.0, port: free.1 },
    ])
}

fn high_count(image: &[u8], afterwards: impl Fn(&Image) -> String) -> Result<(String, Answer), String> {
    let lent = Image::new(image);
    let opened = lent.open().map_err(|failure| format!("a count of 128: {failure:?}"))?;
    let answer = opened.commit();
    let mut original = in_words(&answer);
    if answer.is_ok() {
        original += &format!("; {}", afterwards(&lent));
    }
    let mut pair = Pair::new(image);
    let port = pair.open().and_then(|(_, mut m)| pair.commit(m.len, &mut m));
    Ok((original, port.map_err(|what| format!("count 128, 1 MiB: {what}"))?))
}
