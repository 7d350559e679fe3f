//! Times of the port and of the original, side by side in one process, on the same inputs.
//!
//! Both are warm: each job is done twice before its first timed round, with the same buffers. In each round the two
//! take turns, and the table has the medians. A job that takes well under a microsecond is done many times a round. In the
//! line "read, 1 byte, tested" a Rust function that makes the port's tests takes the original's place.

mod checked;

use cases::paper::{Chip, CHIPS};
use cases::rng::Rng;
use oracle::{Failure, Image, Opened};
use std::hint::black_box;
use std::time::Instant;

const ROUNDS: usize = 31;
const TINY: usize = 2000;

fn main() {
    if cfg!(debug_assertions) || oracle::overflow_panics() {
        println!("this build is not plain release: its times say little");
    }
    println!("Microseconds, median of {ROUNDS} rounds, warm buffers, full chips: every block of the save in use.");
    println!("{:10}{:24}{:>12}{:>12}{:>8}", "chip", "job", "original", "port", "ratio");
    for chip in &CHIPS {
        let mut bench = Bench::new(chip);
        bench.open();
        bench.read_whole();
        bench.write_whole();
        bench.commit_changed();
        bench.commit_unchanged();
        bench.read_byte();
        bench.read_byte_tested();
        bench.write_byte();
        bench.copy();
    }
    sums();
}

fn median(mut times: Vec<f64>) -> f64 {
    times.sort_by(f64::total_cmp);
    times[times.len() / 2]
}

/// The call alone: what it gives is dropped after the clock was read.
fn micros<T>(job: impl FnOnce() -> T) -> f64 {
    let began = Instant::now();
    let given = black_box(job());
    let time = began.elapsed();
    drop(given);
    time.as_secs_f64() * 1e6
}

/// Both jobs in turn. Each gives its own time, so that it can get ready first.
fn side_by_side(chip: &str, job: &str, mut original: impl FnMut() -> f64, mut port: impl FnMut() -> f64) {
    let (mut theirs, mut ours) = (Vec::new(), Vec::new());
    for round in 0..ROUNDS + 2 {
        let (a, b) = (original(), port());
        if round >= 2 {
            theirs.push(a);
            ours.push(b);
        }
    }
    let (theirs, ours) = (median(theirs), median(ours));
    println!("{chip:10}{job:24}{theirs:>12.3}{ours:>12.3}{:>8.2}", ours / theirs);
}

fn done(answer: Result<(), Failure>) {
    assert_eq!(black_box(answer), Ok(()));
}

fn accepted(outcome: port::Outcome) -> port::Mapping {
    assert_eq!(black_box(&outcome).answer.number, 0);
    outcome.mapping
}

/// A full chip, opened by both.
struct Bench {
    chip: &'static Chip,
    save: Vec<u8>,
    lent: Image,
    opened: Opened,
    image: Vec<u8>,
    m: port::Mapping,
}

impl Bench {
    fn new(chip: &'static Chip) -> Bench {
        let mut save = vec![0; chip.save];
        Rng::of_case(1, chip.len as u64).fill(&mut save);
        let lent = Image::new(&vec![0; chip.len]);
        done(lent.format());
        let opened = open(&lent);
        done(opened.write(0, &save));
        done(opened.commit());
        let mut image = lent.bytes().to_vec();
        let m = accepted(port::open(&mut image));
        Bench { chip, save, lent, opened, image, m }
    }

    fn open(&mut self) {
        let original = || micros(|| open(&self.lent));
        let port = || micros(|| accepted(port::open(&mut self.image)));
        side_by_side(self.chip.name, "open", original, port);
    }

    fn read_whole(&mut self) {
        let (mut theirs, mut ours) = (vec![0; self.chip.save], vec![0; self.chip.save]);
        let original = || micros(|| done(self.opened.read(0, black_box(&mut theirs))));
        let port = || micros(|| accepted(port::read(&mut self.image, self.m, 0, black_box(&mut ours))));
        side_by_side(self.chip.name, "read, whole", original, port);
        assert!(theirs == self.save && ours == self.save);
    }

    fn write_whole(&mut self) {
        let original = || micros(|| done(self.opened.write(0, black_box(&self.save))));
        let port = || micros(|| self.m = accepted(port::write(&mut self.image, self.m, 0, black_box(&self.save))));
        side_by_side(self.chip.name, "write, whole", original, port);
    }

    fn commit_changed(&mut self) {
        let original = || {
            done(self.opened.write(0, &self.save));
            micros(|| done(self.opened.commit()))
        };
        let port = || {
            self.m = accepted(port::write(&mut self.image, self.m, 0, &self.save));
            micros(|| self.m = accepted(port::commit(&mut self.image, self.m)))
        };
        side_by_side(self.chip.name, "commit, all changed", original, port);
        assert!(*self.lent.bytes() == self.image);
    }

    fn commit_unchanged(&mut self) {
        let original = || micros(|| done(self.opened.commit()));
        let port = || micros(|| self.m = accepted(port::commit(&mut self.image, self.m)));
        side_by_side(self.chip.name, "commit, none changed", original, port);
    }

    fn read_byte(&mut self) {
        let place = self.chip.save / 2;
        let (mut theirs, mut ours) = ([0], [0]);
        let original = || {
            let one = |_| done(self.opened.read(black_box(place), &mut theirs));
            micros(|| (0..TINY).for_each(one)) / TINY as f64
        };
        let port = || {
            let one = |_| self.m = accepted(port::read(&mut self.image, self.m, black_box(place), &mut ours));
            micros(|| (0..TINY).for_each(one)) / TINY as f64
        };
        side_by_side(self.chip.name, "read, 1 byte", original, port);
    }

    fn read_byte_tested(&mut self) {
        let place = self.chip.save / 2;
        let (mut theirs, mut ours) = ([0], [1]);
        let (mut kept, mut m) = (self.m, self.m);
        let tested = || {
            let one = |_| kept = accepted(checked::read(&self.image, kept, black_box(place), &mut theirs));
            micros(|| (0..TINY).for_each(one)) / TINY as f64
        };
        let mut image = self.image.clone();
        let port = || {
            let one = |_| m = accepted(port::read(&mut image, m, black_box(place), &mut ours));
            micros(|| (0..TINY).for_each(one)) / TINY as f64
        };
        side_by_side(self.chip.name, "read, 1 byte, tested", tested, port);
        assert!(theirs == ours && kept == m);
    }

    fn write_byte(&mut self) {
        let place = self.chip.save / 2;
        let original = || {
            let one = |_| done(self.opened.write(black_box(place), &[7]));
            micros(|| (0..TINY).for_each(one)) / TINY as f64
        };
        let port = || {
            let one = |_| self.m = accepted(port::write(&mut self.image, self.m, black_box(place), &[7]));
            micros(|| (0..TINY).for_each(one)) / TINY as f64
        };
        side_by_side(self.chip.name, "write, 1 byte", original, port);
        assert!(*self.lent.bytes() == self.image);
    }

    /// The limit: a copy of the save's bytes, the same code in both columns.
    fn copy(&mut self) {
        let mut to = vec![0; self.chip.save];
        let mut copy = || micros(|| black_box(&mut to).copy_from_slice(black_box(&self.save)));
        let times = (0..ROUNDS).map(|_| copy()).collect();
        println!("{:10}{:24}{:>12.3}", self.chip.name, "memcpy of the save", median(times));
    }
}

fn open(lent: &Image) -> Opened {
    match lent.open() {
        Ok(opened) => opened,
        Err(failure) => panic!("a full chip does not open: {failure:?}"),
    }
}

fn sums() {
    let mut bytes = vec![0; 512 << 10];
    Rng::of_case(1, 0).fill(&mut bytes);
    assert_eq!(oracle::crc16_ninty(&bytes), port::crc16(&bytes));
    let original = || micros(|| oracle::crc16_ninty(black_box(&bytes)));
    let port = || micros(|| port::crc16(black_box(&bytes)));
    side_by_side("any", "sum of 512 KiB", original, port);
}
