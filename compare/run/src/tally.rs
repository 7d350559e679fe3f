//! How often each answer was reached on each chip, and whether all that must be reached were.

use cases::aims::Fault;
use cases::paper::{Answer, Chip, CHIPS};
use std::collections::BTreeMap;

/// What is counted: a chip, and a name for what was reached there.
type Key = (usize, String);

#[derive(Default)]
pub struct Tally(BTreeMap<Key, u64>);

pub fn index_of(chip: &Chip) -> usize {
    CHIPS.iter().position(|c| c == chip).unwrap_or(0)
}

impl Tally {
    pub fn count(&mut self, chip: &Chip, what: &str) {
        self.add(chip, what, 1);
    }

    pub fn add(&mut self, chip: &Chip, what: &str, times: u64) {
        *self.0.entry((index_of(chip), what.to_string())).or_insert(0) += times;
    }

    /// An answer of a call, with its place as first, middle or last where the table leaves a choice.
    pub fn answer(&mut self, chip: &Chip, call: &str, answer: Answer) {
        self.count(chip, &format!("{call} {}", answer.number));
        if let Some(last) = last_place(chip, answer.number) {
            let spot = match answer.place {
                0 => "first",
                place if place == last => "last",
                _ => "middle",
            };
            self.count(chip, &format!("{call} {} {spot}", answer.number));
        }
    }

    fn of(&self, chip: usize, what: &str) -> u64 {
        self.0.get(&(chip, what.to_string())).copied().unwrap_or(0)
    }

    /// Prints the whole table. Gives what must be reached and was reached less often than `floor`.
    pub fn report(&self, floor: u64) -> Vec<String> {
        let mut names: Vec<&String> = self.0.keys().map(|(_, what)| what).collect();
        let required = required();
        names.extend(required.iter().map(|(_, what)| what));
        names.sort_by_key(|name| (family(name), name.len(), (*name).clone()));
        names.dedup();
        println!("{:36}{:>12}{:>12}{:>12}", "reached", CHIPS[0].name, CHIPS[1].name, CHIPS[2].name);
        for name in names {
            let cells: Vec<String> = (0..3).map(|chip| self.of(chip, name).to_string()).collect();
            println!("{name:36}{:>12}{:>12}{:>12}", cells[0], cells[1], cells[2]);
        }
        let missed = required.into_iter().filter(|(chip, what)| self.of(*chip, what) < floor);
        missed.map(|(chip, what)| format!("{what} on {}: {}", CHIPS[chip].name, self.of(chip, &what))).collect()
    }
}

/// Lines of the table stand together by their first word.
fn family(name: &str) -> String {
    name.split(' ').next().unwrap_or("").to_string()
}

/// The highest place that an answer can have on this chip, where it can have more than one.
fn last_place(chip: &Chip, number: u8) -> Option<usize> {
    match number {
        3 | 10 => Some(chip.v - 1),
        4 | 5 => Some(chip.slots - 1),
        7 => Some(8 * (chip.v - 2) + 7),
        _ => None,
    }
}

/// All that a run has to reach.
fn required() -> Vec<Key> {
    let mut all = Vec::new();
    for chip in &CHIPS {
        let mut names: Vec<String> = Vec::new();
        for number in 0..=7 {
            if number == 7 && chip.large {
                continue;
            }
            names.push(format!("open {number}"));
            if last_place(chip, number).is_some() {
                names.extend(["first", "middle", "last"].map(|spot| format!("open {number} {spot}")));
            }
        }
        let possible = Fault::ALL.into_iter().filter(|fault| fault.can_occur(chip));
        names.extend(possible.map(|fault| format!("entry broken {fault:?}")));
        names.extend(
            [
                "accepted full journal",
                "accepted v = w",
                "accepted junk in the header",
                "accepted junk in bytes 28..31",
                "accepted junk after the end",
                "copies differ, an entry",
                "copies differ, begins FF",
                "forged: a length",
                "forged: another image",
                "forged: a number of zero",
                "forged: a repeated number",
                "forged: the reserved block in use",
                "forged: a condition above 2",
                "forged: a condition of 3 at an edge",
                "forged: the blank mapping",
                "forged: noise",
                "format 0",
                "format 1",
                "read 0",
                "read 8",
                "read 9",
                "write 0",
                "write 8",
                "write 9",
                "write 0 empty unaligned, was free",
                "commit 0",
                "commit 8",
                "loose read 0",
                "loose write 0",
                "loose commit 0",
                "kept object, commit 2, written",
                "kept object, commit 3 on, written",
            ]
            .map(String::from),
        );
        let own: &[&str] = if chip.large {
            &["accepted junk in the padding", "commit 10 straight after open"]
        } else {
            &["accepted junk in free tickets", "forged: a number too high", "commit 0 with a count above 127"]
        };
        names.extend(own.iter().map(|name| name.to_string()));
        // Of a mapping that an open gave, whose journal raised the count; and of a forged one.
        if chip.large {
            for call in ["commit", "loose commit"] {
                names.push(format!("{call} 10"));
                names.extend(["first", "middle", "last"].map(|spot| format!("{call} 10 {spot}")));
            }
        }
        all.extend(names.into_iter().map(|name| (index_of(chip), name)));
    }
    all
}
