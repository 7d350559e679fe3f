//! When two results are the same, and what to say when they are not.

use cases::paper::{self, Answer, Block, Mapping, BLANK, CHANGED, CLEAN, FREE};
use oracle::Failure;

/// Nothing, or the difference in words.
pub type Verdict = Result<(), String>;

pub fn bytes(what: &str, whose: &str, got: &[u8], judge: &str, expected: &[u8]) -> Verdict {
    if got == expected {
        return Ok(());
    }
    if got.len() != expected.len() {
        return Err(format!("{what}: {} bytes in {whose}, {} in {judge}", got.len(), expected.len()));
    }
    let at = got.iter().zip(expected).position(|(x, y)| x != y).unwrap_or(0);
    Err(format!("{what}: byte {at:#x} is {:#04x} in {whose} and {:#04x} in {judge}", got[at], expected[at]))
}

pub fn number<T: PartialEq + std::fmt::Debug>(what: &str, whose: &str, got: T, judge: &str, expected: T) -> Verdict {
    if got == expected {
        return Ok(());
    }
    Err(format!("{what}: {got:?} in {whose} and {expected:?} in {judge}"))
}

pub fn mapping(whose: &str, got: &Mapping, judge: &str, expected: &Mapping) -> Verdict {
    if got == expected {
        return Ok(());
    }
    number("the mapping's length", whose, got.len, judge, expected.len)?;
    for i in 0..256 {
        number(&format!("mapping, block {i}"), whose, got.blocks[i], judge, expected.blocks[i])?;
    }
    bytes("mapping, tickets", whose, &got.tickets, judge, &expected.tickets)
}

/// The port's answer is the paper's, number and place.
pub fn answer(got: port::Answer, expected: Answer) -> Verdict {
    let got = Answer { number: got.number, place: got.place };
    number("answer", "the port", got, "the paper", expected)
}

/// The original's answer is the one that the table's last column has for this number.
pub fn class<T>(got: &Result<T, Failure>, expected: Answer) -> Verdict {
    let got = got.as_ref().err().copied();
    let rust = match expected.number {
        0 => None,
        1 => Some(Failure::SizeMismatch),
        2 | 4 | 7 => Some(Failure::SignatureMismatch),
        3 | 5 | 6 => Some(Failure::InvalidValue),
        added => return Err(format!("the original was asked where only the paper answers, with {added}")),
    };
    number(
        &format!("class for answer {} at {}", expected.number, expected.place),
        "the original",
        got,
        "the table",
        rust,
    )
}

/// What the original holds, as the paper's mapping.
pub fn of_original(len: usize, blocks: &[oracle::Block]) -> Result<Mapping, String> {
    let mut m = Mapping { len, ..BLANK };
    for (i, block) in blocks.iter().enumerate() {
        let condition = match (block.initialized, block.dirty) {
            (false, false) => FREE,
            (true, false) => CLEAN,
            (true, true) => CHANGED,
            (false, true) => return Err(format!("the original holds block {i} as dirty and not initialized")),
        };
        m.blocks[i] = Block { physical: block.physical, count: block.count, condition };
        m.tickets_of(i).copy_from_slice(&block.tickets);
    }
    Ok(m)
}

pub fn of_port(m: &port::Mapping) -> Mapping {
    let blocks =
        m.blocks.map(|block| Block { physical: block.physical, count: block.count, condition: block.condition });
    Mapping { len: m.len, blocks, tickets: m.tickets }
}

pub fn to_port(m: &Mapping) -> port::Mapping {
    let blocks =
        m.blocks.map(|block| port::Block { physical: block.physical, count: block.count, condition: block.condition });
    port::Mapping { len: m.len, blocks, tickets: m.tickets }
}

/// The port's `len` is the paper's.
pub fn save_len(m: &Mapping) -> Verdict {
    number("len", "the port", port::len(to_port(m)), "the paper", paper::len(m))
}
