//! What images are made for.

use crate::paper::Chip;
use crate::rng::Rng;

/// Where the trouble is to be.
#[derive(Clone, Copy, Debug, PartialEq, Eq)]
pub enum Spot {
    First,
    Middle,
    Last,
}

impl Spot {
    /// One of 0..n.
    pub fn among(self, rng: &mut Rng, n: usize) -> usize {
        match self {
            Spot::First => 0,
            Spot::Middle => 1 + rng.below(n - 2),
            Spot::Last => n - 1,
        }
    }
}

/// What an image is made for: the paper's answer in brackets. What it gives in the end is the model's to say.
#[derive(Clone, Copy, Debug, PartialEq, Eq)]
pub enum Aim {
    /// (0)
    Accepted,
    /// (0) every slot holds an entry.
    FullJournal,
    /// (0) straight from `format`, with junk around.
    Formatted,
    /// (0) the journal brings a count above 127, of a block that is first, between or last; a commit then gives 10 on
    /// a large chip. A last one is the reserved block's, which is free.
    HighCount(Spot),
    /// (1)
    Length,
    /// (2)
    MapSum(Spot),
    /// (3)
    Physical(Spot),
    /// (4)
    Copies(Spot),
    /// (5)
    Entry(Spot),
    /// (5) an entry with c = 0.
    ZeroCount,
    /// (6)
    Reserved(Spot),
    /// (7)
    Ticket(Spot),
    /// (any) a good image with one to three bytes of block zero changed.
    Damage,
    /// (any) block zero is noise.
    Noise,
}

/// The part of step 5 that an entry breaks.
#[derive(Clone, Copy, Debug, PartialEq, Eq)]
pub enum Fault {
    V,
    W,
    PZero,
    PHigh,
    QZero,
    QHigh,
    NotVs,
    NotWs,
    InUse,
    D,
    CZero,
    C,
}

impl Fault {
    pub const ALL: [Fault; 12] = [
        Fault::V,
        Fault::W,
        Fault::PZero,
        Fault::PHigh,
        Fault::QZero,
        Fault::QHigh,
        Fault::NotVs,
        Fault::NotWs,
        Fault::InUse,
        Fault::D,
        Fault::CZero,
        Fault::C,
    ];

    /// On a large chip every byte but 0xFF is below V, and every byte is below P.
    pub fn can_occur(self, chip: &Chip) -> bool {
        !(chip.large && matches!(self, Fault::V | Fault::PHigh | Fault::QHigh))
    }
}
