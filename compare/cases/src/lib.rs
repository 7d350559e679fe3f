//! What the comparison needs beside the two programs: the paper's own answers, a stream of random numbers that a seed
//! fixes, and images that reach every answer.

pub mod aims;
mod draft;
pub mod images;
pub mod paper;
pub mod rng;
mod trouble;
