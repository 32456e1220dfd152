//! A second implementation of paper 01 and of K1 to K6 of paper 02, written from the papers alone and by other methods than the library's:
//! opening tries every set of t + 1 shares where there are few, and otherwise rises through the bits with Gao's decoder; a share and a value
//! are compared bit by bit; mending interpolates anew through right shares; a total is made whole before it is added to a lent element; a desk's
//! count is told from all calls since it was lent; a job's text is read by a grammar that has no other texts; the inverse is the solution of a
//! linear system; bundles are parsed into values first. It is made to be compared with the library, so it prefers plain to fast.
//!
//! Every call writes its outputs only when it succeeds.

mod bundle;
mod decode;
mod desk;
mod field;
mod files;
mod listing;
mod mending;
mod ring;
mod sharing;
mod text;

pub use bundle::{add_total, describe, fetch_body, fetch_fault, file, job_number, open_place, open_run, total};
pub use decode::{by_levels, by_subsets, Opened, HOLDERS, NOT_WRONG};
pub use desk::Desk;
pub use files::{accept, check_file, read, read_bundle, write_bundle, write_file, write_order, Bundle, File, Heading, Job};
pub use listing::{list_line, signed, LINE};
pub use mending::{mend, report};
pub use ring::{Element, Ring};
pub use sharing::{add, corrections, deal, invert, open, scale, share, Share};
pub use text::{read_text, text_size, texts, write_text};

/// The numbers of paper 01's section 'When a call declines', and of paper 02 10 of K5 and 11 of K6.
#[derive(Clone, Copy, Debug, PartialEq, Eq)]
#[repr(u8)]
pub enum Refusal {
    Parameters = 1,
    Length = 2,
    WideWord = 3,
    Holder = 4,
    TooFewShares = 5,
    NoCodeword = 6,
    Malformed = 7,
    Mismatched = 8,
    OutOfRange = 9,
    DeskClosed = 10,
    Text = 11,
}

/// A book: the bits in a word, the words in an element, the holders, the degree.
#[derive(Clone, Copy, Debug, PartialEq, Eq)]
pub struct Params {
    pub k: u64,
    pub d: usize,
    pub n: usize,
    pub t: usize,
}

impl Params {
    pub fn check(&self) -> Result<(), Refusal> {
        let ranges = (1..=64).contains(&self.k) && (2..=6).contains(&self.d) && (1..1usize << self.d).contains(&self.n) && self.t < self.n;
        demand(ranges, Refusal::Parameters)
    }

    pub fn ring(&self) -> Ring {
        Ring::new(self.k as u32, self.d)
    }
}

pub(crate) fn demand(fact: bool, otherwise: Refusal) -> Result<(), Refusal> {
    if fact {
        Ok(())
    } else {
        Err(otherwise)
    }
}

#[cfg(test)]
mod examples;
