//! Paper 02, K5: a desk that limits openings. No count is kept: a desk is the record as it was first lent and every call since with its answer, and
//! the record is told anew from these whenever it is asked for.

use crate::decode::{Opened, HOLDERS};
use crate::files::read_bundle;
use crate::Refusal;

/// The largest allowance of a month.
const MOST: u64 = 1000;

#[derive(Clone, Copy, Debug, PartialEq, Eq)]
enum Call {
    Start(u64),
    Open,
}

/// A record and its history.
#[derive(Clone, Debug)]
pub struct Desk {
    lent: Vec<u64>,
    past: Vec<(Call, Option<Refusal>)>,
}

fn when(declines: bool, refusal: Refusal) -> Option<Refusal> {
    declines.then_some(refusal)
}

/// The first of the refusals, which come in the paper's order.
fn first(refusals: &[Option<Refusal>]) -> Result<(), Refusal> {
    refusals.iter().flatten().next().map_or(Ok(()), |refusal| Err(*refusal))
}

impl Desk {
    /// A desk without a past. Its record has two words, or is declined.
    pub fn new(lent: &[u64]) -> Desk {
        Desk { lent: lent.to_vec(), past: vec![] }
    }

    /// The allowance of the last start that was not declined, and how many openings gave words since. Where there was no such start, the openings
    /// come on top of what was lent.
    pub fn record(&self) -> Vec<u64> {
        let done: Vec<Call> = self.past.iter().filter(|(_, refusal)| refusal.is_none()).map(|(call, _)| *call).collect();
        let since = done.iter().rev().take_while(|call| **call == Call::Open).count();
        match (done.iter().rev().nth(since), &self.lent[..]) {
            (Some(Call::Start(q)), _) => vec![*q, since as u64],
            (_, [q, count]) => vec![*q, count + since as u64],
            _ => self.lent.clone(),
        }
    }

    /// The start of a month.
    pub fn start(&mut self, q: u64) -> Result<(), Refusal> {
        let answer = first(&[when(self.lent.len() != 2, Refusal::Length), when(q > MOST, Refusal::Parameters)]);
        self.past.push((Call::Start(q), answer.err()));
        answer
    }

    /// The opening of the job at a place.
    pub fn open(&mut self, bytes: &[u8], place: usize, out: &mut [u64], wrong: &mut [u64], lowest: &mut [u8]) -> Result<(), Refusal> {
        let answer = self.opened(bytes, place, [out.len(), wrong.len(), lowest.len()]);
        self.past.push((Call::Open, answer.err()));
        answer.map(|opened| opened.put(out, wrong, lowest))
    }

    fn opened(&self, bytes: &[u8], place: usize, lengths: [usize; 3]) -> Result<Opened, Refusal> {
        let (record, bundle) = (self.record(), read_bundle(bytes));
        let [q, count] = [0, 1].map(|i| record.get(i).copied().unwrap_or(0));
        let (d, jobs) = bundle.as_ref().map_or((0, 0), |bundle| (bundle.params().d, bundle.files[0].jobs.len()));
        first(&[
            when(record.len() != 2, Refusal::Length),
            when(q > MOST, Refusal::Parameters),
            bundle.as_ref().err().copied(),
            when(lengths != [d, 1, HOLDERS], Refusal::Length),
            when(place >= jobs, Refusal::OutOfRange),
            when(count >= q, Refusal::DeskClosed),
        ])?;
        bundle?.open(place)
    }
}
