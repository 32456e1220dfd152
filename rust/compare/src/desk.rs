//! Openings through a desk: both beside each other over months of calls, each lent the record as the call before left it, and what the library's own
//! answers, and its opening without a desk, say of them.

use crate::bundles::{index, length};
use crate::library;
use crate::outcome::{number, on_desk, on_lent, on_opening, Answers, Outcome};
use crate::random::Random;
use second::{Desk, HOLDERS};

/// The largest allowance of a month.
const MOST: u64 = 1000;

/// The names under which calls on a desk are counted, by what is lent, and the answers that a long comparison must have had under each. So the
/// bundle's 1 is apart from the record's, and 2 by each thing that has a length.
pub const ASKED: [(&str, &[usize]); 9] = [
    ("desk_open", &[0, 1, 4, 5, 6, 7, 8, 9]),
    ("desk_open, closed", &[1, 4, 7, 8, 9, 10]),
    ("desk_open, other words", &[2]),
    ("desk_open, other set", &[2]),
    ("desk_open, other lowest", &[2]),
    ("desk_open, Q above 1,000", &[1]),
    ("desk_open, other record", &[2]),
    ("desk_start", &[0, 1]),
    ("desk_start, other record", &[2]),
];

/// A desk as both have it, and what the library's answers tell of it.
struct Month {
    /// As the library left it.
    record: Vec<u64>,
    second: Desk,
    /// Since a start that gave 0: its Q, and how many openings gave 0 after it.
    told: Option<[u64; 2]>,
}

/// One opening.
#[derive(Clone, Copy, Debug)]
struct Opening<'a> {
    bytes: &'a [u8],
    place: usize,
    lengths: [usize; 3],
}

impl Month {
    fn new(record: Vec<u64>) -> Month {
        Month { second: Desk::new(&record), record, told: None }
    }

    fn start(&mut self, answers: &mut Answers, q: u64) -> Result<(), String> {
        let name = if self.record.len() == 2 { "desk_start" } else { "desk_start, other record" };
        let library = on_lent(&self.record, |desk| library::desk_start(desk, q));
        let second = on_lent(&self.record, |desk| {
            let answer = number(self.second.start(q));
            desk.copy_from_slice(&self.second.record());
            answer
        });
        answers.same(name, &(&self.record, q), &library, &second)?;
        self.told = if library.answer == 0 { Some([q, 0]) } else { self.told };
        self.left(&q, &library)
    }

    fn open(&mut self, answers: &mut Answers, d: usize, asked: Opening) -> Result<(), String> {
        let Opening { bytes, place, lengths } = asked;
        let library = on_desk(&self.record, lengths, |desk, out, wrong, lowest| library::desk_open(desk, bytes, place, out, wrong, lowest));
        let second = on_desk(&self.record, lengths, |desk, out, wrong, lowest| {
            let answer = number(self.second.open(bytes, place, out, wrong, lowest));
            desk.copy_from_slice(&self.second.record());
            answer
        });
        answers.same(self.kind(d, lengths), &(&self.record, asked), &library, &second)?;
        if matches!(self.record[..], [q, count] if count < q && q <= MOST) {
            self.without(asked, &library)?;
        }
        self.told = self.told.map(|[q, count]| [q, count + u64::from(library.answer == 0)]);
        self.left(&asked, &library)
    }

    /// Under which name an opening is counted; d is that of the bundle before it was damaged.
    fn kind(&self, d: usize, lengths: [usize; 3]) -> &'static str {
        match (&self.record[..], lengths) {
            ([q, _], _) if *q > MOST => "desk_open, Q above 1,000",
            ([_, _], [words, _, _]) if words != d => "desk_open, other words",
            ([_, _], [_, set, _]) if set != 1 => "desk_open, other set",
            ([_, _], [_, _, lowest]) if lowest != HOLDERS => "desk_open, other lowest",
            ([q, count], _) if count >= q => "desk_open, closed",
            ([_, _], _) => "desk_open",
            _ => "desk_open, other record",
        }
    }

    /// What the desk lets through is what the library's opening of the place gives without one.
    fn without(&self, asked: Opening, through: &Outcome) -> Result<(), String> {
        let Opening { bytes, place, lengths } = asked;
        let alone = on_opening(lengths, |out, wrong, lowest| library::open_place(bytes, place, out, wrong, lowest));
        if alone.answer == through.answer && alone.buffers == through.buffers[..3] {
            return Ok(());
        }
        Err(format!("desk_open, beside open_place\ninputs  {:?}\nthrough {through:?}\nwithout {alone:?}", (&self.record, asked)))
    }

    /// Takes the record that a call left last, which after a start is what the answers since tell, with a count that is not above Q.
    fn left(&mut self, asked: &dyn std::fmt::Debug, library: &Outcome) -> Result<(), String> {
        let record = library.buffers.last().expect("a record").clone();
        if self.told.is_some_and(|told| record != told || told[1] > told[0]) {
            return Err(format!("a desk\ninputs  {:?}\nleft    {library:?}\nby its answers {:?}", (&self.record, asked), self.told));
        }
        self.record = record;
        Ok(())
    }
}

/// A Q, also one that is too large.
fn allowance(random: &mut Random) -> u64 {
    match random.below(8) {
        0 => 0,
        1..=4 => random.from_to(1, 3) as u64,
        5 => MOST,
        6 => random.pick(&[MOST + 1, MOST + 2, 1 << 32, 1 << 63, u64::MAX]),
        _ => random.from_to(0, MOST as usize) as u64,
    }
}

/// A record with any two words, the count often beside Q; sometimes with more words or fewer.
fn record(random: &mut Random) -> Vec<u64> {
    let q = allowance(random);
    let count = match random.below(4) {
        0 => q,
        1 => q.saturating_sub(random.from_to(1, 2) as u64),
        2 => random.pick(&[q.saturating_add(1), 1 << 32, u64::MAX - 1, u64::MAX]),
        _ => random.word() % MOST,
    };
    let mut record = vec![q, count];
    if random.one_in(16) {
        record.resize(random.wrong_length(2), 0);
    }
    record
}

/// Some calls on a desk: starts, openings of places of two bundles with so many jobs of d words, and now and then a record from elsewhere.
pub fn months(random: &mut Random, answers: &mut Answers, d: usize, jobs: usize, bundles: [&[u8]; 2]) -> Result<(), String> {
    let mut month = Month::new(record(random));
    let calls = if random.one_in(32) { 24 } else { random.from_to(4, 8) };
    for call in 0..calls {
        match random.below(8) {
            0 => month = Month::new(record(random)),
            1 => month.start(answers, allowance(random))?,
            2..=6 if call == 0 => month.start(answers, allowance(random))?,
            _ => {
                let bytes = bundles[usize::from(random.one_in(8))];
                let lengths = [length(random, d), length(random, 1), length(random, HOLDERS)];
                month.open(answers, d, Opening { bytes, place: index(random, jobs), lengths })?;
            }
        }
    }
    Ok(())
}
