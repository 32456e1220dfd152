//! `bench [--rounds N] [--only TEXT]`: measures the library and plain Rust side by side, and prints a Markdown table of times for one call
//! and of ratios. Short batches of the two take turns, on the same inputs and the same buffers, which no one clears between them. The
//! results are checked to be equal first. Times are the thread's own on the processor, so that other programs disturb them less.
//!
//! For counting instructions, `bench --calls N --side library|plain --only TEXT` runs rows N times on one side and measures nothing, and
//! `bench --titles TEXT` prints the rows and how many calls one such time is.

mod clock;
mod rows;

use compare::outcome::POISON;
use rows::{Row, Side, Work};

/// About how many seconds a batch takes.
const BATCH: f64 = 0.002;

struct Options {
    rounds: usize,
    only: String,
    calls: Option<usize>,
    side: Side,
    titles: bool,
}

fn options() -> Option<Options> {
    let mut options = Options { rounds: 101, only: String::new(), calls: None, side: Side::Library, titles: false };
    let mut words = std::env::args().skip(1);
    while let Some(name) = words.next() {
        let value = words.next()?;
        match name.as_str() {
            "--rounds" => options.rounds = value.parse().ok().filter(|n| *n > 0)?,
            "--only" => options.only = value,
            "--titles" => (options.titles, options.only) = (true, value),
            "--calls" => options.calls = Some(value.parse().ok()?),
            "--side" => options.side = Side::named(&value)?,
            _ => return None,
        }
    }
    Some(options)
}

/// Both sides write every word of the output, and give the same.
fn check(work: &mut Work, title: &str) {
    let results = Side::BOTH.map(|side| {
        work.out.fill(POISON);
        (work.call)(side, &mut work.out);
        work.out.clone()
    });
    assert!(results[0] == results[1], "{title}: the results differ");
    assert!(!results[0].contains(&POISON), "{title}: a call is declined");
}

/// Seconds that some runs of the work take.
fn time(work: &mut Work, side: Side, repeats: usize) -> f64 {
    let start = clock::seconds();
    for _ in 0..repeats {
        (work.call)(side, &mut work.out);
    }
    clock::seconds() - start
}

/// The quarter points of a list.
fn quartiles(mut list: Vec<f64>) -> [f64; 3] {
    list.sort_by(f64::total_cmp);
    [1, 2, 3].map(|i| list[(list.len() - 1) * i / 4])
}

/// The times of both sides for one call, in each round.
fn measure(row: &Row, rounds: usize) -> Vec<[f64; 2]> {
    let mut work = row.work();
    check(&mut work, &row.title());
    let once = Side::BOTH.map(|side| time(&mut work, side, 1)).into_iter().fold(0.0, f64::max);
    let repeats = ((BATCH / once) as usize).max(1);
    let mut round = |i: usize| {
        let mut pair = [0.0; 2];
        // Who goes first changes from round to round.
        for side in [i % 2, 1 - i % 2] {
            pair[side] = time(&mut work, Side::BOTH[side], repeats) / (repeats * row.items) as f64;
        }
        pair
    };
    (0..rounds).map(&mut round).collect()
}

fn print(row: &Row, pairs: &[[f64; 2]]) {
    let [library, plain] = [0, 1].map(|i| quartiles(pairs.iter().map(|pair| pair[i] * 1e6).collect()));
    let ratio = quartiles(pairs.iter().map(|pair| pair[0] / pair[1]).collect());
    let cell = |q: [f64; 3]| format!("{:.3} | {:.0} %", q[1], (q[2] - q[0]) / q[1] * 100.0);
    let title = row.title();
    println!("| {title} | {} | {} | **{:.2}** | {:.2} to {:.2} |", cell(library), cell(plain), ratio[1], ratio[0], ratio[2]);
}

fn main() {
    let Some(options) = options() else {
        eprintln!("bench [--rounds N] [--only TEXT] [--calls N --side library|plain] [--titles TEXT]");
        std::process::exit(2);
    };
    let mut rows = rows::all();
    rows.retain(|row| row.title().contains(&options.only));
    if options.titles {
        rows.iter().for_each(|row| println!("{}|{}", row.items, row.title()));
        return;
    }
    if let Some(calls) = options.calls {
        for row in rows {
            time(&mut row.work(), options.side, calls);
        }
        return;
    }
    println!("Medians of {} rounds, in microseconds a call; spread is the middle half of the rounds.\n", options.rounds);
    println!("| row | library | spread | plain | spread | ratio | spread |");
    println!("|---|---|---|---|---|---|---|");
    for row in rows {
        print(&row, &measure(&row, options.rounds));
    }
}
