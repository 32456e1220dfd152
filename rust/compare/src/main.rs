//! `compare --openings N --bundles N --texts N --seed S`: the exit code is 1 at the first difference, which is printed in full, and where a kind of
//! lowest bit or an answer of a desk or of a text did not come in a long comparison.

use compare::outcome::Answers;
use compare::random::Random;
use compare::{bundles, desk, openings, texts};
use std::process::ExitCode;
use std::time::Instant;

struct Options {
    openings: u64,
    bundles: u64,
    texts: u64,
    seed: u64,
}

fn options() -> Result<Options, String> {
    let mut options = Options { openings: 200_000, bundles: 20_000, texts: 20_000, seed: 1 };
    let mut words = std::env::args().skip(1);
    while let Some(name) = words.next() {
        let value = words.next().and_then(|w| w.parse().ok()).ok_or(format!("{name} needs a number"))?;
        match name.as_str() {
            "--openings" => options.openings = value,
            "--bundles" => options.bundles = value,
            "--texts" => options.texts = value,
            "--seed" => options.seed = value,
            _ => return Err(format!("unknown option {name}")),
        }
    }
    Ok(options)
}

type Case = fn(&mut Random, &mut Answers) -> Result<(), String>;

/// So many cases come across every kind of lowest bit of the calls that open, and every answer of a desk and of a text.
const LONG: u64 = 10_000;

/// What a long comparison must come across: lowest bits of these calls, and these answers.
struct Asked {
    opens: &'static [&'static str],
    answers: &'static [(&'static str, &'static [usize])],
}

/// Each case has a seed of its own, so that it can be run alone.
fn run(name: &str, cases: u64, seed: u64, case: Case, asked: Asked) -> Result<(), String> {
    let start = Instant::now();
    let mut answers = Answers::default();
    let base = Random::new(seed).word();
    for i in 0..cases {
        let mut random = Random::new(Random::new(base.wrapping_add(i)).word());
        case(&mut random, &mut answers).map_err(|text| format!("{name} {i} of seed {seed} differ: {text}"))?;
    }
    println!("{cases} {name} the same, in {:.1} s; calls by their answers:\n{answers}", start.elapsed().as_secs_f64());
    let missing = [answers.missing_bits(asked.opens), answers.missing_answers(asked.answers)].concat();
    if cases >= LONG && !missing.is_empty() {
        return Err(format!("lowest bits or answers that never came: {}", missing.join("; ")));
    }
    Ok(())
}

fn main() -> ExitCode {
    let options = match options() {
        Ok(options) => options,
        Err(text) => {
            eprintln!("{text}");
            return ExitCode::from(2);
        }
    };
    println!("seed {}", options.seed);
    let of_openings = Asked { opens: &["open"], answers: &[] };
    let of_bundles = Asked { opens: &["open_place", "open_run"], answers: &desk::ASKED };
    let of_texts = Asked { opens: &[], answers: &texts::ASKED };
    let result = run("openings", options.openings, options.seed, openings::opening, of_openings)
        .and_then(|()| run("bundles", options.bundles, options.seed, bundles::bundle, of_bundles))
        .and_then(|()| run("texts", options.texts, options.seed, texts::text, of_texts));
    match result {
        Ok(()) => ExitCode::SUCCESS,
        Err(text) => {
            println!("{text}");
            ExitCode::from(1)
        }
    }
}
