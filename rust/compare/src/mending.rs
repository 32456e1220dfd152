//! Mending: both beside each other, and what the mended bundle is by the library's other calls.

use crate::bundles::wide;
use crate::library;
use crate::outcome::{number, on_bytes, Answers, POISON};
use crate::random::Random;
use second::{Bundle, HOLDERS, NOT_WRONG};

/// A bundle mended by both, into an output of another length and into one of its own. What the library then left is opened and mended again.
pub fn mend(random: &mut Random, answers: &mut Answers, bytes: &[u8]) -> Result<(), String> {
    let other = random.wrong_length(bytes.len());
    let library = on_bytes([other, 0], |out, _| library::mend(bytes, out));
    let second = on_bytes([other, 0], |out, _| number(second::mend(bytes, out)));
    answers.same("mend, other length", &(bytes, other), &library, &second)?;
    let mut mended = vec![];
    let library = on_bytes([bytes.len(), 0], |out, _| {
        let answer = library::mend(bytes, out);
        mended = out.to_vec();
        answer
    });
    let second = on_bytes([bytes.len(), 0], |out, _| number(second::mend(bytes, out)));
    let Ok(bundle) = second::read_bundle(bytes) else {
        return answers.same("mend", &bytes, &library, &second);
    };
    let lines = bundle.changes();
    answers.same(kind(&lines, wide(bytes, 0..bundle.files[0].jobs.len())), &bytes, &library, &second)?;
    let told = changes(&bundle, bytes, &mended).and_then(|told| same("the lines", &told, &lines)).and_then(|()| again(&mended));
    told.map_err(|text| format!("mend\ninputs  {bytes:?}\nmended  {mended:?}\n{text}"))
}

/// Under which name an accepted bundle is counted, by what the program `mend` prints for it.
fn kind(lines: &str, wide: bool) -> &'static str {
    match (lines.contains("holder"), lines.contains("refused")) {
        (false, false) => "mend, none replaced",
        (false, true) => "mend, refused only",
        (true, true) => "mend, refused between",
        (true, false) if wide => "mend, wide replaced",
        (true, false) => "mend, replaced",
    }
}

fn same<T: PartialEq + std::fmt::Debug>(what: &str, found: T, expected: T) -> Result<(), String> {
    if found == expected {
        return Ok(());
    }
    Err(format!("{what}\nfound    {found:?}\nexpected {expected:?}"))
}

/// Mended once more nothing changes.
fn again(mended: &[u8]) -> Result<(), String> {
    let mut out = vec![0; mended.len()];
    same("the answer of mending again", library::mend(mended, &mut out), 0)?;
    same("mended again", &out[..], mended)
}

/// The answer, the words, the set of wrong holders and their lowest bits that the library leaves for a place.
fn opened(bytes: &[u8], place: usize, d: usize) -> (u8, Vec<u64>, u64, [u8; HOLDERS]) {
    let (mut words, mut wrong, mut lowest) = (vec![POISON; d], [POISON], [POISON as u8; HOLDERS]);
    (library::open_place(bytes, place, &mut words, &mut wrong, &mut lowest), words, wrong[0], lowest)
}

/// The lines that the program `mend` prints, from the bytes that differ and the library's openings: a job that opens has the same words when it is
/// mended and names nobody, one that declines does so as before, and the words that differ are those of the holders that were named.
fn changes(bundle: &Bundle, bytes: &[u8], mended: &[u8]) -> Result<String, String> {
    let (mut lines, mut back) = (String::new(), mended.to_vec());
    for place in 0..bundle.files[0].jobs.len() {
        let (answer, words, wrong, lowest) = opened(bytes, place, bundle.params().d);
        let (nobody, nothing) = if answer == 0 { (0, [NOT_WRONG; HOLDERS]) } else { (wrong, lowest) };
        same("the mended job", opened(mended, place, words.len()), (answer, words, nobody, nothing))?;
        let (mut named, job) = (0, bundle.files[0].jobs[place].number);
        for file in &bundle.files {
            let part = file.jobs[place].body.start + 8..file.jobs[place].body.end;
            if bytes[part.clone()] != mended[part.clone()] {
                back[part.clone()].copy_from_slice(&bytes[part]);
                named |= 1 << (file.heading.holder - 1);
                lines += &format!("{job} holder {}\n", file.heading.holder);
            }
        }
        if answer != 0 {
            lines += &format!("{job} refused {answer}\n");
        }
        same("the holders whose words differ", named, if answer == 0 { wrong } else { 0 })?;
    }
    same("all other bytes", &back[..], bytes)?;
    Ok(lines)
}
