//! Signed words and the lines of the opened bundle.

use crate::files::read_bundle;
use crate::{demand, Refusal};

/// The bytes that a buffer for one line must have at least.
pub const LINE: usize = 1024;

/// A word of k bits below 2^(k - 1) means itself; another one means itself less 2^k.
pub(crate) fn read_signed(k: u64, w: u64) -> i128 {
    let w = i128::from(w);
    if w < 1 << (k - 1) {
        w
    } else {
        w - (1 << k)
    }
}

fn join<T: ToString>(items: impl Iterator<Item = T>) -> String {
    let texts: Vec<String> = items.map(|item| item.to_string()).collect();
    if texts.is_empty() {
        "-".to_string()
    } else {
        texts.join(",")
    }
}

/// The signed reading as a word of 64 bits.
pub fn signed(k: u64, w: u64, out: &mut [u64]) -> Result<(), Refusal> {
    demand((1..=64).contains(&k), Refusal::Parameters)?;
    demand(out.len() == 1, Refusal::Length)?;
    demand(u128::from(w) < 1 << k, Refusal::WideWord)?;
    out[0] = read_signed(k, w) as u64;
    Ok(())
}

/// The line of the job at a place: its bytes at the start of `line`, how many in `length`.
pub fn list_line(bytes: &[u8], place: usize, line: &mut [u8], length: &mut [u64]) -> Result<(), Refusal> {
    let bundle = read_bundle(bytes)?;
    demand(line.len() >= LINE && length.len() == 1, Refusal::Length)?;
    let job = bundle.files[0].jobs.get(place).ok_or(Refusal::OutOfRange)?;
    let p = bundle.params();
    let text = match bundle.open(place) {
        Ok(opened) => {
            let wrong = join((1..=p.n).filter(|i| opened.wrong >> (i - 1) & 1 == 1).map(|i| format!("{i}/{}", opened.lowest[i - 1])));
            let words = join(opened.words[..p.d].iter().map(|w| read_signed(p.k, *w)));
            format!("{} open {wrong} {words}\n", job.number)
        }
        Err(refusal) => format!("{} {} - -\n", job.number, refusal as u8),
    };
    line[..text.len()].copy_from_slice(text.as_bytes());
    length[0] = text.len() as u64;
    Ok(())
}
