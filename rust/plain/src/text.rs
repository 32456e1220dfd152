//! The text of a lens job. A job is written into an array that has room for every text; a text is read without a look at what stands between its
//! digits, and is right if it is the text of what was read.

use crate::ring::mask;
use crate::{demand, in_width, Params, Refusal};

/// The words of a job that has a text, and the bytes of the longest one.
const WORDS: usize = 4;
const ROOM: usize = 135;

const LABELS: [&[u8]; 1 + WORDS] = [b"JOB=", b"SPH=", b"CYL=", b"AX=", b"CTHICK="];

/// The line that has no decimals beside the first.
const AXIS: usize = 3;

struct Text {
    bytes: [u8; ROOM],
    length: usize,
}

impl Text {
    /// The text of a job with words in width.
    fn of(k: u64, number: u64, words: &[u64]) -> Text {
        let mut text = Text { bytes: [0; ROOM], length: 0 };
        text.line(0, false, number);
        for (line, &w) in (1..).zip(words) {
            let negative = w >> (k - 1) == 1;
            text.line(line, negative, if negative { w.wrapping_neg() & mask(k) } else { w });
        }
        text
    }

    fn bytes(&self) -> &[u8] {
        &self.bytes[..self.length]
    }

    fn put(&mut self, bytes: &[u8]) {
        self.bytes[self.length..self.length + bytes.len()].copy_from_slice(bytes);
        self.length += bytes.len();
    }

    fn line(&mut self, line: usize, negative: bool, size: u64) {
        self.put(LABELS[line]);
        if negative {
            self.put(b"-");
        }
        if line == 0 || line == AXIS {
            self.digits(size);
        } else {
            self.digits(size / 100);
            self.put(&[b'.', digit(size / 10), digit(size)]);
        }
        self.put(b"\r\n");
    }

    /// A number from its last digit on.
    fn digits(&mut self, mut number: u64) {
        let (mut digits, mut at) = ([0; 20], 19);
        digits[at] = digit(number);
        while number > 9 {
            number /= 10;
            at -= 1;
            digits[at] = digit(number);
        }
        self.put(&digits[at..]);
    }
}

fn digit(number: u64) -> u8 {
    b'0' + (number % 10) as u8
}

/// What a line says where it is right, and what follows it: the digits as one number, less than zero if there is a minus sign.
fn scan(text: &[u8]) -> (u64, &[u8]) {
    let end = text.iter().position(|b| *b == b'\n').map_or(text.len(), |at| at + 1);
    let (mut value, mut negative) = (0u64, false);
    for &byte in &text[..end] {
        negative |= byte == b'-';
        if byte.is_ascii_digit() {
            value = value.wrapping_mul(10).wrapping_add(u64::from(byte - b'0'));
        }
    }
    (if negative { value.wrapping_neg() } else { value }, &text[end..])
}

fn check(p: Params) -> Result<(), Refusal> {
    p.check()?;
    demand(p.d == WORDS, Refusal::Parameters)
}

/// How long the text of a job is.
pub fn text_size(p: Params, number: u64, words: &[u64], size: &mut [u64]) -> Result<(), Refusal> {
    check(p)?;
    demand(words.len() == WORDS && size.len() == 1, Refusal::Length)?;
    demand(in_width(p.k, words), Refusal::WideWord)?;
    size[0] = Text::of(p.k, number, words).length as u64;
    Ok(())
}

/// The text of a job, into an output of its length.
pub fn write_text(p: Params, number: u64, words: &[u64], out: &mut [u8]) -> Result<(), Refusal> {
    check(p)?;
    demand(words.len() == WORDS, Refusal::Length)?;
    demand(in_width(p.k, words), Refusal::WideWord)?;
    let text = Text::of(p.k, number, words);
    demand(out.len() == text.length, Refusal::Length)?;
    out.copy_from_slice(text.bytes());
    Ok(())
}

/// The number and the words of the job that has this text.
pub fn read_text(p: Params, text: &[u8], number: &mut [u64], words: &mut [u64]) -> Result<(), Refusal> {
    check(p)?;
    demand(number.len() == 1 && words.len() == WORDS, Refusal::Length)?;
    demand(text.len() <= ROOM, Refusal::Text)?;
    let (job, mut rest) = scan(text);
    let mut read = [0; WORDS];
    for w in &mut read {
        let (value, after) = scan(rest);
        *w = value & mask(p.k);
        rest = after;
    }
    demand(Text::of(p.k, job, &read).bytes() == text, Refusal::Text)?;
    number[0] = job;
    words.copy_from_slice(&read);
    Ok(())
}
