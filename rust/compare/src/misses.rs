//! Texts that are nearly a job's: one line with another label, value or end, or lines in another order, too few or too many. None is the text of any
//! job.

use std::ops::Range;

/// All of them, of a job by its number, its words of k bits and its text.
pub fn near_misses(k: u64, number: u64, words: &[u64], text: &str) -> Vec<String> {
    let (lines, half) = (text.split_terminator("\r\n").collect::<Vec<&str>>(), 1i128 << (k - 1));
    let mut misses = as_a_whole(text, &lines);
    for (place, line) in lines.iter().enumerate() {
        let (label, value) = line.split_once('=').expect("a label");
        let mut values = if value.contains('.') { not_two_decimals(value) } else { not_whole(value) };
        values.extend(not_a_number(value));
        values.extend(match place {
            0 => out_of_range(0..1 << 64, number.into(), false),
            _ => out_of_range(-half..half, signed(k, words[place - 1]), value.contains('.')),
        });
        let mut others: Vec<String> = values.iter().map(|other| format!("{label}={other}\r\n")).collect();
        others.extend(other_lines(label, value));
        others.extend(lines.iter().filter(|other| *other != line).map(|other| format!("{other}\r\n")));
        let [before, after] = [&lines[..place], &lines[place + 1..]].map(|part| ended(part, "\r\n"));
        misses.extend(others.iter().map(|other| format!("{before}{other}{after}")));
    }
    misses
}

fn ended(lines: &[&str], end: &str) -> String {
    lines.iter().map(|line| format!("{line}{end}")).collect()
}

/// What a word of k bits means.
fn signed(k: u64, w: u64) -> i128 {
    i128::from(w) - if w >> (k - 1) == 1 { 1 << k } else { 0 }
}

/// More than the five lines, also by as much as a length of one byte or of two would lose, other ends of all of them, two of them swapped, and other
/// signs throughout.
fn as_a_whole(text: &str, lines: &[&str]) -> Vec<String> {
    let mut others = vec![String::new(), text.to_lowercase(), text.replace('=', ""), text.replace('=', ":"), text.replace('.', ",")];
    others.push(text.replace('.', ""));
    others.extend([1 << 8, 1 << 16].map(|more| text.to_string() + &" ".repeat(more)));
    others.extend(["\0", " ", "\r", "\n", "\r\n", "\n\r", "0", "JOB=0\r\n", "OD=1\r\n", text].map(|end| format!("{text}{end}")));
    others.extend([" ", "\0", "\r\n", "\n", "\u{feff}", "REQ=1\r\n"].map(|start| format!("{start}{text}")));
    others.extend(["\n", "\r", "\n\r", "", " ", ";", "\r\n\r\n", "\r\r\n"].map(|end| ended(lines, end)));
    for (i, j) in (0..lines.len()).flat_map(|j| (0..j).map(move |i| (i, j))) {
        let mut swapped = lines.to_vec();
        swapped.swap(i, j);
        others.push(ended(&swapped, "\r\n"));
    }
    others
}

/// A line with its end: none, two, in pieces, or with another label or end.
fn other_lines(label: &str, value: &str) -> Vec<String> {
    let (line, lower) = (format!("{label}={value}"), label.to_lowercase());
    let mut labels = vec![format!(" {label}"), format!("{label} "), format!("{label}="), format!("{label}={label}"), lower.clone()];
    labels.extend([format!("{}{}", &lower[..1], &label[1..]), format!("{}{}", &label[..1], &lower[1..]), format!("{label}\r\n")]);
    labels.extend(["", "AXIS", "REQ", &label[1..]].map(str::to_string));
    let mut others: Vec<String> = labels.iter().map(|other| format!("{other}={value}\r\n")).collect();
    others.extend(["\n", "\r", "\n\r", "\r\r\n", "\r\n\n", "\r\n\r\n", " \r\n", "", "\0", "\r\0\n"].map(|end| format!("{line}{end}")));
    others.extend(["", ":", "=\r\n", "=\r", "=\n", "= "].map(|between| format!("{label}{between}{value}\r\n")));
    others.extend([
        String::new(),
        format!("{line}\r\n{line}\r\n"),
        format!("{value}\r\n"),
        format!("{label}\r\n"),
        format!("{line};0\r\n"),
    ]);
    others
}

/// What no line has for its value, whatever its decimals are; the last is right modulo each power of two up to 2^128.
fn not_a_number(value: &str) -> Vec<String> {
    let (sign, size) = value.strip_prefix('-').map_or(("", value), |size| ("-", size));
    let mut others: Vec<String> = ["0", "00", " ", "--", "+", "\u{ff11}"].map(|between| format!("{sign}{between}{size}")).into();
    others.extend([" ", "+", "0x", "(", "\u{2212}"].map(|start| format!("{start}{size}")));
    others.extend([" ", "-", "\0", "e0", "\u{b2}"].map(|end| format!("{value}{end}")));
    others.extend(["", "-", "+", "-0", "-00", "00", "1,000", "NaN"].map(str::to_string));
    others.push(format!("{sign}1{size:0>140}"));
    others
}

/// Whole numbers that are said with decimals.
fn not_whole(value: &str) -> Vec<String> {
    [".", ".0", ".00", ",00"].map(|end| format!("{value}{end}")).into()
}

/// Other decimals than two, and zeros and digits that are too many or too few before them.
fn not_two_decimals(value: &str) -> Vec<String> {
    let (whole, decimals) = value.split_once('.').expect("a point");
    let sign = if whole.starts_with('-') { "-" } else { "" };
    let mut others = vec![whole.to_string(), format!("{whole}."), format!("{whole}.{}", &decimals[..1]), format!("{sign}.{decimals}")];
    others.extend(["", ",", "..", ". ", ".-", ".+"].map(|point| format!("{whole}{point}{decimals}")));
    others.extend(["0", "5", "."].map(|end| format!("{value}{end}")));
    others.extend(["-0.00", "-00.00", "00.00", "0", ".", "0.0", "0.000", "1,000.00"].map(str::to_string));
    others
}

/// Numbers written as export would, but out of their range: beside its ends, and such as are the right one in some of their bits.
fn out_of_range(range: Range<i128>, own: i128, decimals: bool) -> Vec<String> {
    let (size, ten) = (range.end - range.start, |power: u32| 10i128.pow(power));
    let ends = [range.end, range.start - 1, own + size, own - size, range.end + size, range.start - size];
    let far = [own + (1 << 64), own - (1 << 64), own + (1 << 72), own + (1 << 100), (1 << 64) * 100, ten(20), ten(22), ten(37), i128::MAX];
    let numbers = ends.into_iter().chain(far).filter(|number| !range.contains(number));
    numbers.map(|number| if decimals { hundredths(number) } else { number.to_string() }).collect()
}

fn hundredths(value: i128) -> String {
    let (sign, size) = (if value < 0 { "-" } else { "" }, value.unsigned_abs());
    format!("{sign}{}.{:02}", size / 100, size % 100)
}
