//! Logs with something wrong, or merely changed.

use super::random::Random;

/// Fields at and past the edges of what is allowed, and misspelled ones.
const FIELDS: [&str; 24] = [
    "",
    "0",
    "1",
    "8",
    "9",
    "00",
    "01",
    "65535",
    "65536",
    "1000",
    "1001",
    "4294967295",
    "4294967296",
    "9999999999",
    "10000000000",
    "99999999999999999999999",
    "s",
    "S",
    "W",
    "X",
    "-1",
    "+1",
    " 1",
    "1\r",
];

const BYTES: &[u8] = b",\n0123456789SW\r +-.\0\xff";

pub fn damage(random: &mut Random, text: &mut Vec<u8>) {
    match random.below(14) {
        0 => flip(random, text),
        1 => text.truncate(random.below(text.len() + 1)),
        2 => {
            let at = random.below(text.len() + 1);
            text.insert(at, random.any(BYTES));
        }
        3 if !text.is_empty() => {
            text.remove(random.below(text.len()));
        }
        // behind the last line end
        4 => text.extend_from_slice(&BYTES[..random.below(3)]),
        5 => repeat_number(random, text),
        6 => repeat_line(random, text),
        7 => {
            let field = random.any(&["0", "9", "100", "65535", "65536"]);
            edit_field(text, 0, 1, field);
        }
        // a low above its high
        8 => {
            let i = random.below(4);
            edit_field(text, 0, 2 + i, "40001");
            edit_field(text, 0, 6 + i, "40000");
        }
        9 => {
            let i = random.below(14);
            edit_field(text, 0, i, random.any(&FIELDS));
        }
        10 => crowd(random, text),
        11 if random.one_in(8) => text.resize(65_530 + random.below(12), random.any(BYTES)),
        _ => {
            let (line, i) = (random.below(lines(text) + 1), random.below(5));
            edit_field(text, line, i, random.any(&FIELDS));
        }
    }
}

pub fn flip(random: &mut Random, bytes: &mut [u8]) {
    if !bytes.is_empty() {
        let at = random.below(bytes.len());
        bytes[at] ^= 1 << random.below(8);
    }
}

fn lines(text: &[u8]) -> usize {
    text.iter().filter(|&&b| b == b'\n').count()
}

/// Where a line begins and ends, without its line end.
fn line_range(text: &[u8], line: usize) -> Option<(usize, usize)> {
    let start = match line {
        0 => 0,
        _ => 1 + nth(text, b'\n', line - 1)?,
    };
    let end = start + text[start..].iter().position(|&b| b == b'\n')?;
    Some((start, end))
}

fn nth(text: &[u8], byte: u8, n: usize) -> Option<usize> {
    text.iter()
        .enumerate()
        .filter(|&(_, &b)| b == byte)
        .nth(n)
        .map(|(at, _)| at)
}

/// Puts another field in place of one, where the line has it.
fn edit_field(text: &mut Vec<u8>, line: usize, field: usize, new: &str) {
    let Some((start, end)) = line_range(text, line) else {
        return;
    };
    let from = match field {
        0 => start,
        _ => match nth(&text[start..end], b',', field - 1) {
            Some(comma) => start + comma + 1,
            None => return,
        },
    };
    let length = text[from..end]
        .iter()
        .position(|&b| b == b',')
        .unwrap_or(end - from);
    text.splice(from..from + length, new.bytes());
}

/// Gives a station the number of another.
fn repeat_number(random: &mut Random, text: &mut Vec<u8>) {
    let count = lines(text);
    if count < 3 {
        return;
    }
    let (from, to) = (1 + random.below(count - 1), 1 + random.below(count - 1));
    let Some((start, end)) = line_range(text, from) else {
        return;
    };
    let length = text[start..end]
        .iter()
        .position(|&b| b == b',')
        .unwrap_or(end - start);
    let number = String::from_utf8_lossy(&text[start..start + length]).into_owned();
    edit_field(text, to, 0, &number);
}

fn repeat_line(random: &mut Random, text: &mut Vec<u8>) {
    let line = random.below(lines(text) + 1);
    if let Some((start, end)) = line_range(text, line) {
        let copy = text[start..=end].to_vec();
        text.extend_from_slice(&copy);
    }
}

/// Adds stations until there is one too many, or nearly.
fn crowd(random: &mut Random, text: &mut Vec<u8>) {
    let wanted = 1152 + random.below(4);
    let mut count = lines(text);
    while count < wanted {
        text.extend_from_slice(format!("{},1,2,3,4\n", 3_000_000_000 + count as u64).as_bytes());
        count += 1;
    }
    if random.one_in(3) {
        text.extend_from_slice(b"7");
    }
}
