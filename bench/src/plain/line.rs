//! Lines of numbers in the one spelling that each has.

use super::fault::{Code, Fault};

/// What a field may hold.
#[derive(Clone, Copy, PartialEq, Eq)]
pub enum Field {
    /// `S` or `W`, read as its byte.
    Letter,
    StationNumber,
    Weight,
    /// A measure, a region's end or k.
    Short,
}

impl Field {
    fn admits(self, n: u64) -> bool {
        match self {
            Field::Letter => true,
            Field::StationNumber => (1..=u64::from(u32::MAX)).contains(&n),
            Field::Weight => n <= 1000,
            Field::Short => n <= u64::from(u16::MAX),
        }
    }

    fn read(self, field: &[u8]) -> Option<u64> {
        match (self, field) {
            (Field::Letter, [letter @ (b'S' | b'W')]) => Some(u64::from(*letter)),
            (Field::Letter, _) => None,
            _ => number(field),
        }
    }
}

/// One to ten digits, with no needless 0 in front.
fn number(field: &[u8]) -> Option<u64> {
    let spelled = matches!(field.len(), 1..=10)
        && field.iter().all(u8::is_ascii_digit)
        && (field[0] != b'0' || field.len() == 1);
    spelled.then(|| field.iter().fold(0, |n, &d| n * 10 + u64::from(d - b'0')))
}

/// Reads the line that the text begins with, and says how many bytes it has. The line's number is for the refusal.
pub fn read_line<const N: usize>(
    text: &[u8],
    fields: &[Field; N],
    line: u32,
) -> Result<([u64; N], usize), Fault> {
    quick(text, fields).ok_or_else(|| fault(text, fields, line))
}

/// One pass over a line in which all is well; nothing is said of any other.
fn quick<const N: usize>(text: &[u8], fields: &[Field; N]) -> Option<([u64; N], usize)> {
    let mut numbers = [0; N];
    let mut at = 0;
    for (i, &field) in fields.iter().enumerate() {
        let start = at;
        let n = if field == Field::Letter {
            at += 1;
            field.read(text.get(start..at)?)?
        } else {
            let mut n = 0;
            while let Some(d) = text
                .get(at)
                .map(|b| b.wrapping_sub(b'0'))
                .filter(|&d| d < 10)
            {
                // eleven digits are too many; the loop must not run on and wrap
                if at - start == 10 {
                    return None;
                }
                n = n * 10 + u64::from(d);
                at += 1;
            }
            if at == start || (text[start] == b'0' && at - start > 1) {
                return None;
            }
            n
        };
        let ender = if i + 1 < N { b',' } else { b'\n' };
        if text.get(at) != Some(&ender) || !field.admits(n) {
            return None;
        }
        at += 1;
        numbers[i] = n;
    }
    Some((numbers, at))
}

/// What is wrong with a line: how many fields, then how each is spelled, then what each says.
#[cold]
fn fault<const N: usize>(text: &[u8], fields: &[Field; N], line: u32) -> Fault {
    let Some(end) = text.iter().position(|&b| b == b'\n') else {
        return Fault::new(Code::BadField, line, 0);
    };
    let parts = || text[..end].split(|&b| b == b',');
    if parts().count() != N {
        return Fault::new(Code::BadField, line, 0);
    }
    let read = || {
        (1..).zip(
            fields
                .iter()
                .zip(parts())
                .map(|(f, part)| (f, f.read(part))),
        )
    };
    if let Some((j, _)) = read().find(|(_, (_, n))| n.is_none()) {
        return Fault::new(Code::BadField, line, j);
    }
    let (j, _) = read()
        .find(|(_, (f, n))| n.is_some_and(|n| !f.admits(n)))
        .expect("a line is sent here only when something is wrong with it");
    Fault::new(Code::OutOfRange, line, j)
}
