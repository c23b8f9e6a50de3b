//! What is printed.

use super::fault::{Code, Fault};
use super::search::{Listed, Outcome};

/// Bytes that are to be printed, before it is known whether they fit.
pub struct Lines {
    bytes: Vec<u8>,
}

/// No line of a station is longer: a number, four measures, a rank.
const MOST_LINE: usize = 11 + 4 * 6 + 21;

impl Lines {
    pub fn of_search(outcome: &Outcome) -> Lines {
        let mut lines = Lines {
            bytes: Vec::with_capacity((outcome.listed.len() + 1) * MOST_LINE),
        };
        outcome.listed.iter().for_each(|l| lines.station(l));
        match outcome.halt {
            None => {
                lines.bytes.extend_from_slice(b"done,");
                lines.number(u64::from(outcome.opened), b'\n');
            }
            Some(fault) => lines.refusal(fault),
        }
        lines
    }

    pub fn of_refusal(fault: Fault) -> Lines {
        let mut lines = Lines {
            bytes: Vec::with_capacity(MOST_LINE),
        };
        lines.refusal(fault);
        lines
    }

    /// Copies the lines to the front of the buffer, and says how many bytes they have.
    pub fn put(&self, print: &mut [u8]) -> Result<usize, Fault> {
        let length = self.bytes.len();
        let Some(front) = print.get_mut(..length) else {
            return Err(Fault::bare(Code::ShortBuffer));
        };
        front.copy_from_slice(&self.bytes);
        Ok(length)
    }

    fn station(&mut self, listed: &Listed) {
        self.number(u64::from(listed.station.number), b',');
        for m in listed.station.at.0 {
            self.number(u64::from(m), b',');
        }
        self.number(listed.rank, b'\n');
    }

    fn refusal(&mut self, fault: Fault) {
        self.bytes.extend_from_slice(b"refused,");
        self.number(fault.code as u64, b',');
        self.number(u64::from(fault.first), b',');
        self.number(u64::from(fault.second), b'\n');
    }

    /// A number in decimal, and the byte behind it.
    fn number(&mut self, mut n: u64, ender: u8) {
        let mut digits = [0; 21];
        let mut at = digits.len() - 1;
        digits[at] = ender;
        loop {
            at -= 1;
            digits[at] = b'0' + (n % 10) as u8;
            n /= 10;
            if n == 0 {
                break;
            }
        }
        self.bytes.extend_from_slice(&digits[at..]);
    }
}
