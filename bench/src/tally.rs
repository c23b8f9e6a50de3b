//! What was compared, and how each call ended.

use crate::reply::Reply;

/// The calls of the library.
#[derive(Clone, Copy, Debug, PartialEq, Eq)]
pub enum Call {
    CheckLog,
    CheckBook,
    Bind,
    Pick,
    Ask,
}

const CALLS: [Call; 5] = [
    Call::CheckLog,
    Call::CheckBook,
    Call::Bind,
    Call::Pick,
    Call::Ask,
];

const CODES: usize = 21;

/// Codes that no call of the library gives: none goes on with a search that does not stand, or reads a page that is not there.
const NEVER: [usize; 2] = [16, 17];

/// The most differences that are told in full.
const MOST_TOLD: u64 = 10;

#[derive(Default)]
pub struct Tally {
    pub agreed: u64,
    pub differed: u64,
    // by call and by code
    ended: [[u64; CODES]; CALLS.len()],
}

impl Tally {
    /// Counts a comparison; `case` says where to find it again.
    pub fn count(&mut self, same: bool, case: &str, what: impl FnOnce() -> String) {
        if same {
            self.agreed += 1;
            return;
        }
        self.differed += 1;
        if self.differed <= MOST_TOLD {
            eprintln!("differs: {case}: {}", what());
        }
    }

    pub fn end(&mut self, call: Call, reply: Reply) {
        let code = (reply.code as usize).min(CODES - 1);
        self.ended[call as usize][code] += 1;
    }

    pub fn print(&self) {
        println!("how the calls ended, by code (0: not refused)");
        println!("code  check_log check_book       bind       pick        ask");
        for code in 0..CODES {
            let counts: Vec<String> = self
                .ended
                .iter()
                .map(|ended| format!("{:>10}", ended[code]))
                .collect();
            println!("{code:>4} {}", counts.join(" "));
        }
        let missing: Vec<usize> = (0..CODES)
            .filter(|code| !NEVER.contains(code))
            .filter(|&code| self.ended.iter().all(|ended| ended[code] == 0))
            .collect();
        println!(
            "no call of the library gives {NEVER:?}; others that did not come up: {missing:?}"
        );
    }
}
