//! The search that opens no page it need not.

use std::cmp::Reverse;
use std::collections::BinaryHeap;

use super::fault::{Code, Fault};
use super::key::Key;
use super::measures::Measures;
use super::page::{Entry, PageSource};
use super::question::Question;
use super::ranking::Ranking;
use super::station::Station;

const MOST_WAITING: usize = 1024;
const MOST_LISTED: usize = 512;

/// A station, or a page by its corner, that is still to be taken.
#[derive(Clone, Copy, PartialEq, Eq, PartialOrd, Ord)]
struct Waiting {
    key: Key,
    // keys of different entries differ, so that this is never compared
    at: [u16; 4],
}

/// A station handed out, with its rank.
#[derive(Clone, Copy, Debug, PartialEq, Eq)]
pub struct Listed {
    pub station: Station,
    pub rank: u64,
}

/// A search that was driven to its end.
pub struct Outcome {
    pub listed: Vec<Listed>,
    pub opened: u32,
    /// Why the search was halted, if it was.
    pub halt: Option<Fault>,
}

pub struct Search<'a, S> {
    source: &'a S,
    question: &'a Question,
    ranking: &'a Ranking,
    waiting: BinaryHeap<Reverse<Waiting>>,
    listed: Vec<Listed>,
    opened: u32,
}

/// Drives a search to its end.
pub fn search<S: PageSource>(source: &S, question: &Question, ranking: &Ranking) -> Outcome {
    let mut search = Search {
        source,
        question,
        ranking,
        // the fullest heap is that of a page whose opening halts the search
        waiting: BinaryHeap::with_capacity(MOST_WAITING + 12),
        listed: Vec::with_capacity(MOST_LISTED),
        opened: 0,
    };
    let halt = search.run().err();
    Outcome {
        listed: search.listed,
        opened: search.opened,
        halt,
    }
}

impl<S: PageSource> Search<'_, S> {
    fn run(&mut self) -> Result<(), Fault> {
        self.open(0)?;
        while let Some(Reverse(next)) = self.waiting.pop() {
            let at = Measures(next.at);
            if is_beaten(&self.listed, self.question.k, at) {
                continue;
            }
            if next.key.is_station() {
                self.list(next.key, at)?;
            } else {
                self.open(next.key.number())?;
            }
        }
        Ok(())
    }

    fn list(&mut self, key: Key, at: Measures) -> Result<(), Fault> {
        let number = key.number();
        if self.listed.len() == MOST_LISTED {
            return Err(Fault::new(Code::ListFull, number, 0));
        }
        self.listed.push(Listed {
            station: Station { number, at },
            rank: key.rank(),
        });
        Ok(())
    }

    fn open(&mut self, page: u32) -> Result<(), Fault> {
        self.opened += 1;
        let Search {
            source,
            question,
            ranking,
            waiting,
            listed,
            ..
        } = self;
        let read = source.read(page, |entry| {
            let (key, at) = match entry {
                Entry::Station(station) => {
                    if !question.region.holds(station.at) {
                        return;
                    }
                    (Key::of_station(ranking, &station), station.at)
                }
                Entry::Page(child) => {
                    let Some(corner) = question.region.corner(&child.bounds) else {
                        return;
                    };
                    (Key::of_page(ranking, corner, child.page), corner)
                }
            };
            if !is_beaten(listed, question.k, at) {
                waiting.push(Reverse(Waiting { key, at: at.0 }));
            }
        });
        if read.is_err() {
            return Err(Fault::new(Code::DeadPage, page, 0));
        }
        if waiting.len() > MOST_WAITING {
            return Err(Fault::new(Code::WaitingFull, page, 0));
        }
        Ok(())
    }
}

/// At least k listed stations beat these measures.
fn is_beaten(listed: &[Listed], k: u16, at: Measures) -> bool {
    let mut left = k;
    for l in listed {
        if l.station.at.beats(at) {
            left -= 1;
            if left == 0 {
                return true;
            }
        }
    }
    false
}
