//! The calls of the library, on the same bytes and with the same replies.

use crate::reply::Reply;

use super::fault::Fault;
use super::log::read_log;
use super::print::Lines;
use super::roll::Roll;
use super::search::{Outcome, search};
use super::station::MOST_STATIONS;
use super::stored::StoredBook;
use super::writer::write_book;

pub fn check_log(log: &[u8]) -> Reply {
    reply(read_log(log, MOST_STATIONS).map(|log| log.stations.len()))
}

pub fn check_book(book: &[u8]) -> Reply {
    reply(StoredBook::load(book).map(|book| book.pages()))
}

pub fn bind(log: &[u8], book: &mut [u8]) -> Reply {
    reply(read_log(log, MOST_STATIONS).and_then(|mut log| write_book(&mut log.stations, book)))
}

pub fn pick(log: &[u8], print: &mut [u8]) -> Reply {
    let outcome = read_log(log, MOST_STATIONS)
        .map(|log| search(&Roll::new(&log.stations), &log.question, &log.ranking));
    report(outcome, print)
}

pub fn ask(book: &[u8], question: &[u8], print: &mut [u8]) -> Reply {
    // no station may stand behind the question
    let outcome = read_log(question, 0).and_then(|log| {
        let book = StoredBook::load(book)?;
        Ok(search(&book, &log.question, &log.ranking))
    });
    report(outcome, print)
}

fn report(outcome: Result<Outcome, Fault>, print: &mut [u8]) -> Reply {
    let (lines, refusal) = match outcome {
        Ok(outcome) => (Lines::of_search(&outcome), outcome.halt),
        Err(fault) => (Lines::of_refusal(fault), Some(fault)),
    };
    match (lines.put(print), refusal) {
        (Ok(length), None) => Reply::accepting(length),
        (Ok(length), Some(fault)) => Reply::refusing(fault, length),
        (Err(short), _) => Reply::refusing(short, 0),
    }
}

fn reply(answer: Result<usize, Fault>) -> Reply {
    match answer {
        Ok(length) => Reply::accepting(length),
        Err(fault) => Reply::refusing(fault, 0),
    }
}
