//! The proved library and the plain implementation on the same bytes.

use crate::cases::asked::{Asked, log_text};
use crate::cases::random::Random;
use crate::cases::wells::{NUMBERINGS, Numbering, SHAPES, Shape, stations};
use crate::cases::{book_damage, books, log_damage};
use crate::plain::log::read_log;
use crate::plain::page::PageSource;
use crate::plain::picker;
use crate::plain::question::Question;
use crate::plain::ranking::Ranking;
use crate::plain::roll::Roll;
use crate::plain::scan::scan;
use crate::plain::search::search;
use crate::plain::station::{MOST_STATIONS, Station};
use crate::plain::stored::{PAGE, StoredBook};
use crate::plain::{rule, writer};
use crate::progress::Progress;
use crate::proved::{self, MOST_BOOK, MOST_PRINT};
use crate::reply::Reply;
use crate::tally::{Call, Tally};

const LOGS: u64 = 100_000;
const BOOKS: u64 = 200_000;

/// What the buffers hold before a call, so that a byte written where none should be is seen.
const BEFORE: u8 = 0xa5;

pub fn run() -> Tally {
    let mut comparison = Comparison {
        tally: Tally::default(),
        case: String::new(),
        proved: vec![0; MOST_PRINT],
        plain: vec![0; MOST_PRINT],
    };
    let mut progress = Progress::new("comparing", LOGS + BOOKS);
    for seed in 0..LOGS {
        comparison.case = format!("log {seed}");
        comparison.log_case(&mut Random::new(seed));
        progress.step();
    }
    for seed in 0..BOOKS {
        comparison.case = format!("book {seed}");
        comparison.book_case(&mut Random::new(seed ^ 1 << 40));
        progress.step();
    }
    comparison.tally
}

struct Comparison {
    tally: Tally,
    case: String,
    proved: Vec<u8>,
    plain: Vec<u8>,
}

impl Comparison {
    fn log_case(&mut self, random: &mut Random) {
        let most = some_most(random);
        let asked = Asked::random(random, most);
        let row = some_stations(random, most);
        let mut text = log_text(&asked, &row);
        if random.one_in(2) {
            for _ in 0..1 + random.below(2) {
                log_damage::damage(random, &mut text);
            }
        }
        let book = some_room(random, MOST_BOOK, PAGE * Roll::new(&row).pages() as usize);
        let print = some_room(random, MOST_PRINT, 400);
        self.call(
            Call::CheckLog,
            proved::check_log(&text),
            picker::check_log(&text),
        );
        self.lend(
            Call::Bind,
            book,
            |b| proved::bind(&text, b),
            |b| picker::bind(&text, b),
        );
        self.lend(
            Call::Pick,
            print,
            |p| proved::pick(&text, p),
            |p| picker::pick(&text, p),
        );
        if let Ok(log) = read_log(&text, MOST_STATIONS) {
            self.define(&Roll::new(&log.stations), &log.question, &log.ranking);
        }
    }

    fn book_case(&mut self, random: &mut Random) {
        let most = some_most(random);
        let mut book = some_book(random, most);
        if random.one_in(2) {
            let dead = 1 + random.below(4);
            book_damage::kill(random, &mut book, dead);
        }
        if random.one_in(2) {
            book_damage::damage(random, &mut book);
        }
        let question = some_question(random, most);
        let print = some_room(random, MOST_PRINT, 400);
        self.ask(&book, &question, print);
        if random.one_in(4) {
            self.ask_changed(random, &book, &question);
        }
        if let (Ok(log), Ok(book)) = (read_log(&question, 0), StoredBook::load(&book)) {
            self.define(&book, &log.question, &log.ranking);
        }
    }

    fn ask(&mut self, book: &[u8], question: &[u8], print: usize) {
        self.call(
            Call::CheckBook,
            proved::check_book(book),
            picker::check_book(book),
        );
        self.lend(
            Call::Ask,
            print,
            |p| proved::ask(book, question, p),
            |p| picker::ask(book, question, p),
        );
    }

    /// Bytes that the layout ignores change nothing.
    fn ask_changed(&mut self, random: &mut Random, book: &[u8], question: &[u8]) {
        let mut changed = book.to_vec();
        book_damage::change_ignored(random, &mut changed);
        self.lend(
            Call::Ask,
            MOST_PRINT,
            |p| proved::ask(&changed, question, p),
            |p| proved::ask(book, question, p),
        );
        self.ask(&changed, question, MOST_PRINT);
    }

    fn call(&mut self, call: Call, proved: Reply, plain: Reply) {
        self.tally.end(call, proved);
        self.tally.count(proved == plain, &self.case, || {
            format!("{call:?}: proved {proved:?}, plain {plain:?}")
        });
    }

    /// Compares the replies, and every byte of the lent buffers.
    fn lend(
        &mut self,
        call: Call,
        room: usize,
        proved: impl FnOnce(&mut [u8]) -> Reply,
        plain: impl FnOnce(&mut [u8]) -> Reply,
    ) {
        self.proved[..room].fill(BEFORE);
        self.plain[..room].fill(BEFORE);
        let replies = (
            proved(&mut self.proved[..room]),
            plain(&mut self.plain[..room]),
        );
        self.tally.end(call, replies.0);
        let same = replies.0 == replies.1 && self.proved[..room] == self.plain[..room];
        self.tally.count(same, &self.case, || {
            format!(
                "{call:?} with room for {room}: proved {:?}, plain {:?}",
                replies.0, replies.1
            )
        });
    }

    /// The plain search, whose printed bytes are compared above, by the definitions: the rule on opened pages, and the
    /// answer of a whole book.
    fn define<S: PageSource>(&mut self, source: &S, question: &Question, ranking: &Ranking) {
        let outcome = search(source, question, ranking);
        let opened = rule::opened(source, question, ranking, outcome.halt);
        self.tally.count(outcome.opened == opened, &self.case, || {
            format!("opened {} pages, by the rule {opened}", outcome.opened)
        });
        if let Some(row) = rule::stations(source) {
            let answer = scan(&row, question, ranking);
            let listed = outcome.listed.iter().map(|l| &l.station);
            let begins = answer.iter().zip(listed).all(|(a, b)| a == b);
            let long = answer.len() == outcome.listed.len()
                || outcome.halt.is_some() && answer.len() > outcome.listed.len();
            self.tally.count(begins && long, &self.case, || {
                format!(
                    "listed {}, the answer has {}",
                    outcome.listed.len(),
                    answer.len()
                )
            });
        }
    }
}

fn some_most(random: &mut Random) -> u16 {
    random.any(&[1, 3, 20, 1000, 40_000, u16::MAX])
}

fn some_stations(random: &mut Random, most: u16) -> Vec<Station> {
    if random.one_in(60) {
        // about as many as may wait, and all of them do: in this shape and order pages come before stations
        let count = 1020 + random.below(10);
        return stations(
            random,
            count,
            Shape::AntiCorrelated,
            Numbering::InTurn,
            most.max(1000),
        );
    }
    let count = match random.below(40) {
        0 => MOST_STATIONS,
        1 => random.below(MOST_STATIONS + 1),
        2..8 => random.below(300),
        _ => random.below(40),
    };
    let shape = random.any(&SHAPES);
    let numbering = random.any(&NUMBERINGS);
    let mut row = stations(random, count, shape, numbering, most);
    if random.one_in(2) {
        writer::order(&mut row);
    }
    row
}

fn some_book(random: &mut Random, most: u16) -> Vec<u8> {
    if random.one_in(2) {
        return books::random_book(random, most);
    }
    let mut row = some_stations(random, most);
    let mut book = vec![0; MOST_BOOK];
    let length = writer::write_book(&mut row, &mut book).expect("there is room for every row");
    book.truncate(length);
    book
}

/// Mostly one that is accepted.
fn some_question(random: &mut Random, most: u16) -> Vec<u8> {
    let asked = Asked::random(random, most);
    let behind = if random.one_in(24) {
        stations(random, 1, SHAPES[0], Numbering::InTurn, most)
    } else {
        Vec::new()
    };
    let mut text = log_text(&asked, &behind);
    if random.one_in(16) {
        log_damage::damage(random, &mut text);
    }
    text
}

/// Mostly enough; else about as much as is needed, or anything.
fn some_room(random: &mut Random, enough: usize, needed: usize) -> usize {
    match random.below(8) {
        0 => (needed + random.below(3)).saturating_sub(1),
        1 => random.below(2 * needed + 1).min(enough),
        _ => enough,
    }
}
