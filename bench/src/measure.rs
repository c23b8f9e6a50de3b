//! How long the proved library takes, beside the plain implementation.

use std::hint::black_box;
use std::time::{Duration, Instant};

use crate::cases::asked::{Asked, log_text};
use crate::cases::random::Random;
use crate::cases::wells::{Numbering, SHAPES, Shape, stations};
use crate::plain::log::read_log;
use crate::plain::picker;
use crate::plain::roll::Roll;
use crate::plain::search::search;
use crate::plain::station::{MOST_STATIONS, Station};
use crate::plain::stored::PAGE;
use crate::plain::writer;
use crate::progress::Progress;
use crate::proved::{self, MOST_BOOK, MOST_PRINT};
use crate::reply::Reply;

/// A job is timed so often on either side, in turn.
const REPETITIONS: usize = 151;

/// Calls are timed together for about so long: less than a turn that another process may take.
const BATCH: Duration = Duration::from_millis(2);

const WEIGHTS: [u16; 4] = [4, 1, 2, 1];

const BANDS: [u16; 4] = [1, 2, 4, 8];

const MEASURED: [Numbering; 2] = [Numbering::InTurn, Numbering::Scattered];

/// One line of the table.
struct Row {
    job: String,
    searched: Option<Searched>,
    ended: Reply,
    plain: Duration,
    ratio: f64,
}

/// What a search did.
#[derive(Clone, Copy)]
struct Searched {
    listed: usize,
    opened: u32,
    /// Pages of the book.
    pages: u32,
}

/// Measures everything, prints the table, and gives the worst ratio.
pub fn run() -> f64 {
    let jobs = 3 * MEASURED.len() + 2 * SHAPES.len() * BANDS.len() * 2;
    let mut progress = Progress::new("measuring", jobs as u64);
    let mut rows = Vec::new();
    let mut print = vec![0; MOST_PRINT];

    let mut book = vec![0; MOST_BOOK];
    for numbering in MEASURED {
        let log = log_text(&everywhere(1), &well(Shape::Independent, numbering));
        rows.push(time(
            &format!("read a log, numbers {numbering:?}"),
            || proved::check_log(black_box(&log)),
            || picker::check_log(black_box(&log)),
        ));
        progress.step();
        rows.push(time_lent(
            &format!("write a book, numbers {numbering:?}"),
            &mut book,
            |b| proved::bind(black_box(&log), b),
            |b| picker::bind(black_box(&log), b),
        ));
        progress.step();
        rows.push(time(
            &format!("load a book, numbers {numbering:?}"),
            || proved::check_book(black_box(&book)),
            || picker::check_book(black_box(&book)),
        ));
        progress.step();
    }

    for shape in SHAPES {
        let mut row = well(shape, Numbering::InTurn);
        writer::order(&mut row);
        for k in BANDS {
            for (name, asked) in [("narrow", narrow(k, &row)), ("full", everywhere(k))] {
                let log = log_text(&asked, &row);
                let searched = Some(searched(&log));
                let job = format!("pick, {shape:?}, k {k}, {name}");
                let picked = time_lent(
                    &job,
                    &mut print,
                    |p| proved::pick(black_box(&log), p),
                    |p| picker::pick(black_box(&log), p),
                );
                rows.push(Row { searched, ..picked });
                progress.step();

                let bound = picker::bind(&log, &mut book);
                assert_eq!(bound.length, book.len(), "a full well has the fullest book");
                let question = asked.line().into_bytes();
                let job = format!("ask, {shape:?}, k {k}, {name}");
                let answered = time_lent(
                    &job,
                    &mut print,
                    |p| proved::ask(black_box(&book), black_box(&question), p),
                    |p| picker::ask(black_box(&book), black_box(&question), p),
                );
                // a book in code order is the roll of a log in code order
                rows.push(Row {
                    searched,
                    ..answered
                });
                progress.step();
            }
        }
    }
    print_table(&rows);
    rows.iter().map(|row| row.ratio).fold(0.0, f64::max)
}

fn well(shape: Shape, numbering: Numbering) -> Vec<Station> {
    stations(
        &mut Random::new(7),
        MOST_STATIONS,
        shape,
        numbering,
        u16::MAX,
    )
}

fn everywhere(k: u16) -> Asked {
    Asked::everywhere('S', k, WEIGHTS)
}

/// About an eighth of the stations, from the middle of the well's measures.
fn narrow(k: u16, row: &[Station]) -> Asked {
    let mut asked = everywhere(k);
    for i in 0..4 {
        let mut values: Vec<u16> = row.iter().map(|s| s.at.0[i]).collect();
        values.sort_unstable();
        asked.lows[i] = values[values.len() / 5];
        asked.highs[i] = values[values.len() * 4 / 5];
    }
    asked
}

/// The search for the log's question over its roll.
fn searched(log: &[u8]) -> Searched {
    let log = read_log(log, MOST_STATIONS).expect("the log was written here");
    let roll = Roll::new(&log.stations);
    let outcome = search(&roll, &log.question, &log.ranking);
    Searched {
        listed: outcome.listed.len(),
        opened: outcome.opened,
        pages: roll.pages(),
    }
}

/// Times a call that writes to a lent buffer. Neither side's is cleared between calls.
fn time_lent(
    job: &str,
    buffer: &mut [u8],
    mut proved: impl FnMut(&mut [u8]) -> Reply,
    mut plain: impl FnMut(&mut [u8]) -> Reply,
) -> Row {
    let mut other = buffer.to_vec();
    let row = time(
        job,
        || proved(black_box(buffer)),
        || plain(black_box(&mut other)),
    );
    assert_eq!(buffer, other, "{job}: both sides write the same");
    row
}

fn time(job: &str, mut proved: impl FnMut() -> Reply, mut plain: impl FnMut() -> Reply) -> Row {
    let ended = plain();
    assert_eq!(proved(), ended, "{job}: both sides reply the same");
    let calls = (calls_in_batch(&mut proved))
        .min(calls_in_batch(&mut plain))
        .max(1);
    let mut plains = Vec::new();
    let mut ratios = Vec::new();
    for i in 0..REPETITIONS {
        // who goes first changes, so that neither always has the warmer machine
        let (a, b) = if i % 2 == 0 {
            let a = batch(calls, &mut proved);
            (a, batch(calls, &mut plain))
        } else {
            let b = batch(calls, &mut plain);
            (batch(calls, &mut proved), b)
        };
        plains.push(b / calls);
        ratios.push(a.as_secs_f64() / b.as_secs_f64());
    }
    plains.sort_unstable();
    ratios.sort_unstable_by(f64::total_cmp);
    Row {
        job: job.to_string(),
        searched: None,
        ended,
        plain: plains[REPETITIONS / 2],
        ratio: ratios[REPETITIONS / 2],
    }
}

fn calls_in_batch(call: &mut impl FnMut() -> Reply) -> u32 {
    let calls = 4;
    // once to warm up
    batch(calls, call);
    let took = batch(calls, call).max(Duration::from_nanos(1));
    (BATCH.as_nanos() * u128::from(calls) / took.as_nanos()).clamp(1, 1_000_000) as u32
}

fn batch(calls: u32, call: &mut impl FnMut() -> Reply) -> Duration {
    let start = Instant::now();
    for _ in 0..calls {
        black_box(call());
    }
    start.elapsed()
}

fn print_table(rows: &[Row]) {
    println!(
        "proved / plain Rust, the median of {REPETITIONS} repetitions, on {MOST_STATIONS} stations and pages of {PAGE} bytes; \
         buffers are lent to both sides as the last call left them, not cleared"
    );
    println!(
        "{:<36} {:>6} {:>10} {:>7} {:>9} {:>6}",
        "job", "ratio", "plain", "listed", "opened", "ended"
    );
    for row in rows {
        let (listed, opened) = row.searched.map_or_else(Default::default, |s| {
            (s.listed.to_string(), format!("{}/{}", s.opened, s.pages))
        });
        let ended = match row.ended.code {
            0 => String::new(),
            code => format!("by {code}"),
        };
        let plain = format!("{:.1} us", row.plain.as_secs_f64() * 1e6);
        println!(
            "{:<36} {:>6.2} {plain:>10} {listed:>7} {opened:>9} {ended:>6}",
            row.job, row.ratio
        );
    }
}
