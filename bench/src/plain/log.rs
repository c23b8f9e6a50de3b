//! The text of a log.

use super::fault::{Code, Fault};
use super::line::{Field, read_line};
use super::measures::Measures;
use super::numbers::Numbers;
use super::question::{Question, Region};
use super::ranking::Ranking;
use super::station::{MOST_STATIONS, Station};

const MOST_BYTES: usize = 65_536;

pub struct Log {
    pub ranking: Ranking,
    pub question: Question,
    pub stations: Vec<Station>,
}

const QUESTION: [Field; 14] = {
    let mut fields = [Field::Short; 14];
    fields[0] = Field::Letter;
    fields[10] = Field::Weight;
    fields[11] = Field::Weight;
    fields[12] = Field::Weight;
    fields[13] = Field::Weight;
    fields
};

const STATION: [Field; 5] = [
    Field::StationNumber,
    Field::Short,
    Field::Short,
    Field::Short,
    Field::Short,
];

/// Reads a log whose stations must fit the room.
pub fn read_log(text: &[u8], room: usize) -> Result<Log, Fault> {
    if text.len() > MOST_BYTES {
        return Err(Fault::bare(Code::TextTooLong));
    }
    let (numbers, length) = read_line(text, &QUESTION, 1)?;
    let stations = read_stations(&text[length..])?;
    check_repeats(&stations)?;
    let question = question_of(&numbers);
    question.check()?;
    if stations.len() > room {
        return Err(Fault::bare(Code::ShortBuffer));
    }
    Ok(Log {
        ranking: ranking_of(&numbers),
        question,
        stations,
    })
}

fn read_stations(mut text: &[u8]) -> Result<Vec<Station>, Fault> {
    // no station's line is shorter than ten bytes
    let mut stations = Vec::with_capacity((text.len() / 10).min(MOST_STATIONS));
    let mut line = 2;
    while !text.is_empty() {
        if stations.len() == MOST_STATIONS {
            return Err(Fault::new(Code::TooManyStations, line, 0));
        }
        let (numbers, length) = read_line(text, &STATION, line)?;
        stations.push(Station {
            number: numbers[0] as u32,
            at: measures_at(&numbers, 1),
        });
        text = &text[length..];
        line += 1;
    }
    Ok(stations)
}

fn check_repeats(stations: &[Station]) -> Result<(), Fault> {
    let mut seen = Numbers::<4096>::new();
    match stations.iter().position(|s| !seen.insert(s.number)) {
        Some(i) => Err(Fault::new(Code::RepeatedNumber, i as u32, 0)),
        None => Ok(()),
    }
}

fn measures_at(numbers: &[u64], from: usize) -> Measures {
    Measures(std::array::from_fn(|i| numbers[from + i] as u16))
}

fn question_of(numbers: &[u64; 14]) -> Question {
    Question {
        k: numbers[1] as u16,
        region: Region {
            low: measures_at(numbers, 2),
            high: measures_at(numbers, 6),
        },
    }
}

fn ranking_of(numbers: &[u64; 14]) -> Ranking {
    let weights = std::array::from_fn(|i| numbers[10 + i] as u16);
    if numbers[0] == u64::from(b'S') {
        Ranking::Sum(weights)
    } else {
        Ranking::Largest(weights)
    }
}
