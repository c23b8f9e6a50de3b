use super::measures::Measures;
use super::ranking::Ranking;
use super::station::Station;

/// The order of pages and stations: rank, sum, pages before stations, number.
#[derive(Clone, Copy, Debug, PartialEq, Eq, PartialOrd, Ord)]
pub struct Key {
    rank: u64,
    // the sum, a bit for stations, and the number in 32 bits, so that ties are one comparison
    tie: u64,
}

const STATION: u64 = 1 << 32;

impl Key {
    pub fn of_station(ranking: &Ranking, station: &Station) -> Key {
        Key {
            rank: ranking.rank(station.at),
            tie: tie(station.at) | STATION | u64::from(station.number),
        }
    }

    /// Of a page, by its corner.
    pub fn of_page(ranking: &Ranking, corner: Measures, number: u32) -> Key {
        Key {
            rank: ranking.rank(corner),
            tie: tie(corner) | u64::from(number),
        }
    }

    pub fn is_station(&self) -> bool {
        self.tie & STATION != 0
    }

    /// Of the station or of the page.
    pub fn number(&self) -> u32 {
        self.tie as u32
    }

    pub fn rank(&self) -> u64 {
        self.rank
    }
}

fn tie(at: Measures) -> u64 {
    u64::from(at.sum()) << 33
}
