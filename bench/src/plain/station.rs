use super::measures::Measures;

/// The most stations of a log or a row.
pub const MOST_STATIONS: usize = 1152;

#[derive(Clone, Copy, Debug, PartialEq, Eq)]
pub struct Station {
    pub number: u32,
    pub at: Measures,
}
