/// Why something is refused, by the number that is printed.
#[derive(Clone, Copy, Debug, PartialEq, Eq)]
#[repr(u32)]
pub enum Code {
    TextTooLong = 1,
    BadField = 2,
    OutOfRange = 3,
    TooManyStations = 4,
    RepeatedNumber = 5,
    ShortBuffer = 6,
    BookLength = 7,
    PageHeader = 8,
    PageLevel = 9,
    NamedPage = 10,
    BoxOrder = 11,
    StationNumber = 12,
    OutsideBox = 13,
    BandCount = 14,
    RegionOrder = 15,
    DeadPage = 18,
    WaitingFull = 19,
    ListFull = 20,
}

/// A refusal: its code and its two places.
#[derive(Clone, Copy, Debug, PartialEq, Eq)]
pub struct Fault {
    pub code: Code,
    pub first: u32,
    pub second: u32,
}

impl Fault {
    pub fn new(code: Code, first: u32, second: u32) -> Fault {
        Fault {
            code,
            first,
            second,
        }
    }

    /// A refusal that names no place.
    pub fn bare(code: Code) -> Fault {
        Fault::new(code, 0, 0)
    }
}
