//! Books of 256-byte pages.

use super::fault::{Code, Fault};
use super::measures::Measures;
use super::numbers::Numbers;
use super::page::{Child, Dead, Entry, MOST_ENTRIES, PageSource};
use super::question::Region;
use super::station::Station;

pub const PAGE: usize = 256;
pub const MOST_PAGES: usize = 256;

/// The level byte of a dead page.
pub const DEAD: u8 = 255;

pub const HEADER: usize = 8;
pub const STATION_BYTES: usize = 12;
pub const CHILD_BYTES: usize = 18;

const TOP_LEVEL: u8 = 7;

/// The second place of a refusal that is of a page, and not of an entry.
const WHOLE_PAGE: u32 = 255;

/// Bytes that were checked, with a mark for each page that can be read.
pub struct StoredBook<'a> {
    bytes: &'a [u8],
    live: [bool; MOST_PAGES],
}

/// How a page was named.
#[derive(Clone, Copy)]
struct Naming {
    level: u8,
    bounds: Region,
}

impl<'a> StoredBook<'a> {
    pub fn load(bytes: &'a [u8]) -> Result<StoredBook<'a>, Fault> {
        let whole = bytes.len().is_multiple_of(PAGE);
        if !whole || !(PAGE..=PAGE * MOST_PAGES).contains(&bytes.len()) {
            return Err(Fault::bare(Code::BookLength));
        }
        let live = Check::new(bytes.len() / PAGE).pages(bytes)?;
        Ok(StoredBook { bytes, live })
    }

    pub fn pages(&self) -> usize {
        self.bytes.len() / PAGE
    }
}

/// What is known while the pages are checked in rising number.
struct Check {
    pages: usize,
    named: [Option<Naming>; MOST_PAGES],
    numbers: Numbers<8192>,
}

impl Check {
    fn new(pages: usize) -> Check {
        Check {
            pages,
            named: [None; MOST_PAGES],
            numbers: Numbers::new(),
        }
    }

    fn pages(mut self, bytes: &[u8]) -> Result<[bool; MOST_PAGES], Fault> {
        let mut live = [false; MOST_PAGES];
        for (number, page) in bytes.chunks_exact(PAGE).enumerate() {
            let counts = number == 0 || self.named[number].is_some();
            if counts && page[0] != DEAD {
                self.page(number, page)?;
                live[number] = true;
            }
        }
        Ok(live)
    }

    fn page(&mut self, number: usize, page: &[u8]) -> Result<(), Fault> {
        let level = page[0];
        let count = usize::from(page[1]);
        let naming = self.named[number];
        let fault = |code, entry| Fault::new(code, number as u32, entry);

        let may_be_empty = number == 0 && level == 0;
        let fair = level <= TOP_LEVEL
            && count <= MOST_ENTRIES
            && page[2..HEADER].iter().all(|&b| b == 0)
            && (count > 0 || may_be_empty);
        if !fair {
            return Err(fault(Code::PageHeader, WHOLE_PAGE));
        }
        if naming.is_some_and(|naming| naming.level != level + 1) {
            return Err(fault(Code::PageLevel, WHOLE_PAGE));
        }
        let outside = |inner: &Region| naming.is_some_and(|n| !n.bounds.holds_all(inner));
        if level == 0 {
            for (i, station) in (0..).zip(stations(page)) {
                if station.number == 0 || !self.numbers.insert(station.number) {
                    return Err(fault(Code::StationNumber, i));
                }
                let point = Region {
                    low: station.at,
                    high: station.at,
                };
                if outside(&point) {
                    return Err(fault(Code::OutsideBox, i));
                }
            }
        } else {
            for (i, child) in (0..).zip(children(page)) {
                let named = child.page as usize;
                if named <= number || named >= self.pages || self.named[named].is_some() {
                    return Err(fault(Code::NamedPage, i));
                }
                if !child.bounds.is_ordered() {
                    return Err(fault(Code::BoxOrder, i));
                }
                if outside(&child.bounds) {
                    return Err(fault(Code::OutsideBox, i));
                }
                self.named[named] = Some(Naming {
                    level,
                    bounds: child.bounds,
                });
            }
        }
        Ok(())
    }
}

fn short_at(bytes: &[u8], at: usize) -> u16 {
    u16::from_be_bytes([bytes[at], bytes[at + 1]])
}

fn measures_at(bytes: &[u8], at: usize) -> Measures {
    Measures(std::array::from_fn(|i| short_at(bytes, at + 2 * i)))
}

fn entries(page: &[u8], size: usize) -> std::slice::ChunksExact<'_, u8> {
    page[HEADER..HEADER + size * usize::from(page[1])].chunks_exact(size)
}

/// The stations of a page of level 0.
fn stations(page: &[u8]) -> impl Iterator<Item = Station> {
    entries(page, STATION_BYTES).map(|entry| Station {
        number: u32::from(short_at(entry, 0)) << 16 | u32::from(short_at(entry, 2)),
        at: measures_at(entry, 4),
    })
}

/// The pages that a page above level 0 names.
fn children(page: &[u8]) -> impl Iterator<Item = Child> {
    entries(page, CHILD_BYTES).map(|entry| Child {
        page: u32::from(short_at(entry, 0)),
        bounds: Region {
            low: measures_at(entry, 2),
            high: measures_at(entry, 10),
        },
    })
}

impl PageSource for StoredBook<'_> {
    fn read(&self, number: u32, mut each: impl FnMut(Entry)) -> Result<(), Dead> {
        let number = number as usize;
        if !self.live[number] {
            return Err(Dead);
        }
        let page = &self.bytes[PAGE * number..PAGE * (number + 1)];
        if page[0] == 0 {
            stations(page).for_each(|s| each(Entry::Station(s)));
        } else {
            children(page).for_each(|c| each(Entry::Page(c)));
        }
        Ok(())
    }
}
