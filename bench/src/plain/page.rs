//! Pages, and where they are read from.

use super::question::Region;
use super::station::Station;

/// A page holds at most so many entries.
pub const MOST_ENTRIES: usize = 12;

/// A page by its number, and the box that it is named with.
#[derive(Clone, Copy, Debug, PartialEq, Eq)]
pub struct Child {
    pub page: u32,
    pub bounds: Region,
}

#[derive(Clone, Copy, Debug, PartialEq, Eq)]
pub enum Entry {
    Station(Station),
    Page(Child),
}

/// A page cannot be read.
#[derive(Clone, Copy, Debug, PartialEq, Eq)]
pub struct Dead;

/// A book, page by page.
pub trait PageSource {
    /// Gives each entry of the page in turn.
    fn read(&self, page: u32, each: impl FnMut(Entry)) -> Result<(), Dead>;
}
