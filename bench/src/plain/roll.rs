//! A row of stations that reads as a book.

use super::page::{Child, Dead, Entry, MOST_ENTRIES, PageSource};
use super::question::Region;
use super::station::Station;

/// One level of the roll: its pages are numbered from `first`, and each has its least box.
struct Level {
    first: u32,
    boxes: Vec<Region>,
}

pub struct Roll<'a> {
    row: &'a [Station],
    // from level 0 up to the top's
    levels: Vec<Level>,
}

impl<'a> Roll<'a> {
    pub fn new(row: &'a [Station]) -> Roll<'a> {
        let mut levels = vec![Level {
            first: 0,
            boxes: row.chunks(MOST_ENTRIES).map(box_of_stations).collect(),
        }];
        while let Some(below) = levels.last().filter(|level| level.boxes.len() > 1) {
            let boxes = below.boxes.chunks(MOST_ENTRIES).map(box_of_boxes).collect();
            levels.push(Level { first: 0, boxes });
        }
        // numbers go level by level from the top
        let mut first = 0;
        for level in levels.iter_mut().rev() {
            level.first = first;
            first += level.boxes.len() as u32;
        }
        Roll { row, levels }
    }

    pub fn pages(&self) -> u32 {
        // a row without stations is one page without entries
        self.levels
            .iter()
            .map(|level| level.boxes.len() as u32)
            .sum::<u32>()
            .max(1)
    }

    /// The page's level, and its place in it.
    pub fn find(&self, page: u32) -> (usize, usize) {
        let level = self
            .levels
            .iter()
            .position(|level| level.first <= page)
            .unwrap_or(0);
        (level, (page - self.levels[level].first) as usize)
    }

    pub fn stations(&self, place: usize) -> &'a [Station] {
        chunk(self.row, place)
    }

    /// The pages that the page at this place of a level above 0 names.
    pub fn children(&self, level: usize, place: usize) -> impl Iterator<Item = Child> {
        let below = &self.levels[level - 1];
        let first = below.first + (place * MOST_ENTRIES) as u32;
        let boxes = chunk(&below.boxes, place);
        (first..)
            .zip(boxes)
            .map(|(page, &bounds)| Child { page, bounds })
    }
}

fn chunk<T>(all: &[T], place: usize) -> &[T] {
    let from = place * MOST_ENTRIES;
    &all[from..all.len().min(from + MOST_ENTRIES)]
}

fn box_of_stations(stations: &[Station]) -> Region {
    let low = stations.iter().map(|s| s.at).reduce(|a, b| a.min(b));
    let high = stations.iter().map(|s| s.at).reduce(|a, b| a.max(b));
    low.zip(high)
        .map(|(low, high)| Region { low, high })
        .expect("a chunk has a station")
}

fn box_of_boxes(boxes: &[Region]) -> Region {
    boxes
        .iter()
        .copied()
        .reduce(|a, b| a.around(&b))
        .expect("a chunk has a box")
}

impl PageSource for Roll<'_> {
    fn read(&self, page: u32, mut each: impl FnMut(Entry)) -> Result<(), Dead> {
        match self.find(page) {
            (0, place) => self
                .stations(place)
                .iter()
                .for_each(|&s| each(Entry::Station(s))),
            (level, place) => self
                .children(level, place)
                .for_each(|c| each(Entry::Page(c))),
        }
        Ok(())
    }
}
