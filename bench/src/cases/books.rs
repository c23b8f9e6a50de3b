//! Lawful books that no writer writes: odd shapes, loose boxes, pages that do not count.

use crate::plain::measures::Measures;
use crate::plain::page::MOST_ENTRIES;
use crate::plain::question::Region;
use crate::plain::stored::{CHILD_BYTES, HEADER, MOST_PAGES, PAGE, STATION_BYTES};

use super::random::Random;
use super::wells::{NUMBERINGS, Numbering};

/// A page that is named and still to be filled.
struct Named {
    page: usize,
    level: usize,
    bounds: Region,
}

struct Maker<'a> {
    random: &'a mut Random,
    pages: Vec<[u8; PAGE]>,
    // the pages that the named ones need below them at least
    owed: usize,
    stations: u32,
    numbering: Numbering,
}

/// A lawful book of measures up to `most`.
pub fn random_book(random: &mut Random, most: u16) -> Vec<u8> {
    let level = random.any(&[0, 1, 1, 2, 2, 2, 3, 3, 4, 5, 6, 7]);
    let fullest = 1 + random.below(MOST_ENTRIES);
    let numbering = random.any(&NUMBERINGS);
    let mut maker = Maker {
        random,
        pages: Vec::new(),
        owed: level,
        stations: 0,
        numbering,
    };
    maker.add_page();
    let mut named = vec![Named {
        page: 0,
        level,
        bounds: Region {
            low: Measures([0; 4]),
            high: Measures([most; 4]),
        },
    }];
    while !named.is_empty() {
        let next = named.swap_remove(maker.random.below(named.len()));
        if next.level == 0 {
            maker.fill_leaf(&next, fullest);
        } else {
            maker.fill_node(&next, fullest, &mut named);
        }
    }
    maker.pages.concat()
}

impl Maker<'_> {
    /// A page of bytes that are ignored until something is written there.
    fn add_page(&mut self) -> usize {
        let mut page = [0; PAGE];
        self.random.fill(&mut page);
        self.pages.push(page);
        self.pages.len() - 1
    }

    fn head(&mut self, page: usize, level: usize, count: usize) {
        let header = &mut self.pages[page][..HEADER];
        header.fill(0);
        header[0] = level as u8;
        header[1] = count as u8;
    }

    fn fill_leaf(&mut self, leaf: &Named, fullest: usize) {
        // only a top may be empty
        let least = usize::from(leaf.page != 0);
        let count = least + self.random.below(fullest + 1 - least);
        self.head(leaf.page, 0, count);
        for i in 0..count {
            self.stations += 1;
            let number = self.numbering.number(self.stations);
            let at = self.point(&leaf.bounds);
            let from = HEADER + STATION_BYTES * i;
            let entry = &mut self.pages[leaf.page][from..from + STATION_BYTES];
            entry[..4].copy_from_slice(&number.to_be_bytes());
            put_measures(&mut entry[4..], at);
        }
    }

    fn fill_node(&mut self, node: &Named, fullest: usize, named: &mut Vec<Named>) {
        // each page named here needs its own place and one for each level below it
        self.owed -= node.level;
        let room = (MOST_PAGES - self.pages.len() - self.owed) / node.level;
        let count = (1 + self.random.below(fullest)).min(room);
        self.head(node.page, node.level, count);
        for i in 0..count {
            // now and then a page that nothing names
            let spare = MOST_PAGES - self.pages.len() - self.owed - (count - i) * node.level;
            if spare > 0 && self.random.one_in(20) {
                self.add_page();
            }
            let page = self.add_page();
            self.owed += node.level - 1;
            let bounds = self.part(&node.bounds);
            let from = HEADER + CHILD_BYTES * i;
            let entry = &mut self.pages[node.page][from..from + CHILD_BYTES];
            entry[..2].copy_from_slice(&(page as u16).to_be_bytes());
            put_measures(&mut entry[2..10], bounds.low);
            put_measures(&mut entry[10..], bounds.high);
            named.push(Named {
                page,
                level: node.level - 1,
                bounds,
            });
        }
    }

    fn point(&mut self, bounds: &Region) -> Measures {
        Measures(std::array::from_fn(|i| {
            self.random.short(bounds.low.0[i], bounds.high.0[i])
        }))
    }

    /// A box inside another: the same, a point, or one between.
    fn part(&mut self, bounds: &Region) -> Region {
        match self.random.below(8) {
            0 => *bounds,
            1 => {
                let at = self.point(bounds);
                Region { low: at, high: at }
            }
            _ => {
                let (a, b) = (self.point(bounds), self.point(bounds));
                Region {
                    low: a.min(b),
                    high: a.max(b),
                }
            }
        }
    }
}

fn put_measures(bytes: &mut [u8], at: Measures) {
    for (two, m) in bytes.chunks_exact_mut(2).zip(at.0) {
        two.copy_from_slice(&m.to_be_bytes());
    }
}
