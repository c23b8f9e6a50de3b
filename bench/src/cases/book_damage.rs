//! Books with something wrong, with dead pages, or changed where nothing looks.

use crate::plain::stored::{CHILD_BYTES, DEAD, HEADER, PAGE, STATION_BYTES};

use super::log_damage::flip;
use super::random::Random;

/// Makes pages dead, the top seldom.
pub fn kill(random: &mut Random, book: &mut [u8], dead: usize) {
    let pages = book.len() / PAGE;
    for _ in 0..dead {
        let page = random.below(pages);
        if page > 0 || random.one_in(8) {
            book[PAGE * page] = DEAD;
        }
    }
}

/// Changes bytes behind the entries, and bytes of dead pages behind the mark.
pub fn change_ignored(random: &mut Random, book: &mut [u8]) {
    for page in book.chunks_exact_mut(PAGE) {
        let ignored = match (page[0], usize::from(page[1])) {
            (DEAD, _) => 1,
            (0, count @ 0..=12) => HEADER + STATION_BYTES * count,
            (1..=7, count @ 0..=12) => HEADER + CHILD_BYTES * count,
            _ => continue,
        };
        random.fill(&mut page[ignored..]);
    }
}

pub fn damage(random: &mut Random, book: &mut Vec<u8>) {
    if book.len() < PAGE || random.one_in(12) {
        damage_length(random, book);
        return;
    }
    // pages near the top are looked at first, and damage there is seen
    let pages = book.len() / PAGE;
    let page = if random.one_in(2) {
        random.below(pages.min(14))
    } else {
        random.below(pages)
    };
    let bytes = &mut book[PAGE * page..PAGE * (page + 1)];
    match random.below(3) {
        0 => flip(random, &mut bytes[..HEADER + 40]),
        1 => damage_header(random, bytes),
        _ => damage_entry(random, bytes, page, pages),
    }
}

fn damage_length(random: &mut Random, book: &mut Vec<u8>) {
    let pages = book.len() / PAGE;
    let length = match random.below(6) {
        0 => 0,
        1 => book.len() + 1,
        2 => book.len().saturating_sub(1),
        3 => PAGE * random.any(&[256, 257]),
        // pages are left out, or some that nothing names are added
        4 => PAGE * random.below(pages + 1),
        _ => book.len() + PAGE,
    };
    book.resize(length, 0);
}

fn damage_header(random: &mut Random, page: &mut [u8]) {
    match random.below(4) {
        0 => page[0] = random.any(&[0, 1, 2, 3, 7, 8, 254, 255]),
        1 => page[1] = random.any(&[0, 1, 11, 12, 13, 255]),
        2 => page[2 + random.below(6)] = 1,
        // one entry less
        _ => page[1] = page[1].saturating_sub(1),
    }
}

fn damage_entry(random: &mut Random, page: &mut [u8], number: usize, pages: usize) {
    let count = usize::from(page[1]).min(12);
    if count == 0 {
        return;
    }
    let is_leaf = page[0] == 0;
    let size = if is_leaf { STATION_BYTES } else { CHILD_BYTES };
    let at = |i: usize| HEADER + size * i;
    let (i, j) = (random.below(count), random.below(count));
    if is_leaf {
        match random.below(4) {
            0 => page[at(i)..at(i) + 4].fill(0),
            // another's number
            1 => page.copy_within(at(j)..at(j) + 4, at(i)),
            _ => nudge(random, page, at(i) + 4, 4),
        }
    } else {
        match random.below(6) {
            0 => {
                let named = random.any(&[0, number, number + 1, pages - 1, pages, 65_535]);
                page[at(i)..at(i) + 2].copy_from_slice(&(named as u16).to_be_bytes());
            }
            // named already
            1 => page.copy_within(at(j)..at(j) + 2, at(i)),
            // a low and its high change places
            2 => {
                let m = 2 * random.below(4);
                for b in 0..2 {
                    page.swap(at(i) + 2 + m + b, at(i) + 10 + m + b);
                }
            }
            _ => nudge(random, page, at(i) + 2, 8),
        }
    }
}

/// One of the measures from a place on gets a little larger or smaller.
fn nudge(random: &mut Random, page: &mut [u8], from: usize, measures: usize) {
    let at = from + 2 * random.below(measures);
    let old = u16::from_be_bytes([page[at], page[at + 1]]);
    let by = random.any(&[1, 2, 4096]);
    let new = if random.one_in(2) {
        old.wrapping_add(by)
    } else {
        old.wrapping_sub(by)
    };
    page[at..at + 2].copy_from_slice(&new.to_be_bytes());
}
