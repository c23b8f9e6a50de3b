//! The book of a row, in code order.

use super::fault::{Code, Fault};
use super::measures::Measures;
use super::page::Child;
use super::roll::Roll;
use super::station::Station;
use super::stored::{CHILD_BYTES, HEADER, PAGE, STATION_BYTES};

/// Puts stations in order by code, and then by number.
pub fn order(row: &mut [Station]) {
    row.sort_by_cached_key(|s| (s.at.code(), s.number));
}

/// Writes the book of the row, which is put in order, and says how many bytes it has.
pub fn write_book(row: &mut [Station], book: &mut [u8]) -> Result<usize, Fault> {
    order(row);
    let roll = Roll::new(row);
    let pages = roll.pages();
    let length = PAGE * pages as usize;
    let Some(book) = book.get_mut(..length) else {
        return Err(Fault::bare(Code::ShortBuffer));
    };
    book.fill(0);
    for (number, page) in (0..pages).zip(book.chunks_exact_mut(PAGE)) {
        write_page(&roll, number, page);
    }
    Ok(length)
}

fn write_page(roll: &Roll, number: u32, page: &mut [u8]) {
    let (level, place) = roll.find(number);
    let (header, entries) = page.split_at_mut(HEADER);
    let mut count = 0;
    if level == 0 {
        let stations = roll.stations(place);
        count = stations.len();
        for (station, entry) in stations.iter().zip(entries.chunks_exact_mut(STATION_BYTES)) {
            write_station(station, entry);
        }
    } else {
        let children = roll.children(level, place);
        for (child, entry) in children.zip(entries.chunks_exact_mut(CHILD_BYTES)) {
            write_child(&child, entry);
            count += 1;
        }
    }
    header[0] = level as u8;
    header[1] = count as u8;
}

fn write_station(station: &Station, entry: &mut [u8]) {
    entry[..4].copy_from_slice(&station.number.to_be_bytes());
    write_measures(station.at, &mut entry[4..]);
}

fn write_child(child: &Child, entry: &mut [u8]) {
    entry[..2].copy_from_slice(&(child.page as u16).to_be_bytes());
    write_measures(child.bounds.low, &mut entry[2..10]);
    write_measures(child.bounds.high, &mut entry[10..]);
}

fn write_measures(at: Measures, bytes: &mut [u8]) {
    for (m, two) in at.0.iter().zip(bytes.chunks_exact_mut(2)) {
        two.copy_from_slice(&m.to_be_bytes());
    }
}
