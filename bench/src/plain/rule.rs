//! Which pages are opened, by the rule and not by a search.

use super::fault::{Code, Fault};
use super::key::Key;
use super::page::{Child, Entry, PageSource};
use super::question::Question;
use super::ranking::Ranking;
use super::station::Station;

/// All that is reached from the top through live pages.
struct Reached {
    stations: Vec<Station>,
    children: Vec<Child>,
    whole: bool,
}

fn reach<S: PageSource>(source: &S) -> Reached {
    let mut reached = Reached {
        stations: Vec::new(),
        children: Vec::new(),
        whole: true,
    };
    let mut pages = vec![0];
    while let Some(page) = pages.pop() {
        let read = source.read(page, |entry| match entry {
            Entry::Station(s) => reached.stations.push(s),
            Entry::Page(child) => {
                reached.children.push(child);
                pages.push(child.page);
            }
        });
        reached.whole &= read.is_ok();
    }
    reached
}

/// How many pages a search that ended so must have opened.
pub fn opened<S: PageSource>(
    source: &S,
    question: &Question,
    ranking: &Ranking,
    halt: Option<Fault>,
) -> u32 {
    let reached = reach(source);
    let in_play: Vec<Station> = reached
        .stations
        .iter()
        .filter(|s| question.region.holds(s.at))
        .copied()
        .collect();
    let k = usize::from(question.k);
    let called_for: Vec<Key> = reached
        .children
        .iter()
        .filter_map(|child| {
            let corner = question.region.corner(&child.bounds)?;
            let beaten = in_play
                .iter()
                .filter(|s| s.at.beats(corner))
                .take(k)
                .count()
                == k;
            (!beaten).then(|| Key::of_page(ranking, corner, child.page))
        })
        .collect();
    let last = match halt {
        None => None,
        Some(Fault {
            code: Code::ListFull,
            first,
            ..
        }) => in_play
            .iter()
            .find(|s| s.number == first)
            .map(|s| Key::of_station(ranking, s)),
        // the top alone was opened
        Some(Fault { first: 0, .. }) => return 1,
        Some(Fault { first, .. }) => called_for.iter().find(|key| key.number() == first).copied(),
    };
    1 + called_for
        .iter()
        .filter(|&&key| last.is_none_or(|last| key <= last))
        .count() as u32
}

/// The stations of a whole book, or none where a page is dead.
pub fn stations<S: PageSource>(source: &S) -> Option<Vec<Station>> {
    let reached = reach(source);
    reached.whole.then_some(reached.stations)
}
