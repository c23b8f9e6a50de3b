//! The answer by its definition.

use super::key::Key;
use super::question::Question;
use super::ranking::Ranking;
use super::station::Station;

/// The stations in play that fewer than k in play beat, in key order.
pub fn scan(row: &[Station], question: &Question, ranking: &Ranking) -> Vec<Station> {
    let in_play: Vec<Station> = row
        .iter()
        .filter(|s| question.region.holds(s.at))
        .copied()
        .collect();
    let k = usize::from(question.k);
    let is_beaten = |s: &Station| in_play.iter().filter(|t| t.at.beats(s.at)).take(k).count() == k;
    let mut band: Vec<Station> = in_play.iter().filter(|s| !is_beaten(s)).copied().collect();
    band.sort_by_key(|s| Key::of_station(ranking, s));
    band
}
