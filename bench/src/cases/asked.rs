use crate::plain::station::Station;

use super::random::Random;

/// A question as it is written: 14 fields, of which the first is the ranking's letter.
#[derive(Clone)]
pub struct Asked {
    pub letter: char,
    pub k: u16,
    pub lows: [u16; 4],
    pub highs: [u16; 4],
    pub weights: [u16; 4],
}

impl Asked {
    /// Every station is in play.
    pub fn everywhere(letter: char, k: u16, weights: [u16; 4]) -> Asked {
        Asked {
            letter,
            k,
            lows: [0; 4],
            highs: [u16::MAX; 4],
            weights,
        }
    }

    /// Over measures up to `most`.
    pub fn random(random: &mut Random, most: u16) -> Asked {
        let letter = random.any(&['S', 'W']);
        let k = 1 + random.below(8) as u16;
        let heaviest = random.any(&[0, 1, 3, 1000]);
        let weights = std::array::from_fn(|_| random.short(0, heaviest));
        let mut asked = Asked::everywhere(letter, k, weights);
        if random.one_in(2) {
            for i in 0..4 {
                let (a, b) = (random.short(0, most), random.short(0, most));
                // a region that is not too small, so that stations are in play
                asked.lows[i] = a.min(b) / random.any(&[1, 2, 8]);
                asked.highs[i] = a.max(b).saturating_add(random.short(0, most / 2));
            }
        }
        asked
    }

    pub fn line(&self) -> String {
        let numbers: Vec<String> = [self.lows, self.highs, self.weights]
            .concat()
            .iter()
            .map(u16::to_string)
            .collect();
        format!("{},{},{}\n", self.letter, self.k, numbers.join(","))
    }
}

/// The text of a log.
pub fn log_text(asked: &Asked, stations: &[Station]) -> Vec<u8> {
    let mut text = asked.line();
    for s in stations {
        let [m1, m2, m3, m4] = s.at.0;
        text += &format!("{},{m1},{m2},{m3},{m4}\n", s.number);
    }
    text.into_bytes()
}
