use super::measures::Measures;

/// How stations are ranked, with the weights of the four measures.
#[derive(Clone, Copy, Debug, PartialEq, Eq)]
pub enum Ranking {
    /// `S`: the sum of weight times measure.
    Sum([u16; 4]),
    /// `W`: the largest of weight times measure.
    Largest([u16; 4]),
}

impl Ranking {
    pub fn rank(&self, at: Measures) -> u64 {
        match self {
            Ranking::Sum(weights) => products(weights, at).iter().sum(),
            Ranking::Largest(weights) => products(weights, at).into_iter().fold(0, u64::max),
        }
    }
}

fn products(weights: &[u16; 4], at: Measures) -> [u64; 4] {
    std::array::from_fn(|i| u64::from(weights[i]) * u64::from(at.0[i]))
}
