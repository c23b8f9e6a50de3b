/// M1 to M4. Small is good.
#[derive(Clone, Copy, Debug, PartialEq, Eq)]
pub struct Measures(pub [u16; 4]);

impl Measures {
    /// No measure is larger than the other's.
    pub fn at_most(self, other: Measures) -> bool {
        let (a, b) = (self.0, other.0);
        // without branches: most tests fail, at no measure in particular
        (a[0] <= b[0]) & (a[1] <= b[1]) & (a[2] <= b[2]) & (a[3] <= b[3])
    }

    pub fn beats(self, other: Measures) -> bool {
        self.at_most(other) && self != other
    }

    pub fn sum(self) -> u32 {
        self.0.iter().map(|&m| u32::from(m)).sum()
    }

    /// Measure by measure the smaller of the two.
    pub fn min(self, other: Measures) -> Measures {
        Measures(std::array::from_fn(|i| self.0[i].min(other.0[i])))
    }

    /// Measure by measure the larger of the two.
    pub fn max(self, other: Measures) -> Measures {
        Measures(std::array::from_fn(|i| self.0[i].max(other.0[i])))
    }

    /// The bits of the four measures in turn, M1's first.
    pub fn code(self) -> u64 {
        let [m1, m2, m3, m4] = self.0.map(spread);
        m1 << 3 | m2 << 2 | m3 << 1 | m4
    }
}

/// Bit j goes to place 4j.
fn spread(m: u16) -> u64 {
    let mut x = u64::from(m);
    x = (x | x << 24) & 0x0000_00ff_0000_00ff;
    x = (x | x << 12) & 0x000f_000f_000f_000f;
    x = (x | x << 6) & 0x0303_0303_0303_0303;
    (x | x << 3) & 0x1111_1111_1111_1111
}

#[cfg(test)]
mod tests {
    use super::*;

    #[test]
    fn codes_take_bits_in_turn() {
        assert_eq!(Measures([1, 0, 0, 0]).code(), 8);
        assert_eq!(Measures([2, 0, 0, 0]).code(), 128);
        assert_eq!(Measures([0, 0, 0, 1]).code(), 1);
        for j in 0..16 {
            for (i, place) in [3, 2, 1, 0].into_iter().enumerate() {
                let mut m = [0; 4];
                m[i] = 1 << j;
                assert_eq!(Measures(m).code(), 1 << (4 * j + place));
            }
        }
    }
}
