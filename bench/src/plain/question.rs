use super::fault::{Code, Fault};
use super::measures::Measures;

/// A low and a high for each measure, ends included: a question's region, or a page's box.
#[derive(Clone, Copy, Debug, PartialEq, Eq)]
pub struct Region {
    pub low: Measures,
    pub high: Measures,
}

impl Region {
    pub fn is_ordered(&self) -> bool {
        self.low.at_most(self.high)
    }

    pub fn holds(&self, at: Measures) -> bool {
        self.low.at_most(at) && at.at_most(self.high)
    }

    pub fn holds_all(&self, other: &Region) -> bool {
        self.low.at_most(other.low) && other.high.at_most(self.high)
    }

    /// The smallest box around both.
    pub fn around(&self, other: &Region) -> Region {
        Region {
            low: self.low.min(other.low),
            high: self.high.max(other.high),
        }
    }

    /// The least measures that lie in both, or none where nothing does.
    pub fn corner(&self, bounds: &Region) -> Option<Measures> {
        let corner = self.low.max(bounds.low);
        (corner.at_most(self.high) && corner.at_most(bounds.high)).then_some(corner)
    }
}

#[derive(Clone, Copy, Debug, PartialEq, Eq)]
pub struct Question {
    pub k: u16,
    pub region: Region,
}

impl Question {
    pub fn check(&self) -> Result<(), Fault> {
        if !(1..=8).contains(&self.k) {
            return Err(Fault::bare(Code::BandCount));
        }
        if !self.region.is_ordered() {
            return Err(Fault::bare(Code::RegionOrder));
        }
        Ok(())
    }
}
