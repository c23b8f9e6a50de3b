/// Station numbers seen so far: an open table, at most half full, in which 0 marks a free slot.
pub struct Numbers<const SLOTS: usize> {
    slots: [u32; SLOTS],
}

impl<const SLOTS: usize> Numbers<SLOTS> {
    const SHIFT: u32 = {
        assert!(SLOTS.is_power_of_two());
        32 - SLOTS.trailing_zeros()
    };

    pub fn new() -> Self {
        Numbers { slots: [0; SLOTS] }
    }

    /// Adds a number from 1, and says whether it is new.
    pub fn insert(&mut self, number: u32) -> bool {
        let mut slot = (number.wrapping_mul(0x9e37_79b1) >> Self::SHIFT) as usize;
        loop {
            match self.slots[slot % SLOTS] {
                0 => {
                    self.slots[slot % SLOTS] = number;
                    return true;
                }
                seen if seen == number => return false,
                _ => slot += 1,
            }
        }
    }
}
