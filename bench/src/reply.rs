use crate::plain::fault::Fault;

/// What a call of the library replies, as `include/picker.h` has it.
#[derive(Clone, Copy, Debug, PartialEq, Eq)]
#[repr(C)]
pub struct Reply {
    /// 0 where nothing is refused.
    pub code: u32,
    pub first: u32,
    pub second: u32,
    /// Of what was written, or counted.
    pub length: usize,
}

impl Reply {
    pub fn accepting(length: usize) -> Reply {
        Reply {
            code: 0,
            first: 0,
            second: 0,
            length,
        }
    }

    pub fn refusing(fault: Fault, length: usize) -> Reply {
        Reply {
            code: fault.code as u32,
            first: fault.first,
            second: fault.second,
            length,
        }
    }
}
