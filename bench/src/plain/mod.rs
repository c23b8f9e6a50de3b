//! The rules of `docs/` in plain Rust: what the proved library is compared with, in what it says and in how long it takes.

pub mod fault;
pub mod key;
pub mod line;
pub mod log;
pub mod measures;
pub mod numbers;
pub mod page;
pub mod picker;
pub mod print;
pub mod question;
pub mod ranking;
pub mod roll;
pub mod rule;
pub mod scan;
pub mod search;
pub mod station;
pub mod stored;
pub mod writer;
