//! What the two implementations are run on: random wells, questions and books, whole and damaged.

pub mod asked;
pub mod book_damage;
pub mod books;
pub mod log_damage;
pub mod random;
pub mod wells;
