//! Seeded books and sheets: right ones of every kind, ones at the limits, and damaged ones.

pub mod books;
pub mod damage;
pub mod random;
pub mod repeats;
pub mod sets;
pub mod sheets;
pub mod tables;
