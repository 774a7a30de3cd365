//! What the library is tried on: job files, damage to them, and tables.

pub mod damage;
pub mod drafts;
pub mod grown;
pub mod hard;
pub mod limits;
pub mod many;
pub mod random;
pub mod shapes;
pub mod tables;
