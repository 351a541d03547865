//! What compares the proved listing with that of the second model.

pub mod boundaries;
pub mod check;
pub mod damage;
pub mod faults;
pub mod proved;
pub mod random;
pub mod sheets;
pub mod tally;
