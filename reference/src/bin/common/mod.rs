//! What the two programs share: the calls of the scope paper, answered by litrs, settling, and the
//! keyed entry.

pub mod answer;
pub mod keyed;
pub mod settle;
