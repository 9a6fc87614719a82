//! Comparisons with this library: what they count, when they fail, and what
//! they print. Comparing another evening program is here, in `evenings`;
//! comparisons of calls are made elsewhere, and counted and told here alike.

mod evenings;
mod summary;
mod tally;

pub use evenings::{compare, run};
pub use summary::{end, seeds, Summary};
pub use tally::{Answer, Compared, Tally, DESCRIBED};
