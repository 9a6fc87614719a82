//! An independent second program for the evening clearing of futures.
//!
//! It is written from the specification alone, so that its answers can be
//! compared with those of another program written from the same paper.
//! Words of the specification (reserve, margin, usable, room, standing, held,
//! paired ...) name the same things here.

pub mod account;
pub mod book;
pub mod bounds;
mod bytes;
pub mod comparison;
pub mod contract;
pub mod evening;
pub mod generate;
pub mod layout;
pub mod position;
pub mod posting;
pub mod record;
pub mod refusal;
pub mod rules;
pub mod settlement;
pub mod sheet;
pub mod units;
pub mod validity;

pub use book::Book;
pub use evening::evening;
pub use posting::post;
pub use refusal::Refusal;
pub use settlement::settle;
pub use validity::check;
