//! The second, independent program: documents 01 and 02 written down plainly,
//! as far as their requests are built, and the cases that it and the library
//! answer (`cases`, `channels::cases`, `market::cases`, `month::cases`,
//! `session::cases`, `step::cases`).
//!
//! Nothing here was taken from the proved crates. Each module follows the
//! section, the request or the source document that it is named after, and
//! quotes its rules; what the documents leave open follows the list of decided
//! points, cited by number.

pub mod alike;
pub mod answer;
pub mod answers;
pub mod broken;
pub mod bytes;
pub mod calendar;
pub mod cases;
pub mod channels;
pub mod clean;
pub mod entries;
pub mod frame;
pub mod gaps;
pub mod ledger;
pub mod listing;
pub mod made;
pub mod market;
pub mod month;
pub mod numbers;
pub mod record;
pub mod rules;
pub mod scrub;
pub mod session;
pub mod step;
pub mod stream;
pub mod tails;
pub mod walk;
