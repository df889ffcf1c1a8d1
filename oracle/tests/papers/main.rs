//! The examples, the bounds and the orders of document 01, the requests of
//! document 02, and properties over generated cases.

mod alike;
mod channels;
mod entries;
mod fields;
mod frames;
mod gaps;
mod ledgers;
mod listings;
mod marked;
mod months;
mod properties;
mod samples;
mod scrubbing;
mod sessions;
mod streams;
