//! References to stretches and to points along a line, on a depot map, and messages of many references,
//! in plain Rust: a second, unrelated implementation to measure against and to compare with.

mod choice;
pub mod depot_map;
pub mod fields;
pub mod front;
pub mod hexadecimal;
mod leg_tests;
pub mod legs;
pub mod map_sum;
pub mod maps;
pub mod message;
pub mod message_calls;
pub mod message_list;
#[cfg(feature = "openlr")]
pub mod openlr;
pub mod outcome;
mod places;
pub mod point;
pub mod reader;
pub mod search;
mod sole_legs;
pub mod worst_maps;
pub mod writer;
