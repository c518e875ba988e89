//! Stores, images, lifts, a full search and the reachability rule of document 01, written from that document alone, and of document 02 the orders, by a rule
//! that the tests hold to the search, what lifts carried, the blanks, the shafts of unequal depth, the cassette
//! numbers past 255, and the changer's log.
//!
//! Nothing here is proved. The outside tests compare the proved library with it, and the tool and the benchmark use it.

pub mod image;
pub mod log;
pub mod log_text;
pub mod play;
pub mod random;
pub mod rule;
pub mod search;
pub mod store;
pub mod text;
pub mod uncover;

pub use random::Random;
pub use store::Store;
