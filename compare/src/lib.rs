//! What the comparisons share. The program `journals` holds the proved journal
//! program to the independent implementation, and `entry` the C entry point.
//! All inputs are random and seeded: a seed gives the same inputs everywhere.

pub mod answers;
pub mod borders;
pub mod comparisons;
pub mod contexts;
pub mod met;
pub mod registers;
pub mod requests;
pub mod tally;
pub mod without_bytes;
