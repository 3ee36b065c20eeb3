//! The calls of the library as one table, with what each is lent, to be made by Rust or by C and
//! compared with `second`; and random cases for them. The tests of rust/flamivorse use the table,
//! the program `fuzz` the random cases.

mod by_c;
pub mod calls;
pub mod cases;
pub mod hashes;
pub mod lent;
pub mod outside;
pub mod random;
mod states;
pub mod tally;
