//! The crate as its users call it.

mod archive;
mod arguments;
mod cases;
mod elements;
mod header;
mod jobs;
mod limits;
mod migration;
mod operand;
mod package;
mod random;
mod reference;
mod refusals;
mod rules;
mod slid;
mod strided_basic;
mod times;
mod two_ships;
