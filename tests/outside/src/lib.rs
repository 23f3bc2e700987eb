//! The outside judge of the engine: the documents once more, in the plainest way, and the engine held against them.

pub mod boundary;
pub mod compare;
pub mod demands;
pub mod dice;
pub mod dividing;
pub mod edge;
pub mod examples;
pub mod families;
pub mod figures;
pub mod generate;
pub mod pages;
pub mod spec;
pub mod spoil;
pub mod stack;
pub mod vectors;
pub mod writer;
