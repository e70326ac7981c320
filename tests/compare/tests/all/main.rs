//! All tests of the programs, built as one.

mod bench;
mod digits;
mod edges;
mod frames;
mod listen;
mod older;
mod places;
mod program;
mod rig;
mod speed;
mod turns;
