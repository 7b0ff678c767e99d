//! The corpus: cases for every entry, and what this program answers to them.
//!
//! README.md gives the format of the two files for whoever writes a consumer.

pub mod case;
pub mod damage;
pub mod explain;
pub mod files;
pub mod fixed;
pub mod known;
pub mod make;
pub mod random;
pub mod rng;
pub mod run;
pub mod spell;
pub mod trees;
pub mod wire;
