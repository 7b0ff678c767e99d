//! A second program for the same job as the proved library, written from the
//! documents alone: S-expressions (RFC 9804) read into a canonical form and a
//! node table, written in three forms, corrected, added to, compared, looked at
//! and extracted.
//!
//! It builds a tree of every text and answers from that tree. That is slow and
//! takes memory, but each rule stands in one place and can be checked by eye.

pub mod advanced;
pub mod base64;
pub mod basic;
pub mod builder;
pub mod canonical;
pub mod corpus;
pub mod corrections;
pub mod cursor;
pub mod entries;
pub mod extract;
pub mod lexeme;
pub mod limits;
pub mod output;
pub mod pieces;
pub mod place;
pub mod run;
pub mod spool;
pub mod tree;
pub mod values;
