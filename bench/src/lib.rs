//! How fast the library is. `plain` is the reader that it is measured against.

pub mod clock;
pub mod gcrypt;
pub mod loaded;
pub mod plain;
pub mod report;
pub mod texts;
