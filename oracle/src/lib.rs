//! What the Rust answers, over plain data: distances and lists of rustfst as published, with the
//! bytes that the requirements lay out for them, and a source of cases.

pub mod bench;
pub mod bytes;
pub mod cases;
pub mod finite;
pub mod machine;
pub mod random;
pub mod readings;
pub mod reference;
