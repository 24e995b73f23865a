//! The linked calls against the Rust: what is timed, on which packs, and the table.

pub mod sets;
pub mod subject;
pub mod table;
pub mod timing;
