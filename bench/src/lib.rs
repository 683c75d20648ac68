//! What is measured, in one place: `speed` times these rows, and `count` counts their instructions.

pub mod boxes;
mod driver;
pub mod figures;
pub mod proved;
pub mod rows;
pub mod streams;
