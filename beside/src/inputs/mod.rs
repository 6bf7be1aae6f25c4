//! Inputs for `console`, `plan` and the library, made from a seed.

pub mod lines;
pub mod sheets;
pub mod sites;
pub mod small;
pub mod steps;
pub mod surveys;
pub mod tables;
pub mod talk;
pub mod talks;
