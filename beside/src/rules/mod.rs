//! The rules of `docs/RULES.md`, written once more from that page alone. Everything is worked out anew from the definitions whenever it is asked
//! for: clear and slow.

pub mod book;
pub mod buffer;
pub mod check;
pub mod command;
pub mod console;
pub mod inspector;
pub mod levels;
pub mod plan;
pub mod program;
pub mod refusal;
pub mod sheet;
pub mod site;
pub mod survey;
#[cfg(test)]
mod worked;
