//! The program `plan`.

use super::plan::Plan;
use super::sheet::encode;
use super::survey::read_survey;

/// What `plan` writes for a text, and its status.
pub fn plan(text: &[u8]) -> (Vec<u8>, i32) {
    match read_survey(text) {
        Ok(book) => (encode(&Plan::of(&book.site)), 0),
        Err(refusal) => (refusal.line_of_plan().into_bytes(), 1),
    }
}
