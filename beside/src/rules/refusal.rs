//! Refusals: a number from 1 to 15 and a place.

use super::site::MOST_STATIONS;
use std::fmt;

#[derive(Clone, Copy, Debug, PartialEq, Eq)]
pub struct Refusal {
    pub number: u8,
    pub place: usize,
}

/// The refusal with this number and place, as what a call answers.
pub fn refuse<T>(number: u8, place: usize) -> Result<T, Refusal> {
    Err(Refusal { number, place })
}

/// Check 1: a station count is 1 to 512.
pub fn check_count(n: usize) -> Result<(), Refusal> {
    if (1..=MOST_STATIONS).contains(&n) {
        Ok(())
    } else {
        refuse(1, 0)
    }
}

impl fmt::Display for Refusal {
    fn fmt(&self, f: &mut fmt::Formatter) -> fmt::Result {
        write!(f, "refused {} place {}", self.number, self.place)
    }
}

/// A survey is refused with layer, line and byte too.
#[derive(Clone, Copy, Debug, PartialEq, Eq)]
pub struct SurveyRefusal {
    pub refusal: Refusal,
    pub layer: u8,
    pub line: usize,
    pub byte: usize,
}

impl SurveyRefusal {
    /// The line that `plan` writes, which does not show the place.
    pub fn line_of_plan(&self) -> String {
        let SurveyRefusal { refusal, layer, line, byte } = self;
        format!("refused {} layer {layer} line {line} byte {byte}\n", refusal.number)
    }
}

impl fmt::Display for SurveyRefusal {
    fn fmt(&self, f: &mut fmt::Formatter) -> fmt::Result {
        let SurveyRefusal { refusal, layer, line, byte } = self;
        write!(f, "{refusal} layer {layer} line {line} byte {byte}")
    }
}
