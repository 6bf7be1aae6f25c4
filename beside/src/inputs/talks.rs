//! Talks of each kind.

use super::lines::{any_call, any_change, any_line, any_question, any_rule, bad_lay_out, draw_struck, jumbled, spaced, spoilt};
use super::sheets::any_sheet;
use super::sites::any_site;
use super::surveys::{any_text, text_of};
use super::tables::{any_listed, any_put, any_square, great_listed, great_square, listed_line, put_line, square_line};
use super::talk::Talk;
use crate::random::Random;
use crate::rules::command::hex;

/// Questions and calls to a book without stations.
pub fn nothing_laid_out(random: &mut Random) -> Talk {
    let mut talk = Talk::default();
    for _ in 0..40 {
        let sheet = *random.pick(&["-", "0100000000", "00", "020004000002000000000100"]);
        let line = match random.below(8) {
            0 | 1 => any_call(random, &talk),
            2 => bad_lay_out(random),
            3 => format!("agree {sheet} {}", any_rule(random)),
            4 | 5 => format!("{} {sheet}", random.pick(&["inspect", "cards", "read"])),
            _ => any_question(random, &mut talk),
        };
        talk.say(line);
    }
    talk
}

fn in_between(talk: &mut Talk, random: &mut Random) {
    let line = match random.below(8) {
        0..=3 => any_call(random, talk),
        4 => bad_lay_out(random),
        5 | 6 => "numbers".to_string(),
        _ => any_question(random, talk),
    };
    talk.say(line);
}

/// A book that is built and then changed here and there, with many calls that are refused.
pub fn book(random: &mut Random) -> Talk {
    let mut talk = Talk::default();
    let site = any_site(random);
    talk.build(random, &site, in_between);
    talk.say("write out");
    for _ in 0..random.between(20, 80) {
        let call = any_call(random, &talk);
        talk.say(call);
        if random.once_in(3) {
            talk.say("numbers");
        }
        if random.once_in(9) {
            let question = any_question(random, &mut talk);
            talk.say(question);
        }
    }
    talk.say("write out");
    talk
}

/// A book whose numbers are asked for after each of many changes.
pub fn changes(random: &mut Random) -> Talk {
    let mut talk = built(random);
    for _ in 0..200 {
        let change = any_change(random, &talk);
        talk.say(change);
        talk.say("numbers");
    }
    talk.say("write out");
    talk
}

/// A book of a site, by links or by a survey.
fn built(random: &mut Random) -> Talk {
    let mut talk = Talk::default();
    let site = any_site(random);
    if random.once_in(2) {
        talk.say(format!("survey {}", hex(&text_of(random, &site))));
    }
    if talk.site().n() == 0 {
        talk.build(random, &site, |_, _| {});
    }
    talk
}

/// Sheets inspected, read and issued, and offered to the agreement.
pub fn sheets(random: &mut Random) -> Talk {
    let mut talk = built(random);
    let site = talk.site().clone();
    let plan = talk.plan();
    for _ in 0..random.between(20, 40) {
        let sheet = hex(&any_sheet(random, &site, &plan));
        let line = match random.below(10) {
            0..=3 => format!("inspect {sheet}"),
            4..=6 => format!("cards {sheet}"),
            7 => format!("read {sheet}"),
            _ => format!("agree {sheet} {}", any_rule(random)),
        };
        talk.say(line);
    }
    talk
}

pub fn put(random: &mut Random) -> Talk {
    let mut talk = built(random);
    let plan = talk.plan();
    for _ in 0..40 {
        talk.say(put_line(&any_put(random, &plan)));
    }
    talk
}

pub fn check(random: &mut Random) -> Talk {
    let mut talk = Talk::default();
    for _ in 0..20 {
        let site = any_site(random);
        talk.say(listed_line(&any_listed(random, &site)));
        talk.say(square_line(&any_square(random, &site)));
    }
    talk.say(square_line(&great_square(random)));
    talk.say(listed_line(&great_listed(random)));
    talk
}

/// Texts read into one book, which a refused one leaves as it was.
pub fn surveys(random: &mut Random) -> Talk {
    let mut talk = Talk::default();
    for _ in 0..30 {
        talk.say(format!("survey {}", hex(&any_text(random))));
        if random.once_in(4) {
            let question = any_question(random, &mut talk);
            talk.say(question);
        }
    }
    talk
}

/// Levels tallied and chosen, and stations struck.
pub fn levels(random: &mut Random) -> Talk {
    let mut talk = built(random);
    talk.say("tally");
    let n = talk.site().n();
    for _ in 0..30 {
        talk.say(format!("choose {}", any_rule(random)));
        if random.once_in(2) {
            talk.say(draw_struck(random, n));
        }
        if random.once_in(3) {
            let call = any_call(random, &talk);
            talk.say(call);
            talk.say("tally");
        }
    }
    talk
}

/// Lines that are no commands, or only just.
pub fn lines(random: &mut Random) -> Talk {
    let mut talk = Talk::default();
    let count = if random.once_in(8) { random.below(3) } else { 100 };
    for _ in 0..count {
        let line = any_line(random, &mut talk);
        let line = match random.below(8) {
            0 => jumbled(random),
            1 => spaced(random, &line),
            2 => {
                let spoilt = spoilt(random, &line);
                spaced(random, &spoilt)
            }
            _ => spoilt(random, &line),
        };
        talk.say(line);
    }
    talk
}

/// Everything on one book.
pub fn mixed(random: &mut Random) -> Talk {
    let mut talk = Talk::default();
    for _ in 0..random.between(60, 200) {
        let line = any_line(random, &mut talk);
        talk.say(line);
    }
    talk
}
