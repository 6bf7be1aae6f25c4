//! Compares the programs `console` and `plan` and the library's calls for C with the rules of Banvrezh, which stand here a second time.
#![deny(unsafe_code)]

mod calls;
mod inputs;
mod library;
mod met;
mod programs;
mod random;
mod rules;

use calls::{Comparison, Difference};
use inputs::{small, surveys, talk::Talk, talks};
use met::Met;
use programs::Programs;
use random::Random;
use std::process::ExitCode;
use std::time::Instant;

/// Talks of one kind: how many in a short run, and how one is made.
struct Group {
    name: &'static str,
    talks: usize,
    make: fn(&mut Random) -> Talk,
}

const GROUPS: [Group; 13] = [
    Group { name: "all small sites", talks: 1, make: small::sites },
    Group { name: "all small sheets", talks: 2, make: small::sheets },
    Group { name: "all small tables", talks: 1, make: small::tables },
    Group { name: "nothing laid out", talks: 30, make: talks::nothing_laid_out },
    Group { name: "books", talks: 80, make: talks::book },
    Group { name: "changes", talks: 40, make: talks::changes },
    Group { name: "sheets", talks: 100, make: talks::sheets },
    Group { name: "put", talks: 20, make: talks::put },
    Group { name: "check", talks: 30, make: talks::check },
    Group { name: "surveys", talks: 70, make: talks::surveys },
    Group { name: "levels", talks: 50, make: talks::levels },
    Group { name: "lines", talks: 60, make: talks::lines },
    Group { name: "everything on one book", talks: 50, make: talks::mixed },
];

/// Calls of one kind: how many inputs in a short run, and how one is made and compared.
struct CallGroup {
    name: &'static str,
    inputs: usize,
    compare: fn(&mut Comparison) -> Result<(), Difference>,
}

const CALL_GROUPS: [CallGroup; 4] = [
    CallGroup { name: "calls on all small sites", inputs: 1, compare: calls::small },
    CallGroup { name: "calls over listings", inputs: 1000, compare: calls::listings },
    CallGroup { name: "calls over grids", inputs: 1000, compare: calls::grids },
    CallGroup { name: "calls on books", inputs: 120, compare: calls::books },
];

/// How many surveys `plan` is given in a short run.
const TEXTS: usize = 2500;

/// How many times as much a long run does.
const LONG: usize = 10;

struct Run {
    programs: Programs,
    seed: u64,
    times: usize,
}

fn main() -> ExitCode {
    let Some(run) = run_of_arguments() else {
        eprintln!("usage: beside CONSOLE PLAN KEPT [--seed N] [--long]");
        return ExitCode::FAILURE;
    };
    match run.compare() {
        Ok(groups) => {
            println!("{groups}");
            ExitCode::SUCCESS
        }
        Err(told) => {
            eprintln!("{told}");
            ExitCode::FAILURE
        }
    }
}

/// The two programs, a folder for inputs, and what to run.
fn run_of_arguments() -> Option<Run> {
    let mut words = std::env::args().skip(1);
    let programs = Programs { console: words.next()?.into(), plan: words.next()?.into(), kept: words.next()?.into() };
    let mut run = Run { programs, seed: 1, times: 1 };
    while let Some(word) = words.next() {
        match word.as_str() {
            "--seed" => run.seed = words.next()?.parse().ok()?,
            "--long" => run.times = LONG,
            _ => return None,
        }
    }
    Some(run)
}

impl Run {
    /// How many groups agree, with the surveys of `plan` and the files that fail as one each; or the difference that ended the run.
    fn compare(&self) -> Result<usize, String> {
        let mut met = Met::default();
        for group in &GROUPS {
            self.compare_group(group, &mut met)?;
        }
        self.compare_texts(&mut met)?;
        for group in &CALL_GROUPS {
            self.compare_calls(group, &mut met)?;
        }
        self.programs.compare_files()?;
        let (table, enough) = met.table();
        eprint!("{table}");
        if enough {
            Ok(GROUPS.len() + CALL_GROUPS.len() + 2)
        } else {
            Err("not all that can be met was met often enough".to_string())
        }
    }

    fn compare_group(&self, group: &Group, met: &mut Met) -> Result<(), String> {
        let start = Instant::now();
        let mut random = Random::new(self.seed);
        let mut lines = 0;
        for _ in 0..group.talks * self.times {
            let talk = (group.make)(&mut random);
            let last_lf = random.below(4) > 0;
            self.programs.compare_talk(&talk, last_lf).map_err(|told| format!("{}: a difference\n{told}", group.name))?;
            talk.lines.iter().zip(&talk.printed).for_each(|(line, printed)| met.line(line, printed));
            lines += talk.lines.len();
        }
        eprintln!("{}: {lines} lines agree, {:.1} s", group.name, start.elapsed().as_secs_f64());
        Ok(())
    }

    fn compare_calls(&self, group: &CallGroup, met: &mut Met) -> Result<(), String> {
        let start = Instant::now();
        let mut comparison = Comparison { random: &mut Random::new(self.seed), met, calls: 0 };
        for _ in 0..group.inputs * self.times {
            (group.compare)(&mut comparison).map_err(|Difference { given, told }| {
                let told = format!("{}: a difference\n{told}", group.name);
                self.programs.differing("call.differs", given.as_bytes(), told)
            })?;
        }
        eprintln!("{}: {} calls agree, {:.1} s", group.name, comparison.calls, start.elapsed().as_secs_f64());
        Ok(())
    }

    fn compare_texts(&self, met: &mut Met) -> Result<(), String> {
        let start = Instant::now();
        let mut random = Random::new(self.seed);
        for _ in 0..TEXTS * self.times {
            let text = surveys::any_text(&mut random);
            let written = self.programs.compare_text(&text).map_err(|told| format!("plan: a difference\n{told}"))?;
            met.text(&written);
        }
        eprintln!("plan: {} surveys agree, {:.1} s", TEXTS * self.times, start.elapsed().as_secs_f64());
        Ok(())
    }
}
