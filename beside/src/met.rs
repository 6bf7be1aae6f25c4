//! How often each answer was met, by the command, program or call that gave it.

use crate::rules::command::Command;
use crate::rules::refusal::Refusal;
use std::collections::BTreeMap;

/// Each answer that can be met at all has to be met this often.
const OFTEN: usize = 20;

/// The refusals of surveys: number and layer, and those without a line.
const OF_SURVEYS: [&str; 11] = [
    "accepted",
    "14 layer 2 no line",
    "9 layer 2 no line",
    "8 layer 1",
    "8 layer 2",
    "9 layer 2",
    "1 layer 3",
    "2 layer 3",
    "3 layer 3",
    "4 layer 3",
    "6 layer 3",
];

/// The answers of calls that write to a buffer.
const OF_WRITING: [&str; 5] = ["just room", "room to spare", "1", "7 by one", "7 by more"];

/// All that can be met. The programs have room enough, so only calls of the library meet refusal 7.
const MEETABLE: [(&str, &[&str]); 32] = [
    ("lay out", &["accepted", "1"]),
    ("link", &["accepted", "1", "2", "3", "4", "6"]),
    ("unlink", &["accepted", "1", "2", "3", "5"]),
    ("survey", &OF_SURVEYS),
    ("plan", &OF_SURVEYS),
    ("numbers", &["accepted", "1"]),
    ("write out", &["accepted", "1"]),
    ("draw struck", &["accepted", "1", "2"]),
    ("inspect", &["accepted", "1", "10", "11", "12", "13"]),
    ("cards", &["accepted", "1", "10", "11", "12", "13"]),
    ("read", &["accepted", "10"]),
    ("put", &["accepted", "1", "10"]),
    ("tally", &["accepted", "1"]),
    ("check listed", &["accepted", "15 shape", "15 row"]),
    ("check square", &["accepted", "15 shape", "15 row"]),
    ("choose", &["accepted", "1"]),
    ("agree, the book's sheet", &["accepted", "1"]),
    ("agree, the offered sheet", &["accepted", "1", "10", "11", "12", "13"]),
    ("agree, the levels", &["accepted", "1"]),
    ("lines with spaces to spare", &["accepted"]),
    ("no command", &["not understood"]),
    ("planner_check", &["accepted", "15 shape", "15 row"]),
    ("planner_draw", &OF_WRITING),
    ("planner_draw_grid", &OF_WRITING),
    ("planner_redraw", &OF_WRITING),
    ("planner_numbers", &OF_WRITING),
    ("planner_tally", &OF_WRITING),
    ("planner_book", &OF_WRITING),
    ("steps of planner_book", &["accepted", "1", "2", "3", "4", "5", "6"]),
    ("planner_inspect", &["accepted", "1", "10", "11", "12", "13"]),
    ("planner_inspect_grid", &["accepted", "1", "10", "11", "12", "13"]),
    ("planner_choose", &["accepted", "1"]),
];

#[derive(Default)]
pub struct Met {
    times: BTreeMap<(&'static str, String), usize>,
}

impl Met {
    fn add(&mut self, asked: &'static str, answer: String) {
        *self.times.entry((asked, answer)).or_default() += 1;
    }

    /// Counts what `console` printed for a line.
    pub fn line(&mut self, line: &[u8], printed: &[u8]) {
        let answer = String::from_utf8_lossy(&printed[b"> ".len() + line.len() + 1..]).into_owned();
        let Some(command) = Command::read(line) else {
            self.add("no command", answer.trim_end().to_string());
            return;
        };
        if line.starts_with(b" ") || line.ends_with(b" ") || line.windows(2).any(|two| two == b"  ") {
            self.add("lines with spaces to spare", "accepted".to_string());
        }
        if command.name() != "agree" {
            self.add(command.name(), refusal(&answer));
            return;
        }
        let parts = ["agree, the book's sheet", "agree, the offered sheet", "agree, the levels"];
        for (part, told) in parts.into_iter().zip(answer.lines()) {
            self.add(part, refusal(told));
        }
    }

    /// Counts what `plan` wrote for a text.
    pub fn text(&mut self, written: &[u8]) {
        self.add("plan", refusal(&String::from_utf8_lossy(written)));
    }

    /// Counts what a call of the library answered.
    pub fn call<T>(&mut self, name: &'static str, answer: &Result<T, Refusal>) {
        let told = answer.as_ref().err().map(Refusal::to_string);
        self.add(name, refusal(&told.unwrap_or_default()));
    }

    /// And one that writes to a buffer of this length.
    pub fn writing(&mut self, name: &'static str, answer: &Result<usize, Refusal>, length: usize) {
        match answer {
            Ok(written) => self.add(name, if *written == length { "just room" } else { "room to spare" }.to_string()),
            Err(Refusal { number: 7, place }) => self.add(name, if *place == length + 1 { "7 by one" } else { "7 by more" }.to_string()),
            refused => self.call(name, refused),
        }
    }

    /// The table of all that was met, and whether all that can be was met often.
    pub fn table(&self) -> (String, bool) {
        let mut table = String::new();
        let mut enough = true;
        for (asked, answers) in MEETABLE {
            let times = |answer: &str| self.times.get(&(asked, answer.to_string())).copied().unwrap_or(0);
            let counts: Vec<String> = answers.iter().map(|answer| format!("{answer}: {}", times(answer))).collect();
            table += &format!("{asked}: {}\n", counts.join(", "));
            for answer in answers.iter().filter(|answer| times(answer) < OFTEN) {
                table += &format!("  {answer} was met less than {OFTEN} times\n");
                enough = false;
            }
        }
        let listed = |asked: &str, answer: &str| MEETABLE.iter().any(|(name, answers)| *name == asked && answers.contains(&answer));
        for ((asked, answer), times) in &self.times {
            if !listed(asked, answer) {
                table += &format!("  {asked}: {answer} was met {times} times, and cannot be met\n");
                enough = false;
            }
        }
        (table, enough)
    }
}

/// The first refusal in an answer, without its place: number, and layer.
fn refusal(answer: &str) -> String {
    let mut words = answer.split_whitespace().skip_while(|word| *word != "refused").skip(1);
    let Some(number) = words.next() else {
        return "accepted".to_string();
    };
    let value = |name: &str| answer.split_whitespace().skip_while(|word| *word != name).nth(1);
    match (value("layer"), value("line")) {
        (Some(layer), Some("0")) => format!("{number} layer {layer} no line"),
        (Some(layer), _) => format!("{number} layer {layer}"),
        _ if number == "15" && value("place") == Some("65535") => "15 shape".to_string(),
        _ if number == "15" => "15 row".to_string(),
        _ => number.trim_end_matches(',').to_string(),
    }
}
