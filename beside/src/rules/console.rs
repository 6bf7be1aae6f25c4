//! The program `console`: commands carried out on one book.

use super::book::Book;
use super::check::{check_listed, check_square};
use super::command::{hex, Command};
use super::inspector::inspect;
use super::levels::{choose, tallies, Rule};
use super::plan::Plan;
use super::refusal::{check_count, refuse, Refusal};
use super::sheet::{encode, put, read, route_cards, Tables};
use super::site::{Site, Stations, MOST_STATIONS};
use super::survey::read_survey;
use std::fmt::Display;

#[derive(Default)]
pub struct Console {
    book: Book,
    /// All calls on the book so far, those that were refused too.
    calls: Vec<Command>,
    /// The site that was drawn last, and its plan.
    drawn: Option<(Site, Plan)>,
}

impl Console {
    pub fn site(&self) -> &Site {
        &self.book.site
    }

    /// What is printed for a line.
    pub fn print(&mut self, line: &[u8]) -> Vec<u8> {
        let answer = match Command::read(line) {
            Some(command) => self.answer(command),
            None => "not understood".to_string(),
        };
        [b"> ", line, b"\n", answer.as_bytes(), b"\n"].concat()
    }

    fn answer(&mut self, command: Command) -> String {
        match command {
            Command::LayOut(..) | Command::Link(..) | Command::Unlink(..) | Command::Survey(..) => {
                let answer = carry_out(&mut self.book, &command);
                self.calls.push(command);
                answer
            }
            Command::Numbers => told(self.plan().map(|plan| format!("numbers: {}", listed(&plan.numbers)))),
            Command::WriteOut => told(self.plan().map(|plan| sheet(&encode(&plan)))),
            Command::DrawStruck(stations) => told(self.draw_struck(&stations)),
            Command::Inspect(bytes) => accepted(inspect(self.site(), &bytes)),
            Command::Cards(bytes) => {
                let passed = inspect(self.site(), &bytes);
                told(passed.map(|plan| format!("cards {}", hex(&route_cards(&plan)))))
            }
            Command::Read(bytes) => told(read(&bytes).map(|tables| tables_line(&tables))),
            Command::Put(tables) => told(put(&tables).map(|bytes| sheet(&bytes))),
            Command::Tally => told(tallies(self.site()).map(|tallies| {
                let line = |k: usize| {
                    let t = tallies[k];
                    format!("level {k}: {} members, {} inside, {} boundary", t.members, t.inside, t.boundary)
                };
                (0..tallies.len()).map(line).collect::<Vec<_>>().join("\n")
            })),
            Command::CheckListed(starts, ends) => accepted(check_listed(&starts, &ends)),
            Command::CheckSquare(n, bytes) => accepted(check_square(n, &bytes)),
            Command::Choose(rule) => told(choose(self.site(), rule).map(|k| format!("chosen {k}"))),
            Command::Agree(bytes, rule) => self.agree(&bytes, rule),
        }
    }

    pub fn plan(&mut self) -> Result<Plan, Refusal> {
        let site = self.book.site.clone();
        self.plan_of(&site)
    }

    fn plan_of(&mut self, site: &Site) -> Result<Plan, Refusal> {
        check_count(site.n())?;
        if let Some((drawn, plan)) = &self.drawn {
            if drawn == site {
                return Ok(plan.clone());
            }
        }
        let plan = Plan::of(site);
        self.drawn = Some((site.clone(), plan.clone()));
        Ok(plan)
    }

    fn draw_struck(&mut self, stations: &[usize]) -> Result<String, Refusal> {
        if let Some(&first) = stations.iter().find(|&&s| s >= MOST_STATIONS) {
            return refuse(2, first);
        }
        let site = self.site().struck(&Stations::of(stations.iter().copied()));
        Ok(sheet(&encode(&self.plan_of(&site)?)))
    }

    fn agree(&mut self, offered: &[u8], rule: Rule) -> String {
        let mut book = Book::default();
        for call in &self.calls {
            carry_out(&mut book, call);
        }
        let written = self.plan_of(&book.site).map(|plan| encode(&plan));
        let view = self.site();
        let of_book = written.and_then(|bytes| inspect(view, &bytes));
        let of_offered = inspect(view, offered);
        let passed = |verdict: Result<Plan, Refusal>| told(verdict.map(|_| "passed"));
        format!(
            "book's sheet: {}\noffered: {}\nchosen by book {}, by view {}",
            passed(of_book),
            passed(of_offered),
            told(choose(&book.site, rule)),
            told(choose(view, rule))
        )
    }
}

/// Carries out one of the four calls that change a book.
fn carry_out(book: &mut Book, call: &Command) -> String {
    match call {
        Command::LayOut(n) => accepted(book.lay_out(*n)),
        Command::Link(a, b) => accepted(book.link(*a, *b)),
        Command::Unlink(a, b) => accepted(book.unlink(*a, *b)),
        Command::Survey(text) => accepted(read_survey(text).map(|read| *book = read)),
        _ => unreachable!("no other command changes a book"),
    }
}

fn told<T: Display, E: Display>(answer: Result<T, E>) -> String {
    answer.map_or_else(|refusal| refusal.to_string(), |answer| answer.to_string())
}

fn accepted<T, E: Display>(answer: Result<T, E>) -> String {
    told(answer.map(|_| "ok"))
}

fn sheet(bytes: &[u8]) -> String {
    format!("sheet {}", hex(bytes))
}

/// Numbers, parted by spaces.
pub fn listed(numbers: &[usize]) -> String {
    numbers.iter().map(usize::to_string).collect::<Vec<_>>().join(" ")
}

fn tables_line(tables: &Tables) -> String {
    format!("tables {}: {}", tables[0].len(), tables.each_ref().map(|table| listed(table)).join(" / "))
}
