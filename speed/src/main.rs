//! Measures the planner as Rattle compiles it against one that is written by hand in Rust, and prints the tables of
//! docs/PERFORMANCE.md. What the two answer is compared before it is timed.

mod book;
mod drawing;
mod forest;
mod judging;
mod rattle;
mod scores;
mod sites;
mod timing;
mod view;

use book::{Book, Step};
use rattle::Reply;
use scores::Level;
use sites::{Dice, Site};
use std::hint::black_box;
use timing::{Compared, compare, quartiles, repeat, time};
use view::{Listed, Square};

const LONGEST: usize = 3_586;

/// The times of one call on one site.
#[derive(Clone)]
struct Line {
    site: String,
    compared: Compared,
}

fn accepted(value: usize) -> Reply {
    Reply { refusal: 0, value }
}

/// A site, with its name, its rows of bits and what opening it costs the planner of Rattle.
struct Case {
    name: String,
    site: Site,
    bits: Vec<u8>,
    opening: f64,
    grid_opening: f64,
    turns: usize,
}

impl Case {
    fn new(name: String, site: Site, turns: usize) -> Case {
        let bits = site.bits();
        let mut out = [0; LONGEST];
        let median = |run: &mut dyn FnMut() -> Reply| quartiles(&mut (0..9).map(|_| time(&mut *run)).collect::<Vec<_>>())[1];
        let opening = median(&mut || rattle::check(&site.starts, &site.ends));
        let stations = site.stations();
        let drawn = median(&mut || rattle::draw_grid(stations, &bits, 0, &mut out));
        let twice = median(&mut || rattle::draw_grid(stations, &bits, 1, &mut out));
        Case { name, bits, opening, grid_opening: (2.0 * drawn - twice).max(0.0), turns, site }
    }

    fn listed(&self) -> Listed<'_> {
        Listed { starts: &self.site.starts, ends: &self.site.ends }
    }

    fn square(&self) -> Square<'_> {
        Square { stations: self.site.stations(), bits: &self.bits }
    }

    fn line(&self, compared: Compared) -> Line {
        Line { site: self.name.clone(), compared }
    }

    fn check(&self) -> Line {
        let Site { starts, ends } = &self.site;
        assert!(self.listed().check());
        assert_eq!(rattle::check(starts, ends), accepted(0));
        let rattle = |calls| repeat(calls, || rattle::check(starts, ends));
        let rust = |calls| repeat(calls, || black_box(self.listed()).check());
        self.line(compare(self.turns, 0.0, rattle, rust))
    }

    fn draw(&self) -> Line {
        let Site { starts, ends } = &self.site;
        let (mut out, mut other) = ([0; LONGEST], [0; LONGEST]);
        let length = drawing::draw(&self.listed(), &mut other);
        assert_eq!(rattle::draw(starts, ends, 0, &mut out), accepted(length));
        assert_eq!(out, other, "sheets of {}", self.name);
        let rattle = |calls| time(|| rattle::draw(starts, ends, calls - 1, &mut out));
        let rust = |calls| repeat(calls, || drawing::draw(&black_box(self.listed()), &mut other));
        self.line(compare(self.turns, self.opening, rattle, rust))
    }

    fn draw_grid(&self) -> Line {
        let stations = self.site.stations();
        let (mut out, mut other) = ([0; LONGEST], [0; LONGEST]);
        let length = drawing::draw(&self.square(), &mut other);
        assert_eq!(rattle::draw_grid(stations, &self.bits, 0, &mut out), accepted(length));
        assert_eq!(out, other, "sheets of {} by bits", self.name);
        let rattle = |calls| time(|| rattle::draw_grid(stations, &self.bits, calls - 1, &mut out));
        let rust = |calls| repeat(calls, || drawing::draw(&black_box(self.square()), &mut other));
        let mut line = self.line(compare(self.turns, self.grid_opening, rattle, rust));
        line.site += ", rows of bits";
        line
    }

    fn sheet(&self) -> Vec<u8> {
        let mut out = [0; LONGEST];
        let length = drawing::draw(&self.listed(), &mut out);
        out[..length].to_vec()
    }

    /// Compares what the two say of the sheet and of sheets with a byte changed.
    fn compare_verdicts(&self, sheet: &[u8]) {
        let mut dice = Dice::new(7);
        let mut offered = sheet.to_vec();
        for round in 0..40 {
            let wanted = match judging::inspect(&self.listed(), &offered) {
                Ok(()) => accepted(0),
                Err((refusal, value)) => Reply { refusal, value },
            };
            assert_eq!(rattle::inspect(&self.site.starts, &self.site.ends, &offered, 0), wanted, "verdict on {}", self.name);
            assert_eq!(rattle::inspect_grid(self.site.stations(), &self.bits, &offered, 0), wanted, "verdict on {} by bits", self.name);
            assert!(round > 0 || wanted == accepted(0));
            offered.clear();
            offered.extend_from_slice(sheet);
            offered[dice.below(sheet.len())] ^= 1 << dice.below(8);
        }
    }

    fn inspect(&self) -> Line {
        let Site { starts, ends } = &self.site;
        let sheet = self.sheet();
        self.compare_verdicts(&sheet);
        let rattle = |calls| time(|| rattle::inspect(starts, ends, &sheet, calls - 1));
        let rust = |calls| repeat(calls, || judging::inspect(&black_box(self.listed()), &sheet));
        self.line(compare(self.turns, self.opening, rattle, rust))
    }

    fn inspect_grid(&self) -> Line {
        let stations = self.site.stations();
        let sheet = self.sheet();
        let rattle = |calls| time(|| rattle::inspect_grid(stations, &self.bits, &sheet, calls - 1));
        let rust = |calls| repeat(calls, || judging::inspect(&black_box(self.square()), &sheet));
        let mut line = self.line(compare(self.turns, self.grid_opening, rattle, rust));
        line.site += ", rows of bits";
        line
    }

    fn numbers(&self) -> Line {
        let Site { starts, ends } = &self.site;
        let (mut out, mut other) = ([0; 512], [0; 512]);
        drawing::numbers(&self.listed(), &mut other);
        assert_eq!(rattle::numbers(starts, ends, 0, &mut out), accepted(self.site.stations()));
        assert_eq!(out, other, "numbers of {}", self.name);
        let rattle = |calls| time(|| rattle::numbers(starts, ends, calls - 1, &mut out));
        let rust = |calls| repeat(calls, || drawing::numbers(&black_box(self.listed()), &mut other));
        self.line(compare(self.turns, self.opening, rattle, rust))
    }

    fn tally(&self) -> Line {
        let Site { starts, ends } = &self.site;
        let (mut list, mut other) = ([Level::default(); 512], [Level::default(); 512]);
        let levels = scores::tally(&self.listed(), &mut other);
        assert_eq!(rattle::tally(starts, ends, 0, &mut list), accepted(levels));
        assert_eq!(list, other, "levels of {}", self.name);
        let rattle = |calls| time(|| rattle::tally(starts, ends, calls - 1, &mut list));
        let rust = |calls| repeat(calls, || scores::tally(&black_box(self.listed()), &mut other));
        self.line(compare(self.turns, self.opening, rattle, rust))
    }

    fn choose(&self) -> Line {
        let Site { starts, ends } = &self.site;
        assert_eq!(rattle::choose(starts, ends, 0), accepted(scores::choose(&self.listed())), "level of {}", self.name);
        let rattle = |calls| time(|| rattle::choose(starts, ends, calls - 1));
        let rust = |calls| repeat(calls, || scores::choose(&black_box(self.listed())));
        self.line(compare(self.turns, self.opening, rattle, rust))
    }
}

/// The lists of steps that books are measured on.
struct Steps {
    /// The links of a site set, in an order drawn by lot.
    built: Vec<Step>,
    /// The same links set station by station, which takes the least time.
    set: Vec<Step>,
    /// All of them taken away again, by lot.
    taken: Vec<Step>,
    /// Single links of the full site taken away and set again.
    toggled: Vec<Step>,
    /// Single links of the full site taken away, and others set that are drawn by lot.
    exchanged: Vec<Step>,
}

/// How often single links are taken away and set again at most, to spend the time that setting all of them takes.
const ROUNDS: f64 = 40.0;

fn steps(links: &[(u16, u16)], sets: bool) -> Vec<Step> {
    links.iter().map(|(a, b)| Step { sets, a: *a, b: *b }).collect()
}

/// Links taken away by lot one after the other, each with another set in its place that is allowed.
fn exchanges(stations: usize, mut links: Vec<(u16, u16)>, count: usize, dice: &mut Dice) -> Vec<Step> {
    let mut rows = vec![Vec::new(); stations];
    for (a, b) in &links {
        rows[usize::from(*a)].push(*b);
        rows[usize::from(*b)].push(*a);
    }
    let mut steps = Vec::new();
    while steps.len() < 2 * count {
        let (a, b) = (dice.below(stations), dice.below(stations));
        if a == b || rows[a].contains(&(b as u16)) || rows[a].len() == 32 || rows[b].len() == 32 {
            continue;
        }
        let place = dice.below(links.len());
        let (c, d) = std::mem::replace(&mut links[place], (a as u16, b as u16));
        rows[usize::from(c)].retain(|t| *t != d);
        rows[usize::from(d)].retain(|t| *t != c);
        rows[a].push(b as u16);
        rows[b].push(a as u16);
        steps.extend([Step { sets: false, a: c, b: d }, Step { sets: true, a: a as u16, b: b as u16 }]);
    }
    steps
}

impl Steps {
    fn of(site: &Site, dice: &mut Dice) -> Steps {
        let mut links = site.links();
        links.sort_unstable_by_key(|(a, b)| (*b, *a));
        let set = steps(&links, true);
        dice.shuffle(&mut links);
        let built = steps(&links, true);
        dice.shuffle(&mut links);
        let toggled = (0..500).flat_map(|_| {
            let (a, b) = links[dice.below(links.len())];
            [Step { sets: false, a, b }, Step { sets: true, a, b }]
        });
        let (toggled, exchanged) = (toggled.collect(), exchanges(site.stations(), links.clone(), 1_000, dice));
        Steps { toggled, exchanged, taken: steps(&links, false), built, set }
    }
}

/// Carries out steps on a book of Rust.
fn carry_out(book: &mut Book, steps: &[Step]) {
    for step in steps {
        book.carry_out(step);
    }
}

/// Compares the numbers of the two books after every step, or after one in so many.
fn compare_numbers(name: &str, stations: usize, steps: &[Step], every: usize) {
    let mut book = Book::new(stations);
    for (i, step) in steps.iter().enumerate() {
        book.carry_out(step);
        if i % every == 0 || i + 1 == steps.len() {
            let mut numbers = vec![0; stations];
            assert_eq!(rattle::book(stations, &steps[..=i], &mut numbers), accepted(stations));
            assert!((0..stations).all(|s| book.number(s) == numbers[s]), "numbers of {name} after step {i}");
        }
    }
}

/// The times of links and unlinks on one site, per step.
struct Stepped {
    built: Line,
    /// None where the set-up takes so much longer that the difference says nothing.
    taken: Option<Line>,
    /// Of a link taken away and another set, both together.
    exchanged: Line,
    /// Of a link taken away and set again, both together.
    toggled: Line,
}

fn measure_steps(case: &Case, dice: &mut Dice) -> Stepped {
    let stations = case.site.stations();
    let Steps { built, set, taken, toggled, exchanged } = Steps::of(&case.site, dice);
    let apart = [&set[..], &taken].concat();
    let mut by_turns = [&set[..], &toggled].concat();
    let others = [&set[..], &exchanged].concat();
    compare_numbers(&case.name, stations, &[&built[..], &taken].concat(), if stations == 64 { 1 } else { 1_499 });
    compare_numbers(&case.name, stations, &by_turns, if stations == 64 { 17 } else { 1_499 });
    compare_numbers(&case.name, stations, &others, if stations == 64 { 17 } else { 1_499 });
    let mut numbers = vec![0; stations];
    let mut run = |steps: &[Step]| time(|| rattle::book(stations, steps, &mut numbers));
    let by_hand = |before: &[Step], steps: &[Step]| {
        let mut book = Book::new(stations);
        carry_out(&mut book, before);
        time(|| carry_out(&mut book, steps))
    };
    // what is measured by a difference must take about as long as what is taken off
    let before = run(&set);
    let rounds = (before / (run(&by_turns) - before).max(before / ROUNDS)).ceil() as usize;
    let toggled = toggled.repeat(rounds);
    by_turns = [&set[..], &toggled].concat();
    let mut rattle = [const { Vec::new() }; 4];
    let mut rust = [const { Vec::new() }; 4];
    let mut set_up = Vec::new();
    for _ in 0..case.turns {
        // the book begins without links in each list, so what stands before the steps is taken off
        let (none, before) = (run(&[]), run(&set));
        let spent = [run(&built) - none, run(&apart) - before, run(&by_turns) - before, run(&others) - before];
        let by_hand = [by_hand(&[], &built), by_hand(&set, &taken), by_hand(&set, &toggled), by_hand(&set, &exchanged)];
        for (k, count) in [built.len(), taken.len(), toggled.len() / 2, exchanged.len() / 2].into_iter().enumerate() {
            rattle[k].push(spent[k] / count as f64);
            rust[k].push(by_hand[k] / count as f64);
        }
        set_up.push(before);
    }
    let [built, apart, toggled, exchanged] = [0, 1, 2, 3].map(|k| case.line(Compared::of(&rattle[k], &rust[k])));
    let tells = apart.compared.rattle[1] * taken.len() as f64 * 20.0 > quartiles(&mut set_up)[1];
    Stepped { built, taken: tells.then_some(apart), exchanged, toggled }
}

fn microseconds(nanoseconds: f64) -> String {
    let value = nanoseconds / 1_000.0;
    if value < 10.0 { format!("{value:.2}") } else if value < 100.0 { format!("{value:.1}") } else { format!("{value:.0}") }
}

fn print_table(title: &str, lines: &[Line]) {
    println!("\n### {title}\n\n| Site | Rattle, µs | Rust, µs | Ratio | Quartiles |\n|---|---|---|---|---|");
    for Line { site, compared } in lines {
        let [low, ratio, high] = compared.ratio;
        println!("| {site} | {} | {} | {ratio:.2} | {low:.2} to {high:.2} |", microseconds(compared.rattle[1]), microseconds(compared.rust[1]));
    }
}

/// A link against drawing anew, on sites of 512 stations.
fn print_redraws(cases: &[(Case, Stepped)]) {
    println!("\n### A link against a redraw, 512 stations, rows of 16\n");
    println!("| Site | Link, µs | Link and unlink, µs | Redraw, µs | Numbers alone, µs | Redraw to link | Redraw to link and unlink | Numbers to these | The same three by hand |");
    println!("|---|---|---|---|---|---|---|---|---|");
    for (case, Stepped { built, toggled, .. }) in cases {
        let stations = case.site.stations();
        let set = steps(&case.site.links(), true);
        let mut out = [0; LONGEST];
        let mut spent: Vec<_> = (0..case.turns)
            .map(|_| {
                let once = time(|| rattle::redraw(stations, &set, 0, &mut out));
                (time(|| rattle::redraw(stations, &set, 100, &mut out)) - once) / 100.0
            })
            .collect();
        let redraw = quartiles(&mut spent)[1];
        let (numbers, drawn) = (case.numbers().compared, case.draw().compared);
        let (link, link_by_hand) = (built.compared.rattle[1], built.compared.rust[1]);
        let (pair, pair_by_hand) = (toggled.compared.rattle[1], toggled.compared.rust[1]);
        println!(
            "| {} | {} | {} | {} | {} | {:.1} | {:.1} | {:.1} | {:.1}, {:.1} and {:.1} |",
            case.name,
            microseconds(link),
            microseconds(pair),
            microseconds(redraw),
            microseconds(numbers.rattle[1]),
            redraw / link,
            redraw / pair,
            numbers.rattle[1] / pair,
            drawn.rust[1] / link_by_hand,
            drawn.rust[1] / pair_by_hand,
            numbers.rust[1] / pair_by_hand,
        );
    }
}

fn print_growth(turns: usize, dice: &mut Dice) {
    println!("\n### How the cost grows\n\nDraw and inspect in µs, Rattle and by hand.\n");
    println!("| Stations | Row | Ends | Draw | By hand | Inspect | By hand |\n|---|---|---|---|---|---|---|");
    for stations in [64, 128, 256, 512] {
        for row in [2, 4, 8, 16, 32, 64, 128] {
            if row <= stations / 4 {
                let case = Case::new(String::new(), Site::scattered(stations, row, dice), turns);
                let (draw, inspect) = (case.draw().compared, case.inspect().compared);
                let [a, b, c, d] = [draw.rattle, draw.rust, inspect.rattle, inspect.rust].map(|times| microseconds(times[1]));
                println!("| {stations} | {row} | {} | {a} | {b} | {c} | {d} |", case.site.ends.len());
            }
        }
    }
}

fn main() {
    let turns = std::env::args().nth(1).and_then(|word| word.parse().ok()).unwrap_or(31);
    let mut dice = Dice::new(2_024);
    let scattered = |stations: usize, row: usize, dice: &mut Dice| {
        Case::new(format!("{stations} stations, rows of {row}"), Site::scattered(stations, row, dice), turns)
    };
    let mut plain = Vec::new();
    let mut dense = Vec::new();
    for stations in [64, 256, 512] {
        plain.push(scattered(stations, 4, &mut dice));
        plain.push(scattered(stations, 16, &mut dice));
        dense.push(scattered(stations, 32, &mut dice));
        if stations > 64 {
            dense.push(scattered(stations, stations / 4, &mut dice));
        }
    }
    let all = || plain.iter().chain(&dense);
    print_table("Draw", &all().map(Case::draw).chain(dense.iter().map(Case::draw_grid)).collect::<Vec<_>>());
    print_table("Inspect", &all().map(Case::inspect).chain(dense.iter().map(Case::inspect_grid)).collect::<Vec<_>>());
    print_table("Tally", &all().map(Case::tally).collect::<Vec<_>>());
    print_table("Choose, by Average", &all().map(Case::choose).collect::<Vec<_>>());
    print_table("Numbers alone", &all().map(Case::numbers).collect::<Vec<_>>());
    print_table("Check of a listing", &all().map(Case::check).collect::<Vec<_>>());
    let steps_turns = turns.div_ceil(3);
    let even = [
        Case::new("512 stations in halls of 17".into(), Site::halls(512, 17), steps_turns),
        Case::new("512 stations on a ring, rows of 16".into(), Site::ring(512, 16), steps_turns),
    ];
    let scattered = plain.len();
    let (mut built, mut taken, mut toggled, mut exchanged, mut redrawn) = (Vec::new(), Vec::new(), Vec::new(), Vec::new(), Vec::new());
    for case in plain.into_iter().map(|case| Case { turns: steps_turns, ..case }).chain(even) {
        let measured = measure_steps(&case, &mut dice);
        built.push(measured.built.clone());
        taken.extend(measured.taken.clone());
        toggled.push(measured.toggled.clone());
        exchanged.push(measured.exchanged.clone());
        if case.site.stations() == 512 && case.site.ends.len() > 4_096 {
            redrawn.push((case, measured));
        }
    }
    print_table("Link: a site built up from nothing, per link", &built);
    print_table("Unlink: the site taken apart, per link", &taken);
    print_table("A link of the full site taken away and set again, both together", &toggled);
    // (an even site would be one drawn by lot before long)
    print_table("A link of the full site taken away and another set, both together", &exchanged[..scattered]);
    print_redraws(&redrawn);
    print_growth(turns.div_ceil(4), &mut dice);
}
