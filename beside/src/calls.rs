//! The calls of the library, compared with the rules: what they answer, and every entry of the buffers that they are lent.

use crate::inputs::sheets::any_sheet;
use crate::inputs::sites::any_site;
use crate::inputs::small::all_sites;
use crate::inputs::steps::{any_steps, carry_out, setting};
use crate::inputs::tables::{any_listed, any_square, bits, great_listed, great_square, lists, Bits, Lists};
use crate::library::{book, redraw, Grid, Level, Listing, Reply, Step};
use crate::met::Met;
use crate::programs::smallest;
use crate::random::Random;
use crate::rules::book::Book;
use crate::rules::buffer::write;
use crate::rules::check::{check_listed, open_listed, open_square};
use crate::rules::inspector::inspect;
use crate::rules::levels::{choose, tallies, Rule, Tally};
use crate::rules::plan::Plan;
use crate::rules::refusal::{check_count, Refusal};
use crate::rules::sheet::encode;
use crate::rules::site::Site;
use std::fmt::Debug;

/// So many entries before a buffer and behind it are watched too.
const MARGIN: usize = 9;

/// Up to this length each one is tried.
const SHORT: usize = 48;

/// How many sheets are inspected over one table.
const SHEETS: usize = 6;

/// What was given to a call that differs, and what is told of it.
pub struct Difference {
    pub given: String,
    pub told: String,
}

pub struct Comparison<'a> {
    pub random: &'a mut Random,
    pub met: &'a mut Met,
    /// How many calls were compared.
    pub calls: usize,
}

/// All sites of up to 4 stations, and tables without stations.
pub fn small(comparison: &mut Comparison) -> Result<(), Difference> {
    for nothing in [(vec![], vec![]), (vec![0], vec![]), (vec![], vec![0])] {
        comparison.listing(&nothing)?;
    }
    comparison.grid(&(0, vec![]))?;
    comparison.book(0, &[])?;
    for site in (1..=4).flat_map(all_sites) {
        comparison.listing(&lists(&site))?;
        comparison.grid(&bits(&site))?;
        comparison.book(site.n(), &setting(&site))?;
    }
    Ok(())
}

pub fn listings(comparison: &mut Comparison) -> Result<(), Difference> {
    let random = &mut comparison.random;
    let site = any_site(random);
    let given = match random.below(50) {
        0 | 1 => great_listed(random),
        2..=25 => lists(&site),
        _ => any_listed(random, &site),
    };
    comparison.listing(&given)
}

pub fn grids(comparison: &mut Comparison) -> Result<(), Difference> {
    let random = &mut comparison.random;
    let site = any_site(random);
    let given = match random.below(50) {
        0 => great_square(random),
        1 => {
            let (starts, ends) = great_listed(random);
            bits(&open_listed(&starts, &ends))
        }
        2..=25 => bits(&site),
        _ => any_square(random, &site),
    };
    comparison.grid(&given)
}

pub fn books(comparison: &mut Comparison) -> Result<(), Difference> {
    let (stations, steps) = any_steps(comparison.random);
    let mut built = Book::default();
    let _ = built.lay_out(stations);
    for &step in &steps {
        let answer = carry_out(&mut built, step);
        comparison.met.call("steps of planner_book", &answer);
    }
    let Err(difference) = comparison.book(stations, &steps) else {
        return Ok(());
    };
    // few steps that differ still
    let differs = |steps: &[Step]| Ok(comparison.book(stations, steps).is_err());
    let steps = smallest(&steps, differs).unwrap_or(steps);
    Err(comparison.book(stations, &steps).err().unwrap_or(difference))
}

/// The plan that is drawn of a site. There have to be stations.
fn plan_of(site: &Site) -> Result<Plan, Refusal> {
    check_count(site.n()).map(|()| Plan::of(site))
}

/// An entry of a table of 16 bits.
fn of_16(number: usize) -> u16 {
    u16::try_from(number).expect("tables have 16 bits")
}

fn table_of_numbers(plan: &Plan) -> Vec<u16> {
    plan.numbers.iter().map(|&number| of_16(number)).collect()
}

fn level(tally: &Tally) -> Level {
    let of_32 = |count: i128| u32::try_from(count).expect("counts have 32 bits");
    Level { members: of_32(tally.members), inside: of_32(tally.inside), boundary: of_32(tally.boundary) }
}

fn any_byte(random: &mut Random) -> u8 {
    random.next() as u8
}

fn any_number(random: &mut Random) -> u16 {
    random.next() as u16
}

fn any_level(random: &mut Random) -> Level {
    Level { members: random.next() as u32, inside: random.next() as u32, boundary: random.next() as u32 }
}

impl Comparison<'_> {
    fn listing(&mut self, given: &Lists) -> Result<(), Difference> {
        let told = |told| Difference { given: format!("starts {:?}\nends {:?}\n", given.0, given.1), told };
        self.compare_listing(given).map_err(told)
    }

    fn grid(&mut self, given: &Bits) -> Result<(), Difference> {
        let told = |told| Difference { given: format!("stations {}\nbytes {:?}\n", given.0, given.1), told };
        self.compare_grid(given).map_err(told)
    }

    fn book(&mut self, stations: usize, steps: &[Step]) -> Result<(), Difference> {
        let told = |told| Difference { given: format!("stations {stations}\nsteps {steps:?}\n"), told };
        self.compare_book(stations, steps).map_err(told)
    }

    fn compare_listing(&mut self, (starts, ends): &Lists) -> Result<(), String> {
        let table = Listing {
            starts: &starts.iter().map(|&start| u32::try_from(start).expect("starts have 32 bits")).collect::<Vec<_>>(),
            ends: &ends.iter().map(|&end| of_16(end)).collect::<Vec<_>>(),
        };
        let site = open_listed(starts, ends);
        let plan = plan_of(&site);
        let drawn = plan.as_ref().map_err(|&refusal| refusal);
        self.answers("planner_check", table.check(), check_listed(starts, ends).map(|()| 0))?;
        self.writes("planner_draw", drawn.map(encode), any_byte, |out| table.draw(out))?;
        self.writes("planner_numbers", drawn.map(table_of_numbers), any_number, |out| table.numbers(out))?;
        self.writes("planner_tally", tallies(&site).map(|all| all.iter().map(level).collect()), any_level, |list| table.tally(list))?;
        self.answers("planner_choose", table.choose(), choose(&site, Rule::Average))?;
        for sheet in self.sheets(&site, &plan) {
            self.answers("planner_inspect", table.inspect(&sheet), inspect(&site, &sheet).map(|_| 0))?;
        }
        Ok(())
    }

    fn compare_grid(&mut self, (stations, bytes): &Bits) -> Result<(), String> {
        let table = Grid { stations: *stations, bytes };
        let site = open_square(*stations, bytes);
        let plan = plan_of(&site);
        self.writes("planner_draw_grid", plan.as_ref().map_err(|&refusal| refusal).map(encode), any_byte, |out| table.draw(out))?;
        for sheet in self.sheets(&site, &plan) {
            self.answers("planner_inspect_grid", table.inspect(&sheet), inspect(&site, &sheet).map(|_| 0))?;
        }
        Ok(())
    }

    fn compare_book(&mut self, stations: usize, steps: &[Step]) -> Result<(), String> {
        let mut built = Book::default();
        let _ = built.lay_out(stations);
        for &step in steps {
            let _ = carry_out(&mut built, step);
        }
        let plan = plan_of(&built.site);
        let drawn = plan.as_ref().map_err(|&refusal| refusal);
        self.writes("planner_redraw", drawn.map(encode), any_byte, |out| redraw(stations, steps, out))?;
        self.writes("planner_book", drawn.map(table_of_numbers), any_number, |numbers| book(stations, steps, numbers))
    }

    /// Bytes to be inspected.
    fn sheets(&mut self, site: &Site, plan: &Result<Plan, Refusal>) -> Vec<Vec<u8>> {
        match plan {
            Ok(plan) => (0..SHEETS).map(|_| any_sheet(self.random, site, plan)).collect(),
            Err(_) => vec![vec![], encode(&Plan::of(&Site::without_links(1)))],
        }
    }

    fn answers(&mut self, name: &'static str, theirs: Reply, ours: Result<usize, Refusal>) -> Result<(), String> {
        self.met.call(name, &ours);
        self.compare_answers(name, theirs, ours)
    }

    fn compare_answers(&mut self, name: &str, theirs: Reply, ours: Result<usize, Refusal>) -> Result<(), String> {
        self.calls += 1;
        let reply = match ours {
            Ok(value) => Reply { refusal: 0, value },
            Err(Refusal { number, place }) => Reply { refusal: u32::from(number), value: place },
        };
        if theirs == reply {
            Ok(())
        } else {
            Err(format!("{name} answers {theirs:?}, by the rules {reply:?}"))
        }
    }

    /// Compares a call on buffers of several lengths, which hold something before.
    fn writes<T: Copy + Debug + PartialEq>(
        &mut self,
        name: &'static str,
        found: Result<Vec<T>, Refusal>,
        any: fn(&mut Random) -> T,
        call: impl Fn(&mut [T]) -> Reply,
    ) -> Result<(), String> {
        for length in self.lengths(found.as_ref().map_or(0, Vec::len)) {
            let mut ours: Vec<T> = (0..MARGIN + length + MARGIN).map(|_| any(self.random)).collect();
            let mut theirs = ours.clone();
            let reply = call(&mut theirs[MARGIN..MARGIN + length]);
            let answer = write(&found, &mut ours[MARGIN..MARGIN + length]);
            self.met.writing(name, &answer, length);
            self.compare_answers(&format!("{name} with a buffer of {length}"), reply, answer)?;
            if let Some(at) = (0..ours.len()).find(|&at| theirs[at] != ours[at]) {
                let entry = at as i64 - MARGIN as i64;
                return Err(format!("{name} with a buffer of {length} has {:?} at {entry}, by the rules {:?}", theirs[at], ours[at]));
            }
        }
        Ok(())
    }

    /// Lengths of buffers where so much is needed: all that are short, or none, one too little, enough, more, and any.
    fn lengths(&mut self, needed: usize) -> Vec<usize> {
        let mut lengths = if needed < SHORT { (0..needed + 3).collect() } else { vec![0, self.random.below(needed), needed - 1, needed, needed + 1] };
        lengths.push(needed + self.random.between(3, 4_000));
        lengths
    }
}
