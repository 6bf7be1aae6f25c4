//! Levels, their tallies, scoring rules, and the level that is chosen.

use super::plan::numbers;
use super::refusal::{check_count, Refusal};
use super::site::Site;
use std::cmp::Ordering;

#[derive(Clone, Copy, Debug, PartialEq, Eq)]
pub struct Tally {
    pub members: i128,
    pub inside: i128,
    pub boundary: i128,
}

/// The tally of each level, from 0 to the top number.
pub fn tallies(site: &Site) -> Result<Vec<Tally>, Refusal> {
    check_count(site.n())?;
    let numbers = numbers(site);
    let links = site.links();
    let tally = |k: usize| {
        let in_level = |s: usize| numbers[s] >= k;
        let ends_in = |link: &(usize, usize)| usize::from(in_level(link.0)) + usize::from(in_level(link.1));
        let links_with = |ends: usize| links.iter().filter(|link| ends_in(link) == ends).count() as i128;
        let members = site.stations().filter(|&s| in_level(s)).count() as i128;
        Tally { members, inside: links_with(2), boundary: links_with(1) }
    };
    let top = numbers.iter().copied().max().unwrap_or(0);
    Ok((0..=top).map(tally).collect())
}

#[derive(Clone, Copy, Debug, PartialEq, Eq)]
pub enum Rule {
    Average,
    Net([u16; 3]),
    AverageThenNet([u16; 3]),
    NetThenAverage([u16; 3]),
}

/// The averages 2 × inside / members compared, by cross-multiplication.
fn compare_average(a: &Tally, b: &Tally) -> Ordering {
    (2 * a.inside * b.members).cmp(&(2 * b.inside * a.members))
}

fn compare_net([p, q, r]: [u16; 3], a: &Tally, b: &Tally) -> Ordering {
    let score = |t: &Tally| i128::from(p) * t.inside - i128::from(q) * t.boundary - i128::from(r) * t.members;
    score(a).cmp(&score(b))
}

impl Rule {
    /// Whether a scores below, level with or above b.
    pub fn compare(self, a: &Tally, b: &Tally) -> Ordering {
        match self {
            Rule::Average => compare_average(a, b),
            Rule::Net(weights) => compare_net(weights, a, b),
            Rule::AverageThenNet(weights) => compare_average(a, b).then(compare_net(weights, a, b)),
            Rule::NetThenAverage(weights) => compare_net(weights, a, b).then(compare_average(a, b)),
        }
    }
}

/// The greatest level that no other level scores above.
pub fn choose(site: &Site, rule: Rule) -> Result<usize, Refusal> {
    let tallies = tallies(site)?;
    let unbeaten = |&k: &usize| tallies.iter().all(|other| rule.compare(other, &tallies[k]) != Ordering::Greater);
    Ok((0..tallies.len()).rev().find(unbeaten).expect("some level is best"))
}
