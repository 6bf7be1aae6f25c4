//! Plans: the number, home and up of each station, and an order.

use super::site::{Site, Stations};

#[derive(Clone, Debug, PartialEq, Eq)]
pub struct Plan {
    pub numbers: Vec<usize>,
    pub homes: Vec<usize>,
    pub ups: Vec<Option<usize>>,
    pub order: Vec<usize>,
}

impl Plan {
    /// The plan that is drawn of a site.
    pub fn of(site: &Site) -> Plan {
        let numbers = numbers(site);
        let homes = homes(site, &numbers);
        let ups = ups(site, &numbers, &homes);
        let order = drawn_order(site);
        Plan { numbers, homes, ups, order }
    }

    pub fn n(&self) -> usize {
        self.numbers.len()
    }
}

/// The k-core set. Who hears fewer than k of those that are left is in no such group, and goes, until nobody has to go.
pub fn core_set(site: &Site, k: usize) -> Stations {
    let mut set = Stations::of(site.stations());
    loop {
        let going: Vec<usize> = set.each().filter(|&s| site.hears(s, &set) < k).collect();
        if going.is_empty() {
            return set;
        }
        going.into_iter().for_each(|s| set.take(s));
    }
}

/// The number of each station: the greatest k for which it belongs to the k-core set.
pub fn numbers(site: &Site) -> Vec<usize> {
    let mut numbers = vec![0; site.n()];
    for k in 1..site.n() {
        let set: Vec<usize> = core_set(site, k).each().collect();
        if set.is_empty() {
            break;
        }
        set.into_iter().for_each(|s| numbers[s] = k);
    }
    numbers
}

/// All stations of number k or more.
fn of_number_or_more(numbers: &[usize], k: usize) -> Stations {
    Stations::of((0..numbers.len()).filter(|&s| numbers[s] >= k))
}

/// The lowest station of number k in the k-core around s.
fn lowest_around(site: &Site, numbers: &[usize], k: usize, s: usize) -> Option<usize> {
    let core = site.part(&of_number_or_more(numbers, k), s);
    let lowest = core.each().find(|&t| numbers[t] == k);
    lowest
}

pub fn homes(site: &Site, numbers: &[usize]) -> Vec<usize> {
    let home = |s: usize| lowest_around(site, numbers, numbers[s], s);
    site.stations().map(|s| home(s).expect("s itself is there")).collect()
}

pub fn ups(site: &Site, numbers: &[usize], homes: &[usize]) -> Vec<Option<usize>> {
    let up = |s: usize| (0..numbers[s]).rev().find_map(|j| lowest_around(site, numbers, j, s));
    site.stations().map(|s| if homes[s] == s { up(s) } else { None }).collect()
}

/// The order in which stations are removed: fewest neighbours among those still there, and the lowest of equals.
pub fn drawn_order(site: &Site) -> Vec<usize> {
    let mut there = Stations::of(site.stations());
    let mut order = Vec::new();
    while let Some(next) = there.each().min_by_key(|&s| (site.hears(s, &there), s)) {
        there.take(next);
        order.push(next);
    }
    order
}

/// An order in which numbers never fall, and of each station at most as many neighbours as its number come after it.
#[cfg(test)]
pub fn is_rightful(site: &Site, numbers: &[usize], order: &[usize]) -> bool {
    let behind = |i: usize| Stations::of(order[i + 1..].iter().copied());
    let named = Stations::of(order.iter().copied());
    order.len() == site.n()
        && site.stations().all(|s| named.has(s))
        && order.windows(2).all(|pair| numbers[pair[0]] <= numbers[pair[1]])
        && (0..order.len()).all(|i| site.hears(order[i], &behind(i)) <= numbers[order[i]])
}
