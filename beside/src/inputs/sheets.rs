//! Sheets to be offered: right ones, false ones of the right form, and damaged ones.

use super::sites::site_of_size;
use crate::random::Random;
use crate::rules::plan::{homes, ups, Plan};
use crate::rules::sheet::encode;
use crate::rules::site::{Site, Stations};

pub fn any_sheet(random: &mut Random, site: &Site, plan: &Plan) -> Vec<u8> {
    match random.below(12) {
        0 => encode(plan),
        1 | 2 => encode(&Plan { order: rightful_order(random, site, &plan.numbers), ..plan.clone() }),
        3..=5 => encode(&false_plan(random, site, plan)),
        6 => sheet_nearby(random, site),
        7 => sheet_elsewhere(random, site.n()),
        8 => (0..random.below(40)).map(|_| random.next() as u8).collect(),
        _ => {
            let mut bytes = any_sheet(random, site, plan);
            for _ in 0..random.between(1, 2) {
                damage(random, &mut bytes, site.n());
            }
            bytes
        }
    }
}

/// Some rightful order: of the lowest number that is left, any station goes that has at most so many neighbours left.
pub fn rightful_order(random: &mut Random, site: &Site, numbers: &[usize]) -> Vec<usize> {
    let mut there = Stations::of(site.stations());
    let mut order = Vec::new();
    while let Some(lowest) = there.each().map(|s| numbers[s]).min() {
        let may_go = |&s: &usize| numbers[s] == lowest && site.hears(s, &there) <= lowest;
        let going: Vec<usize> = there.each().filter(may_go).collect();
        let next = *random.pick(&going);
        there.take(next);
        order.push(next);
    }
    order
}

/// A plan that differs from the right one in a place or in all.
fn false_plan(random: &mut Random, site: &Site, plan: &Plan) -> Plan {
    let mut plan = plan.clone();
    let n = plan.n();
    let s = random.below(n);
    match random.below(16) {
        0 => plan.numbers[s] += 1,
        1 => plan.numbers[s] = plan.numbers[s].saturating_sub(1),
        2 => plan.numbers[s] = random.below(n + 1),
        3 | 4 => plan.homes[s] = random.below(n),
        5 => plan.homes[s] = s,
        6 => plan.ups[s] = Some(random.below(n)),
        7 => plan.ups[s] = None,
        8 => (plan.homes[s], plan.ups[s]) = (s, Some(*random.pick(&[s, 0, n - 1]))),
        9 => plan.order = random.order(n),
        10 => plan.order.swap(s, (s + 1) % n),
        11 => plan.order.swap(s, random.below(n)),
        12 => plan.order.reverse(),
        // Wrong numbers, with the homes and ups that belong to them.
        13 => by_numbers(site, &mut plan, |_, number| number.saturating_sub(1)),
        14 => by_numbers(site, &mut plan, |s, _| site.neighbours(s).len()),
        _ => {
            let least = random.below(4);
            by_numbers(site, &mut plan, |_, number| number.min(least));
        }
    }
    plan
}

fn by_numbers(site: &Site, plan: &mut Plan, number: impl Fn(usize, usize) -> usize) {
    plan.numbers = site.stations().map(|s| number(s, plan.numbers[s])).collect();
    plan.homes = homes(site, &plan.numbers);
    plan.ups = ups(site, &plan.numbers, &plan.homes);
    let numbers = &plan.numbers;
    plan.order.sort_by_key(|&s| numbers[s]);
}

/// The sheet of the site with a link more or less.
fn sheet_nearby(random: &mut Random, site: &Site) -> Vec<u8> {
    let mut site = site.clone();
    let (a, b) = (random.below(site.n()), random.below(site.n()));
    let links = site.links();
    if random.once_in(2) && !links.is_empty() {
        let &(a, b) = random.pick(&links);
        site.take_away(a, b);
    } else if a != b {
        site.set(a, b);
    }
    encode(&Plan::of(&site))
}

/// The sheet of some other site, mostly of another size.
fn sheet_elsewhere(random: &mut Random, n: usize) -> Vec<u8> {
    let size = if random.once_in(3) { n } else { random.between(1, 20) };
    encode(&Plan::of(&site_of_size(random, size)))
}

fn damage(random: &mut Random, bytes: &mut Vec<u8>, n: usize) {
    if bytes.len() < 4 {
        bytes.push(random.next() as u8);
        return;
    }
    let at = random.below(bytes.len());
    let early = random.below(bytes.len().min(12));
    let field = random.below(bytes.len() - 1);
    let other_field = random.below(bytes.len() - 1);
    let value = *random.pick(&[0, 1, n - 1, n, n + 1, 512, 513, 65_535]) as u16;
    match random.below(12) {
        0 => bytes[at] ^= 1 << random.below(8),
        1 => bytes[early] ^= 1 << random.below(8),
        2 => bytes.truncate(at),
        3 => bytes.truncate(bytes.len() - random.between(1, 3)),
        4 => bytes.extend(vec![0; random.between(1, 3)]),
        5 => bytes.insert(at, random.next() as u8),
        6 => {
            bytes.remove(at);
        }
        7 => {
            let exchanged = [bytes[field], bytes[field + 1]];
            bytes.copy_within(other_field..other_field + 2, field);
            bytes[other_field..other_field + 2].copy_from_slice(&exchanged);
        }
        8 => bytes[field..field + 2].copy_from_slice(&value.to_le_bytes()),
        9 => bytes[..2].copy_from_slice(&value.to_le_bytes()),
        10 => bytes[2] = random.next() as u8,
        _ => bytes[at] = random.next() as u8,
    }
}
