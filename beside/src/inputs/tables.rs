//! Tables from any hand: for put, and for check of listed and of square data.

use crate::random::Random;
use crate::rules::command::hex;
use crate::rules::console::listed;
use crate::rules::plan::Plan;
use crate::rules::sheet::{tables, Tables, NO_UP};
use crate::rules::site::Site;

pub fn put_line(tables: &Tables) -> String {
    format!("put {}", tables.each_ref().map(|table| listed(table)).join(" / "))
}

/// Tables of a plan, mostly spoilt in one or two places, or small ones of any entries.
pub fn any_put(random: &mut Random, plan: &Plan) -> Tables {
    if random.once_in(3) {
        return small_tables(random);
    }
    let mut tables = tables(plan);
    for _ in 0..random.below(3) {
        spoil_tables(random, &mut tables);
    }
    tables
}

fn any_entry(random: &mut Random, n: usize) -> usize {
    match random.below(6) {
        0 => n,
        1 => NO_UP,
        2 => random.below(65_536),
        _ => random.below(n + 1),
    }
}

fn small_tables(random: &mut Random) -> Tables {
    let n = random.below(4);
    let mut table = || -> Vec<usize> { (0..n).map(|_| if random.once_in(9) { any_entry(random, n) } else { random.below(n) }).collect() };
    let [numbers, homes, mut ups, order] = [table(), table(), table(), table()];
    for i in 0..n {
        if homes[i] != i && random.below(8) > 0 {
            ups[i] = NO_UP;
        }
    }
    let order = if random.once_in(3) { order } else { random.order(n) };
    [numbers, homes, ups, order]
}

fn spoil_tables(random: &mut Random, tables: &mut Tables) {
    let n = tables[0].len();
    let which = random.below(4);
    let length = tables[which].len();
    match random.below(9) {
        0 => {
            tables[which].pop();
        }
        1 => tables[which].push(any_entry(random, n)),
        2 => {
            let length = *random.pick(&[0, 1, n / 2, 512, 513, 66_000]);
            tables.iter_mut().for_each(|table| table.resize(length, 0));
        }
        3 if length > 1 => {
            let (a, b) = (random.below(length), random.below(length));
            tables[which][b] = tables[which][a];
        }
        4 if length > 1 => tables[which].swap(0, length - 1),
        _ if length > 0 => tables[which][random.below(length)] = any_entry(random, n),
        _ => {}
    }
}

/// Rows of neighbours, as someone might write them.
type Rows = Vec<Vec<usize>>;

fn rows(site: &Site) -> Rows {
    site.stations().map(|s| site.neighbours(s).to_vec()).collect()
}

/// Starts and ends.
pub type Lists = (Vec<usize>, Vec<usize>);

/// The number of stations, and rows of bits.
pub type Bits = (usize, Vec<u8>);

pub fn listed_line((starts, ends): &Lists) -> String {
    format!("check listed {} / {}", listed(starts), listed(ends))
}

pub fn square_line((n, bytes): &Bits) -> String {
    format!("check square {n} {}", hex(bytes))
}

/// The lists of the site, or spoilt.
pub fn any_listed(random: &mut Random, site: &Site) -> Lists {
    let mut rows = rows(site);
    let spoilt = random.below(3);
    for _ in 0..spoilt {
        spoil_rows(random, &mut rows);
    }
    let (mut starts, mut ends) = lists_of(&rows);
    if random.once_in(4) {
        spoil_shape(random, &mut starts, &mut ends);
    }
    (starts, ends)
}

/// The lists of the site.
pub fn lists(site: &Site) -> Lists {
    lists_of(&rows(site))
}

fn lists_of(rows: &Rows) -> Lists {
    let mut starts = vec![0];
    for row in rows {
        starts.push(starts[starts.len() - 1] + row.len());
    }
    (starts, rows.concat())
}

fn spoil_rows(random: &mut Random, rows: &mut Rows) {
    let n = rows.len();
    let s = random.below(n);
    let row = &mut rows[s];
    let any = *random.pick(&[s, 0, n - 1, n, n + 1, 65_535]);
    let at = random.below(row.len() + 1);
    match random.below(7) {
        0 => row.insert(at, any),
        1 => row.insert(at, random.below(n)),
        2 => {
            let lower = rows.iter().position(|row| row.len() > 1);
            lower.into_iter().for_each(|lower| rows[lower].swap(0, 1));
        }
        _ if at == row.len() => row.push(any),
        3 => {
            row.remove(at);
        }
        4 => row.insert(at, row[at]),
        5 => row[at] = any,
        _ => row.reverse(),
    }
}

fn spoil_shape(random: &mut Random, starts: &mut Vec<usize>, ends: &mut Vec<usize>) {
    let at = random.below(starts.len());
    match random.below(9) {
        0 => starts[0] = 1,
        1 => starts[at] = starts[at].saturating_sub(1),
        2 => starts[at] += 1,
        3 => starts[at] = *random.pick(&[u32::MAX as usize, 65_536, 0]),
        4 => starts.clear(),
        5 => starts.truncate(at),
        6 => ends.push(0),
        7 => {
            ends.pop();
        }
        _ => {
            let last = starts[starts.len() - 1];
            starts.resize(*random.pick(&[1, 513, 514, 600, 66_000]), last);
        }
    }
}

/// A table of more links than a book can hold, at times with one of them on one side only, or with more stations than there can be.
pub fn great_listed(random: &mut Random) -> Lists {
    let n = *random.pick(&[60, 150, 511, 512, 513]);
    let apart = if n < 200 || random.once_in(8) { random.between(1, 3) } else { random.between(7, 90) };
    let row = |s: usize| (0..n).filter(move |&t| t != s && (s + t).is_multiple_of(apart));
    let mut rows: Rows = (0..n).map(|s| row(s).collect()).collect();
    if random.once_in(2) {
        rows[random.below(n)].pop();
    }
    lists_of(&rows)
}

/// The rows of bits of the site.
pub fn bits(site: &Site) -> Bits {
    let n = site.n();
    let width = n.div_ceil(8);
    let mut bytes = vec![0; n * width];
    for s in site.stations() {
        site.neighbours(s).iter().for_each(|&t| bytes[s * width + t / 8] |= 1 << (t % 8));
    }
    (n, bytes)
}

/// The rows of bits of the site, or spoilt.
pub fn any_square(random: &mut Random, site: &Site) -> Bits {
    let (n, mut bytes) = bits(site);
    let width = n.div_ceil(8);
    let s = random.below(n);
    let t = random.below(8 * width);
    let mut told = n;
    match random.below(8) {
        0 | 1 => {}
        2 => bytes[s * width + t / 8] ^= 1 << (t % 8),
        3 => bytes[s * width + s / 8] |= 1 << (s % 8),
        4 => bytes[s * width + width - 1] |= 0x80,
        5 => bytes.push(0),
        6 => {
            bytes.pop();
        }
        _ => told = *random.pick(&[0, n - 1, n + 1, 513, 65_535, usize::MAX]),
    }
    (told, bytes)
}

/// A grid of more than 512 rows, or of the most there may be, with bits at its edges.
pub fn great_square(random: &mut Random) -> Bits {
    let n: usize = *random.pick(&[511, 512, 513]);
    let width = n.div_ceil(8);
    let mut bytes = vec![0u8; n * width];
    let (a, b) = *random.pick(&[(0, n - 1), (n - 2, n - 1), (0, 1)]);
    bytes[a * width + b / 8] |= 1 << (b % 8);
    if random.once_in(2) {
        bytes[b * width + a / 8] |= 1 << (a % 8);
    }
    (n, bytes)
}
