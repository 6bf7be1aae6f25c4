//! Check: whether data from any hand are those of a listed or of a square view.

use super::refusal::{check_count, refuse, Refusal};
use super::site::Site;

/// The place where the shape or n is wrong.
pub const WRONG_SHAPE: usize = 65_535;

/// Of each station its neighbours.
type Rows = Vec<Vec<usize>>;

pub fn check_listed(starts: &[usize], ends: &[usize]) -> Result<(), Refusal> {
    rows_listed(starts, ends).map(drop)
}

pub fn check_square(n: usize, bytes: &[u8]) -> Result<(), Refusal> {
    rows_square(n, bytes).map(drop)
}

pub fn open_listed(starts: &[usize], ends: &[usize]) -> Site {
    opened(rows_listed(starts, ends))
}

pub fn open_square(n: usize, bytes: &[u8]) -> Site {
    opened(rows_square(n, bytes))
}

/// Where check refuses, open gives no stations.
fn opened(rows: Result<Rows, Refusal>) -> Site {
    let rows = rows.unwrap_or_default();
    let of_row = |(s, row): (usize, &Vec<usize>)| row.iter().map(|&t| (s, t)).collect::<Vec<_>>();
    let links: Vec<_> = rows.iter().enumerate().flat_map(of_row).collect();
    Site::with_links(rows.len(), &links)
}

fn rows_listed(starts: &[usize], ends: &[usize]) -> Result<Rows, Refusal> {
    let falls = starts.windows(2).any(|pair| pair[1] < pair[0]);
    if starts.first() != Some(&0) || falls || starts.last() != Some(&ends.len()) {
        return refuse(15, WRONG_SHAPE);
    }
    lawful(starts.windows(2).map(|pair| ends[pair[0]..pair[1]].to_vec()).collect())
}

fn rows_square(n: usize, bytes: &[u8]) -> Result<Rows, Refusal> {
    let wrong = check_count(n).is_err() || bytes.len() != n * n.div_ceil(8);
    if wrong {
        return refuse(15, WRONG_SHAPE);
    }
    let names = |row: &[u8]| (0..8 * row.len()).filter(|c| row[c / 8] >> (c % 8) & 1 == 1).collect();
    // A spare bit that is 1 names a station of n or more.
    lawful(bytes.chunks(n.div_ceil(8)).map(names).collect())
}

fn lawful(rows: Rows) -> Result<Rows, Refusal> {
    let n = rows.len();
    if check_count(n).is_err() {
        return refuse(15, WRONG_SHAPE);
    }
    let bad = |s: &usize| {
        let row = &rows[*s];
        row.windows(2).any(|pair| pair[1] <= pair[0]) || row.iter().any(|&t| t == *s || t >= n || !rows[t].contains(s))
    };
    match (0..n).find(bad) {
        Some(lowest) => refuse(15, lowest),
        None => Ok(rows),
    }
}
