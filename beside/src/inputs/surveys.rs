//! Texts of surveys: as fitters write them, with faults of each kind, and damaged ones.

use super::sites::any_site;
use crate::random::Random;
use crate::rules::site::Site;
use crate::rules::survey::MOST_BYTES;

/// The lines of a text.
type Lines = Vec<Vec<u8>>;

/// A text that is mostly spoilt.
pub fn any_text(random: &mut Random) -> Vec<u8> {
    let lines = if random.once_in(10) { full_row(random) } else { spoilt_lines(random) };
    let mut text = lines.join(&b'\n');
    if random.once_in(2) {
        text.push(b'\n');
    }
    if random.once_in(5) {
        (0..random.between(1, 3)).for_each(|_| damage(random, &mut text));
    }
    if random.once_in(16) {
        pad(random, &mut text);
    }
    text
}

fn spaces(random: &mut Random, least: usize) -> String {
    let more = if random.once_in(6) { random.below(4) } else { 0 };
    " ".repeat(least + more)
}

fn number(random: &mut Random, value: usize) -> String {
    match random.below(12) {
        0 => format!("{value:02}"),
        1 => format!("{value:03}"),
        _ => value.to_string(),
    }
}

fn line(random: &mut Random, letter: &str, numbers: &[usize]) -> Vec<u8> {
    let mut line = spaces(random, 0) + letter;
    for &value in numbers {
        line += &spaces(random, 1);
        line += &number(random, value);
    }
    line += &spaces(random, 0);
    line.into_bytes()
}

fn other_line(random: &mut Random) -> Vec<u8> {
    let lines: [&[u8]; 8] = [b"", b"   ", b"#", b"# pool 2, hall 7", b"  # S 9", b"#L 0 1", b"# \t\r\xff\x00 \xc3\xa4", b" ## "];
    random.pick(&lines).to_vec()
}

/// A survey of some site, mostly spoilt.
fn spoilt_lines(random: &mut Random) -> Lines {
    let site = any_site(random);
    let mut lines = lines_of(random, &site);
    if random.below(6) > 0 {
        spoil(random, &mut lines, site.n());
    }
    lines
}

/// A survey of the site. One of very many links may be too long.
pub fn text_of(random: &mut Random, site: &Site) -> Vec<u8> {
    lines_of(random, site).join(&b'\n')
}

fn lines_of(random: &mut Random, site: &Site) -> Lines {
    let mut links = site.links();
    random.shuffle(&mut links);
    let mut rows: Vec<Vec<usize>> = vec![];
    for (a, b) in links {
        let (a, b) = if random.once_in(2) { (a, b) } else { (b, a) };
        match rows.iter_mut().find(|row| row[0] == a) {
            Some(row) if !random.once_in(5) => row.push(b),
            _ => rows.push(vec![a, b]),
        }
    }
    let mut lines = vec![line(random, "S", &[site.n()])];
    for row in rows {
        lines.push(line(random, "L", &row));
    }
    for _ in 0..random.below(4) {
        lines.insert(random.below(lines.len() + 1), other_line(random));
    }
    lines
}

/// A station with 32 links, or one more than is allowed, named first or behind.
fn full_row(random: &mut Random) -> Lines {
    let n = random.between(34, 80);
    let stations = random.order(n);
    let row = &stations[..random.between(32, 34)];
    let mut lines = vec![line(random, "S", &[n]), line(random, "L", row)];
    if random.once_in(2) {
        let last = stations[n - 1];
        let ends = if random.once_in(2) { [stations[0], last] } else { [last, stations[0]] };
        lines.push(line(random, "L", &ends));
    }
    lines
}

/// A line that is wrong, mostly by itself.
fn wrong_line(random: &mut Random) -> Vec<u8> {
    let lines: [&[u8]; 31] = [
        b"S",
        b"S 1 2",
        b"S 8 # eight",
        b"S8",
        b"S 0008",
        b"S +8",
        b"s 8",
        b"S\t8",
        b"S 8\r",
        b"S -1",
        b"L",
        b"L 0",
        b"L 0 x",
        b"L 0 1 0001",
        b"L0 1",
        b"l 0 1",
        b"L 0,1",
        b"L 0 1 #",
        b"L 0\t1",
        b"L 0 1\r",
        b"L 0 1 \xff",
        b"X",
        b"SL 1",
        b"\t",
        b" \r",
        b"L  # 0 1",
        b"  L 7 2 1#",
        b"\x00",
        b"S 0",
        b"S 513",
        b"L 999 999",
    ];
    random.pick(&lines).to_vec()
}

/// One fault, of any kind, at any line of a survey of n stations.
fn spoil(random: &mut Random, lines: &mut Lines, n: usize) {
    let (a, b) = (random.below(n), random.below(n));
    let at = random.below(lines.len() + 1);
    let faulty = match random.below(14) {
        0..=2 => wrong_line(random),
        3 => line(random, "S", &[n]),
        4 => line(random, "L", &[a, a]),
        5 => line(random, "L", &[a, b, b]),
        6 => {
            let off = random.between(n, 999);
            line(random, "L", &[off, a])
        }
        7 => {
            let off = random.between(n, 999);
            line(random, "L", &[a, off])
        }
        8 => line(random, "L", &[b, a, a]),
        9 => {
            let wrong = *random.pick(&[0, 513, 600, 999]);
            lines.retain(|line| !line.trim_ascii_start().starts_with(b"S"));
            lines.insert(0, line(random, "S", &[wrong]));
            return;
        }
        10 => {
            lines.retain(|line| !line.trim_ascii_start().starts_with(b"S"));
            return;
        }
        11 => {
            *lines = (0..random.below(5)).map(|_| other_line(random)).collect();
            return;
        }
        12 => {
            let first = at % lines.len();
            lines.rotate_left(first);
            return;
        }
        _ => random.pick(lines).clone(),
    };
    lines.insert(at, faulty);
}

fn damage(random: &mut Random, text: &mut Vec<u8>) {
    let at = random.below(text.len() + 1);
    let byte = *random.pick(b"\t\r\n\n  #SLsl+-0123456789\x00\xff\x80,");
    match random.below(4) {
        0 => text.insert(at, byte),
        _ if at == text.len() => text.push(byte),
        1 => text[at] = byte,
        2 => {
            text.remove(at);
        }
        _ => text.truncate(at),
    }
}

/// Brings the text to just the length that is allowed, or over it.
fn pad(random: &mut Random, text: &mut Vec<u8>) {
    let length = *random.pick(&[MOST_BYTES - 1, MOST_BYTES, MOST_BYTES + 1, MOST_BYTES + 2, MOST_BYTES + 9_000]);
    let byte = *random.pick(b" \n#x0");
    if text.len() < length {
        if byte == b'#' {
            text.push(b'\n');
        }
        text.resize(length, byte);
    }
}
