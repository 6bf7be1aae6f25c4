//! Single lines: rules, calls that are refused, questions, and lines that are no commands.

use super::sheets::any_sheet;
use super::surveys::any_text;
use super::tables::{any_listed, any_put, any_square, listed_line, put_line, square_line};
use super::talk::Talk;
use crate::random::Random;
use crate::rules::book::MOST_LINKS;
use crate::rules::command::hex;
use crate::rules::console::listed;
use crate::rules::sheet::encode;

/// Numbers at the edges of what a line may hold, and beyond them.
const GREAT: [&str; 9] =
    ["512", "513", "65535", "65536", "4294967296", "9223372036854775808", "18446744073709551615", "18446744073709551616", "99999999999999999999999"];

pub fn any_rule(random: &mut Random) -> String {
    let mut weight = || match random.below(5) {
        0 => 0,
        1 => 65_535,
        2 => random.below(65_536),
        _ => random.below(6),
    };
    let net = format!("net {} {} {}", weight(), weight(), weight());
    match random.below(5) {
        0 => "average".to_string(),
        1 | 2 => net,
        3 => format!("average then {net}"),
        _ => format!("{net} then average"),
    }
}

/// A station, which is mostly on the site.
fn any_station(random: &mut Random, n: usize) -> String {
    match random.below(16) {
        0 => random.pick(&GREAT).to_string(),
        1 => n.to_string(),
        2 => (n + random.below(20)).to_string(),
        3 => format!("{:05}", random.below(n.max(1))),
        _ => random.below(n.max(1)).to_string(),
    }
}

/// A link or unlink, which is often refused.
pub fn any_call(random: &mut Random, talk: &Talk) -> String {
    let site = talk.site();
    let n = site.n();
    let call = *random.pick(&["link", "unlink"]);
    let (a, b) = (any_station(random, n), any_station(random, n));
    let full: Vec<usize> = site.stations().filter(|&s| site.neighbours(s).len() == MOST_LINKS).collect();
    match random.below(8) {
        0 => format!("{call} {a} {a}"),
        1 | 2 if !full.is_empty() => {
            let end = random.pick(&full).to_string();
            let other = if random.once_in(2) { random.pick(&full).to_string() } else { a };
            if random.once_in(2) {
                format!("link {end} {other}")
            } else {
                format!("link {other} {end}")
            }
        }
        3..=5 if !site.links().is_empty() => {
            let links = site.links();
            let &(a, b) = random.pick(&links);
            if random.once_in(2) {
                format!("{call} {a} {b}")
            } else {
                format!("{call} {b} {a}")
            }
        }
        _ => format!("{call} {a} {b}"),
    }
}

/// A link that is taken away, or one that is set, mostly between stations that are linked often.
pub fn any_change(random: &mut Random, talk: &Talk) -> String {
    let site = talk.site();
    let links = site.links();
    let (a, b) = if links.is_empty() || random.once_in(2) { (random.below(site.n()), random.below(site.n())) } else { *random.pick(&links) };
    let call = if a != b && site.linked(a, b) { "unlink" } else { "link" };
    format!("{call} {a} {b}")
}

/// A lay out that is refused or not understood.
pub fn bad_lay_out(random: &mut Random) -> String {
    let great = *random.pick(&GREAT[1..]);
    let size = *random.pick(&["0", "000", "-1", "+3", "513", great]);
    format!("lay out {size}")
}

/// A question to the book that changes nothing.
pub fn any_question(random: &mut Random, talk: &mut Talk) -> String {
    match random.below(10) {
        0..=2 => "numbers".to_string(),
        3..=5 => "write out".to_string(),
        6 => "tally".to_string(),
        7 => format!("choose {}", any_rule(random)),
        8 => draw_struck(random, talk.site().n()),
        _ => {
            let bytes = if talk.site().n() == 0 { vec![] } else { encode(&talk.plan()) };
            format!("{} {}", random.pick(&["inspect", "cards", "read"]), hex(&bytes))
        }
    }
}

pub fn draw_struck(random: &mut Random, n: usize) -> String {
    let mut marked: Vec<usize> = match random.below(6) {
        0 => random.order(n),
        1 => (0..random.below(n + 2)).map(|_| random.below(n.max(1))).collect(),
        2 => (0..*random.pick(&[1, 9, 3_000])).map(|_| random.below(512)).collect(),
        _ => (0..random.below(5)).map(|_| random.below(n.max(1))).collect(),
    };
    if random.once_in(4) {
        let off = *random.pick(&[511, 512, 513, 65_535, usize::MAX]);
        marked.insert(random.below(marked.len() + 1), off);
        marked.push(600);
    }
    format!("draw struck {}", listed(&marked))
}

/// Any command at all.
pub fn any_line(random: &mut Random, talk: &mut Talk) -> Vec<u8> {
    if talk.site().n() == 0 {
        let line = match random.below(8) {
            0..=3 => any_question(random, talk),
            4 => any_call(random, talk),
            5 => format!("agree - {}", any_rule(random)),
            6 => bad_lay_out(random),
            _ => format!("lay out {}", random.between(1, 12)),
        };
        return line.into_bytes();
    }
    let site = talk.site().clone();
    let plan = talk.plan();
    let line = match random.below(14) {
        0..=2 => any_call(random, talk),
        3 | 4 => any_question(random, talk),
        5 => bad_lay_out(random),
        6 => format!("survey {}", hex(&any_text(random))),
        7 => put_line(&any_put(random, &plan)),
        8 => listed_line(&any_listed(random, &site)),
        9 => square_line(&any_square(random, &site)),
        10 => format!("agree {} {}", hex(&any_sheet(random, &site, &plan)), any_rule(random)),
        _ => format!("{} {}", random.pick(&["inspect", "cards", "read"]), hex(&any_sheet(random, &site, &plan))),
    };
    line.into_bytes()
}

/// The same words with other spaces between, before and behind: still the same command.
pub fn spaced(random: &mut Random, line: &[u8]) -> Vec<u8> {
    let mut spaced = vec![b' '; random.below(3)];
    for &byte in line {
        let copies = if byte == b' ' { random.between(1, 3) } else { 1 };
        spaced.extend(vec![byte; copies]);
    }
    spaced.extend(vec![b' '; random.below(3)]);
    spaced
}

/// A line with something wrong in its form, or by chance nothing.
pub fn spoilt(random: &mut Random, line: &[u8]) -> Vec<u8> {
    let mut words: Vec<Vec<u8>> = line.split(|&byte| byte == b' ').map(<[u8]>::to_vec).collect();
    let at = random.below(words.len());
    let word = words[at].clone();
    let from = random.below(word.len() + 1);
    match random.below(16) {
        0 => words[at] = word.to_ascii_uppercase(),
        1 => {
            words.remove(at);
        }
        2 => words.insert(at, word),
        3 => words[at].insert(from, *random.pick(b"\t\r+-/.x,0#\x00\xff")),
        4 => words[at].truncate(from),
        5 => words[at] = random.pick(&GREAT).as_bytes().to_vec(),
        6 => words[at].push(b'0'),
        7 => words[at].push(b'\r'),
        8 => words.push(b"0".to_vec()),
        9 => words.push(b"/".to_vec()),
        10 => words.insert(at, b"-".to_vec()),
        11 => words[at] = vec![b'0'; *random.pick(&[1, 2, 20, 70_000])].into_iter().chain(word).collect(),
        12 => words.truncate(at),
        13 => words.rotate_left(at),
        14 => return words.concat(),
        _ => words[at] = vec![random.next() as u8, random.next() as u8],
    }
    words.retain(|word| !word.contains(&b'\n'));
    words.join(&b' ')
}

/// Words of commands in any order.
pub fn jumbled(random: &mut Random) -> Vec<u8> {
    let words = [
        "lay",
        "out",
        "link",
        "unlink",
        "survey",
        "numbers",
        "write",
        "draw",
        "struck",
        "inspect",
        "cards",
        "read",
        "put",
        "tally",
        "check",
        "listed",
        "square",
        "choose",
        "agree",
        "average",
        "net",
        "then",
        "/",
        "-",
        "0",
        "1",
        "02",
        "0100000000",
        "7",
    ];
    let count = random.between(0, 7);
    let jumbled: Vec<&str> = (0..count).map(|_| *random.pick(&words)).collect();
    jumbled.join(" ").into_bytes()
}
