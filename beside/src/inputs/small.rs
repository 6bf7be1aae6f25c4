//! All inputs of some small kinds.

use super::talk::Talk;
use crate::random::Random;
use crate::rules::command::hex;
use crate::rules::plan::Plan;
use crate::rules::sheet::encode;
use crate::rules::site::Site;

/// All lists of so many numbers below the limits, the last number running fastest.
pub fn all_lists(limits: &[usize]) -> Vec<Vec<usize>> {
    limits.iter().fold(vec![vec![]], |lists, &limit| {
        let longer = |list: Vec<usize>| (0..limit).map(move |last| [list.as_slice(), &[last]].concat());
        lists.into_iter().flat_map(longer).collect()
    })
}

/// All orders of n stations.
pub fn all_orders(n: usize) -> Vec<Vec<usize>> {
    let once_each = |list: &Vec<usize>| (0..n).all(|s| list.contains(&s));
    all_lists(&vec![n; n]).into_iter().filter(once_each).collect()
}

/// All sites of n stations.
pub fn all_sites(n: usize) -> Vec<Site> {
    let pairs: Vec<(usize, usize)> = (0..n).flat_map(|b| (0..b).map(move |a| (a, b))).collect();
    let choices = all_lists(&vec![2; pairs.len()]);
    let chosen = |choice: Vec<usize>| -> Vec<_> { pairs.iter().zip(choice).filter(|(_, chosen)| *chosen == 1).map(|(&pair, _)| pair).collect() };
    choices.into_iter().map(|choice| Site::with_links(n, &chosen(choice))).collect()
}

/// All sites of up to 4 stations, built link by link, with all orders inspected; and all of 5, by surveys.
pub fn sites(_: &mut Random) -> Talk {
    let mut talk = Talk::default();
    for site in (1..=4).flat_map(all_sites) {
        talk.say(format!("lay out {}", site.n()));
        site.links().iter().for_each(|(a, b)| talk.say(format!("link {b} {a}")));
        ask_all(&mut talk);
        let plan = talk.plan();
        for order in all_orders(site.n()) {
            talk.say(format!("inspect {}", hex(&encode(&Plan { order, ..plan.clone() }))));
        }
        for (a, b) in site.links() {
            talk.say(format!("unlink {a} {b}"));
            talk.say("numbers");
            talk.say(format!("link {a} {b}"));
            talk.say("numbers");
        }
    }
    for site in all_sites(5) {
        let links: String = site.links().iter().map(|(a, b)| format!("L {a} {b}\n")).collect();
        talk.say(format!("survey {}", hex(format!("S 5\n{links}").as_bytes())));
        ask_all(&mut talk);
    }
    talk
}

fn ask_all(talk: &mut Talk) {
    for line in ["numbers", "write out", "tally", "choose average", "choose net 2 1 3"] {
        talk.say(line);
    }
}

/// Plans of 3 stations with all numbers and homes, and some ups and orders; and bytes that are a sheet but for one byte, or cut.
pub fn sheets(random: &mut Random) -> Talk {
    let mut talk = Talk::default();
    let sites = all_sites(3);
    let site = random.pick(&sites).clone();
    talk.build(random, &site, |_, _| {});
    let orders = all_orders(3);
    for numbers in all_lists(&[3, 3, 3]) {
        for homes in all_lists(&[3, 3, 3]) {
            let up = |random: &mut Random| if random.below(3) > 0 { None } else { Some(random.below(3)) };
            let ups = (0..3).map(|_| up(random)).collect();
            let plan = Plan { numbers: numbers.clone(), homes, ups, order: random.pick(&orders).clone() };
            talk.say(format!("inspect {}", hex(&encode(&plan))));
        }
    }
    let sheet = encode(&talk.plan());
    for at in 0..sheet.len() {
        for byte in [0, 1, 2, 3, 4, 5, 6, 7, 8, 16, 128, 255] {
            let mut bytes = sheet.clone();
            bytes[at] = byte;
            talk.say(format!("read {}", hex(&bytes)));
        }
        talk.say(format!("inspect {}", hex(&sheet[..at])));
    }
    for map in 0..=255u8 {
        for rest in ["", "0000", "00000000", "000000000000", "01000000", "00000100"] {
            talk.say(format!("read 0100{map:02x}{rest}"));
        }
    }
    talk
}

/// All tables of up to 2 stations for put, and all grids of 1, and of 2 and 3 stations within 4 bits a row.
pub fn tables(_: &mut Random) -> Talk {
    let mut talk = Talk::default();
    let no_up = |up: usize, n: usize| if up > n { 65_535 } else { up };
    for t in all_lists(&[2, 2, 3, 2]) {
        talk.say(format!("put {} / {} / {} / {}", t[0], t[1], no_up(t[2], 1), t[3]));
    }
    for t in all_lists(&[3, 3, 3, 3, 4, 4, 3, 3]) {
        let ups = [no_up(t[4], 2), no_up(t[5], 2)];
        talk.say(format!("put {} {} / {} {} / {} {} / {} {}", t[0], t[1], t[2], t[3], ups[0], ups[1], t[6], t[7]));
    }
    for row in 0..=255u8 {
        talk.say(format!("check square 1 {row:02x}"));
    }
    for n in [2, 3] {
        for rows in all_lists(&vec![16; n]) {
            let bytes: Vec<u8> = rows.iter().map(|&row| row as u8).collect();
            talk.say(format!("check square {n} {}", hex(&bytes)));
        }
    }
    for t in all_lists(&[2, 4, 4, 4, 4]) {
        talk.say(format!("check listed {} {} {} / {} {}", t[0], t[1], t[2], t[3], t[4]));
    }
    talk
}
