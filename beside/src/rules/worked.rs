//! The worked sites of `docs/RULES.md`, and laws that it states of all sites, tried on all small ones.

use super::book::Book;
use super::console::Console;
use super::inspector::inspect;
use super::levels::{choose, tallies, Rule};
use super::plan::{is_rightful, Plan};
use super::program;
use super::refusal::Refusal;
use super::sheet::{decode, encode, put, read, route_cards, tables};
use super::site::{Site, Stations};
use super::survey::read_survey;
use crate::inputs::small::{all_lists, all_orders, all_sites};

const EIGHT: &str = "S 8\nL 0 1 2 3\nL 1 2 3\nL 2 3\nL 3 4\nL 4 5 6\nL 5 6\nL 6 7\n";
const CLIQUES: &str = "S 9\nL 0 1 2 3\nL 1 2 3\nL 2 3\nL 4 5 6 7\nL 5 6 7\nL 6 7\nL 8 3 4\n";

fn book(text: &str) -> Book {
    read_survey(text.as_bytes()).expect("the survey is in order")
}

fn bytes(hex: &str) -> Vec<u8> {
    hex.split_whitespace().map(|byte| u8::from_str_radix(byte, 16).expect("two digits")).collect()
}

/// Members, inside and boundary of each level, from the top down.
fn tallies_down(site: &Site) -> Vec<[i128; 3]> {
    let tallies = tallies(site).expect("there are stations");
    tallies.iter().rev().map(|t| [t.members, t.inside, t.boundary]).collect()
}

/// What average and net with weights 1, 1, 1 choose.
fn choices(site: &Site) -> [usize; 2] {
    [Rule::Average, Rule::Net([1, 1, 1])].map(|rule| choose(site, rule).expect("there are stations"))
}

fn sheet(site: &Site) -> Vec<u8> {
    encode(&Plan::of(site))
}

#[test]
fn one_station() {
    let site = book("S 1").site;
    assert_eq!(sheet(&site), bytes("01 00 00 00 00"));
    assert_eq!(tallies_down(&site), [[1, 0, 0]]);
    assert_eq!(program::plan(b"S 1"), (bytes("01 00 00 00 00"), 0));
}

#[test]
fn eight_stations() {
    let site = book(EIGHT).site;
    let plan = Plan::of(&site);
    assert_eq!(plan.numbers, [3, 3, 3, 3, 2, 2, 2, 1]);
    assert_eq!(plan.homes, [0, 0, 0, 0, 4, 4, 4, 7]);
    assert_eq!(plan.ups, [Some(4), None, None, None, Some(7), None, None, None]);
    assert_eq!(plan.order, [7, 5, 6, 4, 0, 1, 2, 3]);
    assert!(is_rightful(&site, &plan.numbers, &[7, 5, 4, 6, 0, 1, 2, 3]));
    let written = "08 00 05 03 00 04 00 03 03 00 00 00 03 03 00 00 00 03 03 00 00 00 05 02 00 07 00 03 02 00 04 00
        03 02 00 04 00 01 01 00 07 00 05 00 06 00 04 00 00 00 01 00 02 00 03 00";
    assert_eq!(encode(&plan), bytes(written));
    assert_eq!(route_cards(&plan), bytes("04 00 00 00 00 00 00 00 07 00 04 00 04 00 ff ff"));
    assert_eq!(tallies_down(&site), [[4, 6, 1], [7, 10, 1], [8, 11, 0], [8, 11, 0]]);
    assert_eq!(choices(&site), [3, 1]);
    assert_eq!(choose(&site, Rule::AverageThenNet([1, 1, 1])), Ok(3));
    assert_eq!(choose(&site, Rule::NetThenAverage([1, 1, 1])), Ok(1));
    assert_eq!(choose(&site, Rule::Net([0, 0, 0])), Ok(3));
}

#[test]
fn the_false_triangle() {
    let site = book("S 3\nL 0 1 2\nL 1 2").site;
    let offered = bytes("03 00 01 01 00 03 01 00 00 00 03 01 00 00 00 00 00 01 00 02 00");
    assert_eq!(inspect(&site, &offered), Err(Refusal { number: 11, place: 0 }));
    assert_eq!(Plan::of(&site).numbers, [2, 2, 2]);
}

#[test]
fn two_cliques_and_a_bridge() {
    let site = book(CLIQUES).site;
    let written = "09 00 05 03 00 08 00 03 03 00 00 00 03 03 00 00 00 03 03 00 00 00 05 03 00 08 00 03 03 00 04 00
        03 03 00 04 00 03 03 00 04 00 01 02 00 08 00 00 00 01 00 02 00 03 00 04 00 05 00 06 00 07 00";
    assert_eq!(sheet(&site), bytes(written));
    assert_eq!(tallies_down(&site), [[8, 12, 2], [9, 14, 0], [9, 14, 0], [9, 14, 0]]);
    assert_eq!(choices(&site), [2, 2]);
}

#[test]
fn one_link_more() {
    let mut book = book(EIGHT);
    assert_eq!(book.link(5, 7), Ok(()));
    let written = "08 00 05 03 00 04 00 03 03 00 00 00 03 03 00 00 00 03 03 00 00 00 01 02 00 03 02 00 04 00
        03 02 00 04 00 03 02 00 04 00 07 00 05 00 06 00 04 00 00 00 01 00 02 00 03 00";
    assert_eq!(sheet(&book.site), bytes(written));
    assert_eq!(tallies_down(&book.site), [[4, 6, 1], [8, 12, 0], [8, 12, 0], [8, 12, 0]]);
    assert_eq!(choices(&book.site), [3, 2]);
}

#[test]
fn one_link_less() {
    let mut book = book(EIGHT);
    assert_eq!(book.unlink(0, 1), Ok(()));
    let written = "08 00 05 02 00 07 00 03 02 00 00 00 03 02 00 00 00 03 02 00 00 00 03 02 00 00 00
        03 02 00 00 00 03 02 00 00 00 01 01 00 07 00 00 00 01 00 02 00 03 00 04 00 05 00 06 00";
    assert_eq!(sheet(&book.site), bytes(written));
    assert_eq!(tallies_down(&book.site), [[7, 9, 1], [8, 10, 0], [8, 10, 0]]);
    assert_eq!(choices(&book.site), [2, 1]);
}

#[test]
fn one_station_struck() {
    let site = book(EIGHT).site.struck(&Stations::of([7]));
    let written = "08 00 05 03 00 04 00 03 03 00 00 00 03 03 00 00 00 03 03 00 00 00 01 02 00 03 02 00 04 00
        03 02 00 04 00 00 07 00 05 00 06 00 04 00 00 00 01 00 02 00 03 00";
    assert_eq!(sheet(&site), bytes(written));
    assert_eq!(tallies_down(&site), [[4, 6, 1], [7, 10, 0], [7, 10, 0], [8, 10, 0]]);
    assert_eq!(choices(&site), [3, 2]);
}

#[test]
fn refused_surveys() {
    let refused = [
        ("", "refused 9 layer 2 line 0 byte 0\n"),
        ("S8", "refused 8 layer 1 line 1 byte 1\n"),
        ("S 8 # eight", "refused 8 layer 1 line 1 byte 5\n"),
        ("S 1 2", "refused 8 layer 2 line 1 byte 1\n"),
        ("L 0 1\nS 2", "refused 9 layer 2 line 1 byte 1\n"),
        ("L 0 x\nS 2", "refused 8 layer 1 line 1 byte 5\n"),
        ("S 2\n\nS 2", "refused 9 layer 2 line 3 byte 1\n"),
        ("S 000", "refused 1 layer 3 line 1 byte 3\n"),
        ("S 2\nL 0 1 1", "refused 4 layer 3 line 2 byte 7\n"),
        ("S 2\n  L 7 0", "refused 2 layer 3 line 2 byte 7\n"),
    ];
    for (text, line) in refused {
        assert_eq!(program::plan(text.as_bytes()), (line.as_bytes().to_vec(), 1), "{text}");
    }
    let place = |text: &str| read_survey(text.as_bytes()).map(|_| ()).unwrap_err().refusal.place;
    assert_eq!(place("S 2\nL 0 1 1"), 0);
    assert_eq!(place("S 2\n  L 7 0"), 7);
    let longest = [b"S 1\n".to_vec(), vec![b' '; 59_996]].concat();
    assert_eq!(program::plan(&longest).1, 0);
    assert_eq!(program::plan(&[longest, vec![b' ']].concat()), (b"refused 14 layer 2 line 0 byte 0\n".to_vec(), 1));
}

#[test]
fn a_book_is_refused_in_order() {
    let mut book = Book::default();
    let refused = |number, place| Err(Refusal { number, place });
    assert_eq!(book.link(7, 7), refused(1, 0));
    assert_eq!(book.lay_out(513), refused(1, 0));
    assert_eq!(book.lay_out(40), Ok(()));
    assert_eq!(book.link(40, 99), refused(2, 40));
    assert_eq!(book.link(3, usize::MAX), refused(2, usize::MAX));
    assert_eq!(book.link(3, 3), refused(3, 3));
    assert_eq!(book.unlink(3, 2), refused(5, 2));
    (1..=32).for_each(|s| assert_eq!(book.link(0, s), Ok(())));
    assert_eq!(book.link(9, 0), refused(4, 0));
    assert_eq!(book.link(39, 0), refused(6, 0));
}

#[test]
fn a_talk() {
    let mut console = Console::default();
    let mut print = |line: &str| String::from_utf8(console.print(line.as_bytes())).expect("the line is UTF-8");
    assert_eq!(print("numbers"), "> numbers\nrefused 1 place 0\n");
    assert_eq!(print("  lay  out 0002 "), ">   lay  out 0002 \nok\n");
    assert_eq!(print("link 0 1"), "> link 0 1\nok\n");
    assert_eq!(print("read 0100000000"), "> read 0100000000\ntables 1: 0 / 0 / 65535 / 0\n");
    assert_eq!(print("put 0 / 0 / 65535 / 0"), "> put 0 / 0 / 65535 / 0\nsheet 0100000000\n");
    let answers = "book's sheet: passed\noffered: refused 10 place 0\nchosen by book 1, by view 1\n";
    assert_eq!(print("agree - average"), format!("> agree - average\n{answers}"));
    assert_eq!(print("draw struck 1 512 600"), "> draw struck 1 512 600\nrefused 2 place 512\n");
    assert_eq!(print("Numbers"), "> Numbers\nnot understood\n");
}

/// The number by its other definition: the greatest k for which some group with the station has everybody hear k or more of it.
fn number_by_groups(site: &Site, s: usize) -> usize {
    let groups = all_lists(&vec![2; site.n()]).into_iter().filter(|chosen| chosen[s] == 1);
    let least_heard = |chosen: Vec<usize>| {
        let group = Stations::of(site.stations().filter(|&t| chosen[t] == 1));
        let least = group.each().map(|t| site.hears(t, &group)).min();
        least.unwrap_or(0)
    };
    groups.map(least_heard).max().unwrap_or(0)
}

#[test]
fn numbers_are_those_of_groups_and_the_drawn_order_is_rightful() {
    for site in (1..=5).flat_map(all_sites) {
        let plan = Plan::of(&site);
        let by_groups: Vec<usize> = site.stations().map(|s| number_by_groups(&site, s)).collect();
        assert_eq!(plan.numbers, by_groups, "{site:?}");
        assert!(is_rightful(&site, &plan.numbers, &plan.order), "{site:?}");
    }
}

#[test]
fn a_sheet_passes_exactly_if_it_is_right() {
    for site in all_sites(3) {
        let right = Plan::of(&site);
        for numbers in all_lists(&[3, 3, 3]) {
            for order in all_orders(3) {
                let plan = Plan { numbers: numbers.clone(), order, ..right.clone() };
                let is_right = plan.numbers == right.numbers && is_rightful(&site, &right.numbers, &plan.order);
                assert_eq!(inspect(&site, &encode(&plan)).is_ok(), is_right, "{site:?} {plan:?}");
            }
        }
    }
}

#[test]
fn sheets_are_read_and_put_back() {
    for site in (1..=4).flat_map(all_sites) {
        let plan = Plan::of(&site);
        let sheet = encode(&plan);
        assert_eq!(decode(&sheet), Ok(plan.clone()));
        assert_eq!(read(&sheet), Ok(tables(&plan)));
        assert_eq!(put(&tables(&plan)), Ok(sheet));
    }
}

/// Who moves as a site gets a link or loses it: had the smaller number of the ends, moves by one, and hangs on an end by stations that move.
fn moves_rightly(without: &Site, with: &Site, a: usize, b: usize) {
    let (lower, higher) = (Plan::of(without).numbers, Plan::of(with).numbers);
    let moved = Stations::of(with.stations().filter(|&s| lower[s] != higher[s]));
    for s in moved.each() {
        assert_eq!(lower[s], lower[a].min(lower[b]));
        assert_eq!(higher[s], higher[a].min(higher[b]));
        assert_eq!(lower[s] + 1, higher[s]);
        let chained = without.part(&moved, s);
        assert!([a, b].iter().any(|&end| moved.has(end) && chained.has(end)), "{s} hangs on no end");
    }
}

#[test]
fn who_moves() {
    for with in (2..=5).flat_map(all_sites) {
        for (a, b) in with.links() {
            let mut without = with.clone();
            without.take_away(a, b);
            moves_rightly(&without, &with, a, b);
        }
    }
}
