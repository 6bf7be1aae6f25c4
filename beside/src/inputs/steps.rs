//! Steps of a book: links to be set or taken away, some of which it refuses.

use super::sites::any_site;
use crate::library::Step;
use crate::random::Random;
use crate::rules::book::{Book, MOST_LINKS};
use crate::rules::refusal::Refusal;
use crate::rules::site::Site;

/// Sets the link or takes it away, as the book answers.
pub fn carry_out(book: &mut Book, step: Step) -> Result<(), Refusal> {
    let (a, b) = (usize::from(step.a), usize::from(step.b));
    if step.sets {
        book.link(a, b)
    } else {
        book.unlink(a, b)
    }
}

fn step(sets: bool, a: usize, b: usize) -> Step {
    Step { sets, a: a as u16, b: b as u16 }
}

/// The links of a site, as they are set.
pub fn setting(site: &Site) -> Vec<Step> {
    site.links().into_iter().map(|(a, b)| step(true, a, b)).collect()
}

/// A book, and the steps that it has taken.
#[derive(Default)]
struct Taken {
    book: Book,
    steps: Vec<Step>,
}

impl Taken {
    fn take(&mut self, step: Step) {
        let _ = carry_out(&mut self.book, step);
        self.steps.push(step);
    }

    fn take_any(&mut self, random: &mut Random) {
        let step = any_step(random, &self.book.site);
        self.take(step);
    }
}

/// A count of stations, which can be wrong, and steps: those that build a site, with others in between and after.
pub fn any_steps(random: &mut Random) -> (usize, Vec<Step>) {
    let site = any_site(random);
    let n = if random.once_in(8) { *random.pick(&[0, 513, 65_536, usize::MAX]) } else { site.n() };
    let mut taken = Taken::default();
    let _ = taken.book.lay_out(n);
    let mut steps = setting(&site);
    random.shuffle(&mut steps);
    for Step { sets, a, b } in steps {
        if random.once_in(8) {
            taken.take_any(random);
        }
        taken.take(if random.once_in(2) { Step { sets, a, b } } else { Step { sets, a: b, b: a } });
    }
    for _ in 0..random.below(30) {
        taken.take_any(random);
    }
    (n, taken.steps)
}

/// A step that is often refused where this site stands.
fn any_step(random: &mut Random, site: &Site) -> Step {
    let n = site.n();
    let sets = random.once_in(2);
    let mut any_station = || if random.once_in(9) { *random.pick(&[n, n + 1, 511, 512, 65_535]) } else { random.below(n.max(1)) };
    let (a, b) = (any_station(), any_station());
    let full: Vec<usize> = site.stations().filter(|&s| site.neighbours(s).len() == MOST_LINKS).collect();
    let links = site.links();
    match random.below(8) {
        0 => step(sets, a, a),
        1 | 2 if !full.is_empty() => step(true, a, *random.pick(&full)),
        3 if !full.is_empty() => step(true, *random.pick(&full), a),
        4 | 5 if !links.is_empty() => {
            let &(a, b) = random.pick(&links);
            step(sets, b, a)
        }
        _ => step(sets, a, b),
    }
}
