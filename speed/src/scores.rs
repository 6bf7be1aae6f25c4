//! Tally and choose, written by hand.

use crate::drawing::numbers;
use crate::view::View;

/// The counts of a level.
#[repr(C)]
#[derive(Clone, Copy, Default, PartialEq, Eq, Debug)]
pub struct Level {
    pub members: u32,
    pub inside: u32,
    pub boundary: u32,
}

/// Counts the levels of a view, and answers how many there are.
pub fn tally<V: View>(view: &V, list: &mut [Level]) -> usize {
    let n = view.stations();
    let mut numbers_of = [0; 512];
    numbers(view, &mut numbers_of);
    let numbers = &numbers_of[..n];
    let levels = usize::from(*numbers.iter().max().unwrap()) + 1;
    list[..levels].fill(Level::default());
    for (s, k) in numbers.iter().enumerate() {
        list[usize::from(*k)].members += 1;
        view.each(s, |t| {
            if t < s {
                list[usize::from(numbers[t].min(*k))].inside += 1;
                list[usize::from(numbers[t].max(*k))].boundary += 1;
            }
        });
    }
    let mut above = Level::default();
    for level in list[..levels].iter_mut().rev() {
        above.members += level.members;
        above.inside += level.inside;
        above.boundary += level.boundary;
        *level = Level { boundary: above.boundary - above.inside, ..above };
    }
    levels
}

/// The level with the greatest average, the greatest of equals.
pub fn choose<V: View>(view: &V) -> usize {
    let mut list = [Level::default(); 512];
    let levels = tally(view, &mut list);
    let mut best = 0;
    for k in 1..levels {
        let score = |k: usize, other: usize| u64::from(list[k].inside) * u64::from(list[other].members);
        if score(k, best) >= score(best, k) {
            best = k;
        }
    }
    best
}
