//! Sites of many shapes that a book can hold.

use crate::random::Random;
use crate::rules::book::MOST_LINKS;
use crate::rules::site::Site;

/// A site of one of the shapes.
pub fn any_site(random: &mut Random) -> Site {
    let n = any_size(random);
    site_of_size(random, n)
}

/// Mostly small, so that much is tried, and sometimes up to 512.
fn any_size(random: &mut Random) -> usize {
    match random.below(20) {
        0..=8 => random.between(1, 8),
        9..=14 => random.between(9, 40),
        15..=17 => random.between(41, 140),
        18 => random.between(141, 511),
        _ => 512,
    }
}

pub fn site_of_size(random: &mut Random, n: usize) -> Site {
    let shapes = [
        empty,
        complete,
        stars,
        path,
        cycle,
        cliques_on_paths,
        components,
        sparse,
        dense,
        circle_of_neighbours,
        grid,
        tree,
        onion,
        two_sides,
        full_hub,
    ];
    let shape: fn(&mut Random, usize) -> Site = *random.pick(&shapes);
    let site = shape(random, n);
    if random.once_in(2) {
        renamed(random, &site)
    } else {
        site
    }
}

/// Sets a link where a book would accept it.
fn try_link(site: &mut Site, a: usize, b: usize) {
    let full = |s: usize| site.neighbours(s).len() >= MOST_LINKS;
    if a != b && !full(a) && !full(b) {
        site.set(a, b);
    }
}

fn renamed(random: &mut Random, site: &Site) -> Site {
    let names = random.order(site.n());
    let links: Vec<_> = site.links().into_iter().map(|(a, b)| (names[a], names[b])).collect();
    Site::with_links(site.n(), &links)
}

fn empty(_: &mut Random, n: usize) -> Site {
    Site::without_links(n)
}

/// All stations linked, up to rows of 32; more stations stay alone.
fn complete(_: &mut Random, n: usize) -> Site {
    let mut site = Site::without_links(n);
    for b in 0..n.min(MOST_LINKS + 1) {
        (0..b).for_each(|a| try_link(&mut site, a, b));
    }
    site
}

fn stars(random: &mut Random, n: usize) -> Site {
    let leaves = random.between(1, MOST_LINKS);
    let mut site = Site::without_links(n);
    for s in 0..n {
        try_link(&mut site, s - s % (leaves + 1), s);
    }
    site
}

/// A station with a full row, and others here and there.
fn full_hub(random: &mut Random, n: usize) -> Site {
    let mut site = sparse(random, n);
    let hub = random.below(n);
    for s in random.order(n) {
        try_link(&mut site, hub, s);
    }
    site
}

fn path(_: &mut Random, n: usize) -> Site {
    let mut site = Site::without_links(n);
    (1..n).for_each(|s| try_link(&mut site, s - 1, s));
    site
}

fn cycle(random: &mut Random, n: usize) -> Site {
    let mut site = path(random, n);
    try_link(&mut site, 0, n - 1);
    site
}

fn cliques_on_paths(random: &mut Random, n: usize) -> Site {
    let mut site = Site::without_links(n);
    let mut first = 0;
    while first < n {
        let after = n.min(first + random.between(1, 9));
        for b in first..after {
            (first..b).for_each(|a| try_link(&mut site, a, b));
        }
        let end = n.min(after + random.below(6));
        (after.max(1)..end).for_each(|s| try_link(&mut site, s - 1, s));
        if end < n && random.below(4) > 0 {
            try_link(&mut site, end - 1, end);
        }
        first = end;
    }
    site
}

fn components(random: &mut Random, n: usize) -> Site {
    let size = random.between(1, 7);
    let mut site = Site::without_links(n);
    for _ in 0..random.below(3 * n + 1) {
        let a = random.below(n);
        let b = a - a % size + random.below(size);
        if b < n {
            try_link(&mut site, a, b);
        }
    }
    site
}

fn of_links(random: &mut Random, n: usize, count: usize) -> Site {
    let mut site = Site::without_links(n);
    for _ in 0..count {
        let (a, b) = (random.below(n), random.below(n));
        try_link(&mut site, a, b);
    }
    site
}

fn sparse(random: &mut Random, n: usize) -> Site {
    let count = random.below(2 * n + 1);
    of_links(random, n, count)
}

fn dense(random: &mut Random, n: usize) -> Site {
    let count = n * random.between(2, 2 * MOST_LINKS.min(n));
    of_links(random, n, count)
}

/// Each station linked with those next to it on a circle: up to 16 on each side, which fills all rows.
fn circle_of_neighbours(random: &mut Random, n: usize) -> Site {
    let reach = if random.once_in(3) { MOST_LINKS / 2 } else { random.between(1, MOST_LINKS / 2) };
    let mut site = Site::without_links(n);
    for s in 0..n {
        (1..=reach).for_each(|step| try_link(&mut site, s, (s + step) % n));
    }
    site
}

fn grid(random: &mut Random, n: usize) -> Site {
    let width = random.between(1, 24);
    let mut site = Site::without_links(n);
    for s in 0..n {
        if (s + 1) % width > 0 && s + 1 < n {
            try_link(&mut site, s, s + 1);
        }
        if s + width < n {
            try_link(&mut site, s, s + width);
        }
    }
    site
}

fn tree(random: &mut Random, n: usize) -> Site {
    let mut site = Site::without_links(n);
    for s in 1..n {
        let above = random.below(s);
        try_link(&mut site, above, s);
    }
    site
}

/// Cores inside cores: each station hears some before it, fewer and fewer.
fn onion(random: &mut Random, n: usize) -> Site {
    let deepest = random.between(1, 20);
    let mut site = Site::without_links(n);
    for s in 1..n {
        for _ in 0..(deepest * (n - s)).div_ceil(n) {
            let inner = random.below(s);
            try_link(&mut site, inner, s);
        }
    }
    site
}

/// Each of some stations hears all the others.
fn two_sides(random: &mut Random, n: usize) -> Site {
    let one_side = random.between(1, MOST_LINKS).min(n);
    let mut site = Site::without_links(n);
    for s in one_side..n {
        (0..one_side).for_each(|a| try_link(&mut site, a, s));
    }
    site
}
