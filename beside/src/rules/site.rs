//! Sites: stations from 0, and who is linked with whom.

/// The most stations that there can be.
pub const MOST_STATIONS: usize = 512;

/// A set of stations below 512.
#[derive(Clone)]
pub struct Stations {
    has: [bool; MOST_STATIONS],
}

impl Stations {
    pub fn none() -> Stations {
        Stations { has: [false; MOST_STATIONS] }
    }

    pub fn of(stations: impl IntoIterator<Item = usize>) -> Stations {
        let mut set = Stations::none();
        for s in stations {
            set.has[s] = true;
        }
        set
    }

    pub fn has(&self, s: usize) -> bool {
        self.has[s]
    }

    /// Puts a station in; true if it was not there.
    pub fn put(&mut self, s: usize) -> bool {
        !std::mem::replace(&mut self.has[s], true)
    }

    pub fn take(&mut self, s: usize) {
        self.has[s] = false;
    }

    /// The stations of the set, from the lowest.
    pub fn each(&self) -> impl Iterator<Item = usize> + '_ {
        (0..MOST_STATIONS).filter(|&s| self.has[s])
    }
}

#[derive(Clone, Debug, Default, PartialEq, Eq)]
pub struct Site {
    /// Of each station its neighbours, rising.
    neighbours: Vec<Vec<usize>>,
}

impl Site {
    /// n stations without links.
    pub fn without_links(n: usize) -> Site {
        Site { neighbours: vec![vec![]; n] }
    }

    pub fn with_links(n: usize, links: &[(usize, usize)]) -> Site {
        let mut site = Site::without_links(n);
        for &(a, b) in links {
            site.set(a, b);
        }
        site
    }

    pub fn n(&self) -> usize {
        self.neighbours.len()
    }

    pub fn stations(&self) -> std::ops::Range<usize> {
        0..self.n()
    }

    pub fn neighbours(&self, s: usize) -> &[usize] {
        &self.neighbours[s]
    }

    pub fn linked(&self, a: usize, b: usize) -> bool {
        self.neighbours[a].contains(&b)
    }

    /// Sets a link, if it does not stand already.
    pub fn set(&mut self, a: usize, b: usize) {
        assert_ne!(a, b);
        for (s, t) in [(a, b), (b, a)] {
            let row = &mut self.neighbours[s];
            if let Err(place) = row.binary_search(&t) {
                row.insert(place, t);
            }
        }
    }

    pub fn take_away(&mut self, a: usize, b: usize) {
        self.neighbours[a].retain(|&t| t != b);
        self.neighbours[b].retain(|&t| t != a);
    }

    /// Each link once, its lower end first.
    pub fn links(&self) -> Vec<(usize, usize)> {
        let from = |a: usize| self.neighbours[a].iter().filter(move |&&b| a < b).map(move |&b| (a, b));
        self.stations().flat_map(from).collect()
    }

    /// How many stations of the set s hears.
    pub fn hears(&self, s: usize, set: &Stations) -> usize {
        self.neighbours[s].iter().filter(|&&t| set.has(t)).count()
    }

    /// The stations of the set to which links inside it lead from s.
    pub fn part(&self, set: &Stations, s: usize) -> Stations {
        let mut part = Stations::of([s]);
        let mut to_visit = vec![s];
        while let Some(t) = to_visit.pop() {
            let reached = self.neighbours[t].iter().copied().filter(|&u| set.has(u) && part.put(u));
            to_visit.extend(reached);
        }
        part
    }

    /// What a struck view over this site shows: all links without a marked end.
    pub fn struck(&self, marked: &Stations) -> Site {
        let stays = |link: &(usize, usize)| !marked.has(link.0) && !marked.has(link.1);
        let links: Vec<_> = self.links().into_iter().filter(stays).collect();
        Site::with_links(self.n(), &links)
    }
}
