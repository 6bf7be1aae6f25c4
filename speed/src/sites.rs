//! Sites to measure on: links of made-up plants, as a listing, as rows of bits and as a list of links.

/// Links as two lists: the neighbours of station s are the ends from place `starts[s]` to just before `starts[s + 1]`.
pub struct Site {
    pub starts: Vec<u32>,
    pub ends: Vec<u16>,
}

/// Numbers that look random, the same in every run.
pub struct Dice(u64);

impl Dice {
    pub fn new(seed: u64) -> Dice {
        Dice(seed.wrapping_mul(0x9e37_79b9_7f4a_7c15) | 1)
    }

    /// A number below a bound.
    pub fn below(&mut self, bound: usize) -> usize {
        self.0 ^= self.0 << 13;
        self.0 ^= self.0 >> 7;
        self.0 ^= self.0 << 17;
        ((self.0 >> 16) % bound as u64) as usize
    }

    pub fn shuffle<T>(&mut self, list: &mut [T]) {
        for i in (1..list.len()).rev() {
            list.swap(i, self.below(i + 1));
        }
    }
}

impl Site {
    fn of(rows: Vec<Vec<u16>>) -> Site {
        let mut site = Site { starts: vec![0], ends: Vec::new() };
        for mut row in rows {
            row.sort_unstable();
            site.ends.extend(row);
            site.starts.push(site.ends.len() as u32);
        }
        site
    }

    /// So many links between stations that are drawn by lot, no more than 32 at a station where the rows are short.
    pub fn scattered(stations: usize, row: usize, dice: &mut Dice) -> Site {
        let most = if row <= 24 { 32 } else { stations };
        let mut rows = vec![Vec::<u16>::new(); stations];
        let mut left = stations * row / 2;
        while left > 0 {
            let (a, b) = (dice.below(stations), dice.below(stations));
            if a != b && !rows[a].contains(&(b as u16)) && rows[a].len() < most && rows[b].len() < most {
                rows[a].push(b as u16);
                rows[b].push(a as u16);
                left -= 1;
            }
        }
        Site::of(rows)
    }

    /// Each station hears the nearest ones on a ring, as many on each side: all have one number.
    pub fn ring(stations: usize, row: usize) -> Site {
        let near = |s: usize| (1..=row / 2).flat_map(move |d| [(s + d) % stations, (s + stations - d) % stations]);
        Site::of((0..stations).map(|s| near(s).map(|t| t as u16).collect()).collect())
    }

    /// Halls of so many stations that all hear one another, each linked with the next hall by one link.
    pub fn halls(stations: usize, hall: usize) -> Site {
        let mut rows = vec![Vec::new(); stations];
        for (s, row) in rows.iter_mut().enumerate() {
            let first = s / hall * hall;
            row.extend((first..stations.min(first + hall)).filter(|t| *t != s).map(|t| t as u16));
        }
        for s in (hall - 1..stations - 1).step_by(hall) {
            rows[s].push(s as u16 + 1);
            rows[s + 1].push(s as u16);
        }
        Site::of(rows)
    }

    pub fn stations(&self) -> usize {
        self.starts.len() - 1
    }

    pub fn row(&self, s: usize) -> &[u16] {
        &self.ends[self.starts[s] as usize..self.starts[s + 1] as usize]
    }

    /// Each link once, the lower end first.
    pub fn links(&self) -> Vec<(u16, u16)> {
        let higher = |s: usize| self.row(s).iter().filter(move |t| usize::from(**t) > s).map(move |t| (s as u16, *t));
        (0..self.stations()).flat_map(higher).collect()
    }

    /// The links as rows of bits.
    pub fn bits(&self) -> Vec<u8> {
        let width = self.stations().div_ceil(8);
        let mut bits = vec![0; self.stations() * width];
        for s in 0..self.stations() {
            for t in self.row(s) {
                bits[s * width + usize::from(t / 8)] |= 1 << (t % 8);
            }
        }
        bits
    }
}
