//! A book, written by hand: the traversal algorithm for core numbers that are kept current (Sariyüce and others, 2013).

/// A link to be set or taken away.
#[repr(C)]
#[derive(Clone, Copy, Debug)]
pub struct Step {
    pub sets: bool,
    pub a: u16,
    pub b: u16,
}

#[derive(Clone, Copy)]
struct Station {
    row: [u16; 32],
    len: u16,
    number: u16,
    /// How many neighbours have its number or more.
    support: u16,
}

impl Station {
    fn row(&self) -> &[u16] {
        &self.row[..usize::from(self.len)]
    }

    fn insert(&mut self, t: u16) {
        let place = self.row().partition_point(|u| *u < t);
        self.row.copy_within(place..usize::from(self.len), place + 1);
        self.row[place] = t;
        self.len += 1;
    }

    fn remove(&mut self, t: u16) {
        let place = self.row().partition_point(|u| *u < t);
        self.row.copy_within(place + 1..usize::from(self.len), place);
        self.len -= 1;
    }
}

/// What one call knows of a station; of an older call it says nothing.
#[derive(Clone, Copy, Default)]
struct Note {
    call: u32,
    visited: bool,
    evicted: bool,
    count: i32,
}

pub struct Book {
    stations: Vec<Station>,
    notes: Vec<Note>,
    call: u32,
    visited: Vec<u16>,
    stack: Vec<u16>,
    evictions: Vec<u16>,
}

impl Book {
    pub fn new(count: usize) -> Book {
        Book {
            stations: vec![Station { row: [0; 32], len: 0, number: 0, support: 0 }; count],
            notes: vec![Note::default(); count],
            call: 0,
            visited: Vec::with_capacity(count),
            stack: Vec::with_capacity(count),
            evictions: Vec::with_capacity(count),
        }
    }

    pub fn number(&self, s: usize) -> u16 {
        self.stations[s].number
    }

    fn note(&mut self, s: u16) -> &mut Note {
        let note = &mut self.notes[usize::from(s)];
        if note.call != self.call {
            *note = Note { call: self.call, ..Note::default() };
        }
        note
    }

    fn count_support(&self, s: u16) -> u16 {
        let station = &self.stations[usize::from(s)];
        station.row().iter().filter(|t| self.stations[usize::from(**t)].number >= station.number).count() as u16
    }

    /// How many neighbours of a station of number k can be above k: higher ones, and those of k with support to spare.
    fn count_hopeful(&self, s: u16, k: u16) -> i32 {
        let hopeful = |t: &&u16| {
            let t = &self.stations[usize::from(**t)];
            t.number > k || t.number == k && t.support > k
        };
        self.stations[usize::from(s)].row().iter().filter(hopeful).count() as i32
    }

    fn visit(&mut self, s: u16, k: u16) {
        let hopeful = self.count_hopeful(s, k);
        let note = self.note(s);
        note.visited = true;
        note.count += hopeful;
        self.visited.push(s);
        self.stack.push(s);
    }

    /// Gives a station up, and whoever then has too few neighbours to rise.
    fn evict(&mut self, s: u16, k: u16) {
        self.note(s).evicted = true;
        self.evictions.push(s);
        while let Some(s) = self.evictions.pop() {
            let station = self.stations[usize::from(s)];
            for t in station.row() {
                if self.stations[usize::from(*t)].number == k {
                    let note = self.note(*t);
                    note.count -= 1;
                    if note.count == i32::from(k) && !note.evicted {
                        note.evicted = true;
                        self.evictions.push(*t);
                    }
                }
            }
        }
    }

    fn rise(&mut self, root: u16) {
        let k = self.stations[usize::from(root)].number;
        self.call += 1;
        self.visited.clear();
        self.visit(root, k);
        while let Some(s) = self.stack.pop() {
            if self.note(s).count > i32::from(k) {
                let station = self.stations[usize::from(s)];
                for t in station.row() {
                    let at = &self.stations[usize::from(*t)];
                    if at.number == k && at.support > k && !self.note(*t).visited {
                        self.visit(*t, k);
                    }
                }
            } else if !self.note(s).evicted {
                self.evict(s, k);
            }
        }
        let notes = &self.notes;
        self.visited.retain(|s| !notes[usize::from(*s)].evicted);
        for s in &self.visited {
            self.stations[usize::from(*s)].number = k + 1;
        }
        for i in 0..self.visited.len() {
            let s = self.visited[i];
            self.stations[usize::from(s)].support = self.count_support(s);
            let station = self.stations[usize::from(s)];
            for t in station.row() {
                let has_risen = self.notes[usize::from(*t)].call == self.call && {
                    let note = &self.notes[usize::from(*t)];
                    note.visited && !note.evicted
                };
                if self.stations[usize::from(*t)].number == k + 1 && !has_risen {
                    self.stations[usize::from(*t)].support += 1;
                }
            }
        }
    }

    fn fall(&mut self, ends: [u16; 2], k: u16) {
        self.call += 1;
        self.visited.clear();
        for s in ends {
            let at = &self.stations[usize::from(s)];
            if at.number == k && at.support < k {
                self.note(s).visited = true;
                self.visited.push(s);
            }
        }
        let mut next = 0;
        while let Some(s) = self.visited.get(next).copied() {
            next += 1;
            self.stations[usize::from(s)].number = k - 1;
            let station = self.stations[usize::from(s)];
            for t in station.row() {
                let at = &mut self.stations[usize::from(*t)];
                if at.number == k {
                    at.support -= 1;
                    if at.support < k && !std::mem::replace(&mut self.note(*t).visited, true) {
                        self.visited.push(*t);
                    }
                }
            }
        }
        for i in 0..self.visited.len() {
            let s = self.visited[i];
            self.stations[usize::from(s)].support = self.count_support(s);
        }
    }

    /// Sets a link or takes it away. What is not allowed changes nothing.
    pub fn carry_out(&mut self, step: &Step) {
        let Step { sets, a, b } = *step;
        let (s, t) = (usize::from(a), usize::from(b));
        if s.max(t) >= self.stations.len() || s == t || self.stations[s].row().binary_search(&b).is_ok() == sets {
            return;
        }
        if sets && self.stations[s].len.max(self.stations[t].len) == 32 {
            return;
        }
        let (k, l) = (self.stations[s].number, self.stations[t].number);
        let change = |support: &mut u16| *support = if sets { *support + 1 } else { *support - 1 };
        if l >= k {
            change(&mut self.stations[s].support);
        }
        if k >= l {
            change(&mut self.stations[t].support);
        }
        if sets {
            self.stations[s].insert(b);
            self.stations[t].insert(a);
            self.rise(if k <= l { a } else { b });
        } else {
            self.stations[s].remove(b);
            self.stations[t].remove(a);
            self.fall([a, b], k.min(l));
        }
    }
}
