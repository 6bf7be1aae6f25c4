//! Draw and numbers, written by hand.

use crate::forest::homes_and_ups;
use crate::view::View;

/// Stations that have so many neighbours left: a set of bits, so that the lowest of equals is at hand, and which of its words
/// have any.
#[derive(Clone, Copy, Default)]
struct Bucket {
    words: [u64; 8],
    used: u8,
}

/// Stations by how many neighbours they have left.
struct Buckets {
    buckets: Vec<Bucket>,
    lowest: usize,
}

impl Bucket {
    fn put(&mut self, s: usize) {
        self.words[s / 64] |= 1 << (s % 64);
        self.used |= 1 << (s / 64);
    }

    fn take(&mut self, s: usize) {
        self.words[s / 64] &= !(1 << (s % 64));
        if self.words[s / 64] == 0 {
            self.used &= !(1 << (s / 64));
        }
    }
}

impl Buckets {
    fn lower(&mut self, left: usize, s: usize) {
        self.buckets[left].take(s);
        self.buckets[left - 1].put(s);
    }

    /// Takes the lowest of those with the fewest neighbours left.
    fn take(&mut self) -> (usize, usize) {
        while self.buckets[self.lowest].used == 0 {
            self.lowest += 1;
        }
        let bucket = &mut self.buckets[self.lowest];
        let place = bucket.used.trailing_zeros() as usize;
        let s = place * 64 + bucket.words[place].trailing_zeros() as usize;
        bucket.take(s);
        let left = self.lowest;
        self.lowest = left.saturating_sub(1);
        (s, left)
    }
}

/// The drawn order and the numbers.
fn peel<V: View>(view: &V, order: &mut [u16], numbers: &mut [u16]) {
    let n = view.stations();
    let mut left = [0usize; 512];
    let mut there = [true; 512];
    let mut most = 0;
    for s in 0..n {
        left[s] = view.degree(s);
        most = most.max(left[s]);
    }
    let mut buckets = Buckets { buckets: vec![Bucket::default(); most + 1], lowest: 0 };
    for (s, left) in left[..n].iter().enumerate() {
        buckets.buckets[*left].put(s);
    }
    let mut number = 0;
    for place in &mut order[..n] {
        let (s, at) = buckets.take();
        there[s] = false;
        number = number.max(at);
        *place = s as u16;
        numbers[s] = number as u16;
        view.each(s, |t| {
            if there[t] {
                buckets.lower(left[t], t);
                left[t] -= 1;
            }
        });
    }
}

/// The numbers alone: the bucket peel of Batagelj and Zaversnik, in stations and links.
pub fn numbers<V: View>(view: &V, numbers: &mut [u16]) {
    let n = view.stations();
    let mut left = [0usize; 512];
    // where each bucket begins in `sorted`, which holds the stations by `left`
    let mut begins = [0usize; 514];
    for s in 0..n {
        left[s] = view.degree(s);
        begins[left[s] + 1] += 1;
    }
    for k in 0..n {
        begins[k + 1] += begins[k];
    }
    let mut next = begins;
    let mut sorted = [0u16; 512];
    let mut places = [0usize; 512];
    for s in 0..n {
        places[s] = next[left[s]];
        sorted[places[s]] = s as u16;
        next[left[s]] += 1;
    }
    for i in 0..n {
        let s = usize::from(sorted[i]);
        numbers[s] = left[s] as u16;
        view.each(s, |t| {
            if left[t] > left[s] {
                // t goes to the front of its bucket, which then begins behind it
                let front = begins[left[t]];
                let first = sorted[front];
                sorted.swap(front, places[t]);
                places[usize::from(first)] = places[t];
                places[t] = front;
                begins[left[t]] += 1;
                left[t] -= 1;
            }
        });
    }
}

/// Writes the sheet of a view, and answers its length.
pub fn draw<V: View>(view: &V, out: &mut [u8]) -> usize {
    let n = view.stations();
    let mut order = [0; 512];
    let mut numbers = [0; 512];
    let mut homes = [0; 512];
    let mut ups = [0; 512];
    peel(view, &mut order, &mut numbers);
    homes_and_ups(view, &numbers, &mut homes, &mut ups);
    out[..2].copy_from_slice(&(n as u16).to_le_bytes());
    let mut at = 2;
    for s in 0..n {
        let map = at;
        out[map] = u8::from(numbers[s] != 0) | u8::from(usize::from(homes[s]) != s) << 1 | u8::from(ups[s] != u16::MAX) << 2;
        at += 1;
        for (bit, value) in [numbers[s], homes[s], ups[s]].into_iter().enumerate() {
            if out[map] & 1 << bit != 0 {
                out[at..at + 2].copy_from_slice(&value.to_le_bytes());
                at += 2;
            }
        }
    }
    for s in &order[..n] {
        out[at..at + 2].copy_from_slice(&s.to_le_bytes());
        at += 2;
    }
    at
}
