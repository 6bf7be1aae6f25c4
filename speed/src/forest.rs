//! Homes and ups, written by hand: components that are joined from the greatest number down, the smaller into the larger.

use crate::view::View;

const NONE: u16 = u16::MAX;

/// Components of stations: each has the label of one of its members, and the members of a component are chained in a ring. By label
/// stand the size, the first and the last of the homes that wait for an up, which are chained too, and the lowest station of the
/// level in hand.
struct Components {
    labels: [u16; 512],
    members: [u16; 512],
    sizes: [u16; 512],
    waiting: [u16; 512],
    last: [u16; 512],
    next: [u16; 512],
    lowest: [u16; 512],
}

impl Components {
    /// Makes one component of two; the smaller takes the label of the larger.
    fn join(&mut self, s: usize, t: usize) {
        let (mut a, mut b) = (usize::from(self.labels[s]), usize::from(self.labels[t]));
        if a == b {
            return;
        }
        if self.sizes[a] < self.sizes[b] {
            std::mem::swap(&mut a, &mut b);
        }
        let mut member = b;
        for _ in 0..self.sizes[b] {
            self.labels[member] = a as u16;
            member = usize::from(self.members[member]);
        }
        self.members.swap(a, b);
        self.sizes[a] += self.sizes[b];
        if self.waiting[a] == NONE {
            self.waiting[a] = self.waiting[b];
            self.last[a] = self.last[b];
        } else if self.waiting[b] != NONE {
            self.next[usize::from(self.last[a])] = self.waiting[b];
            self.last[a] = self.last[b];
        }
    }
}

/// Writes the home and the up of each station by the numbers; 65,535 for no up.
pub fn homes_and_ups<V: View>(view: &V, numbers: &[u16], homes: &mut [u16], ups: &mut [u16]) {
    let n = view.stations();
    let mut begins = [0usize; 514];
    for k in &numbers[..n] {
        begins[usize::from(*k) + 1] += 1;
    }
    for k in 0..n {
        begins[k + 1] += begins[k];
    }
    let mut next = begins;
    let mut sorted = [0u16; 512];
    for (s, k) in numbers[..n].iter().enumerate() {
        sorted[next[usize::from(*k)]] = s as u16;
        next[usize::from(*k)] += 1;
    }
    let mut components = Components {
        labels: std::array::from_fn(|s| s as u16),
        members: std::array::from_fn(|s| s as u16),
        sizes: [1; 512],
        waiting: [NONE; 512],
        last: [NONE; 512],
        next: [NONE; 512],
        lowest: [NONE; 512],
    };
    ups[..n].fill(NONE);
    for k in (0..n).rev() {
        let level = &sorted[begins[k]..begins[k + 1]];
        for s in level {
            let s = usize::from(*s);
            // a link inside the level is taken at its higher end
            view.each(s, |t| {
                let number = usize::from(numbers[t]);
                if number > k || number == k && t < s {
                    components.join(s, t);
                }
            });
        }
        // stations of a level come rising, so the first of a component is its home
        for s in level {
            let label = usize::from(components.labels[usize::from(*s)]);
            if components.lowest[label] == NONE {
                components.lowest[label] = *s;
                let mut waiting = components.waiting[label];
                while waiting != NONE {
                    ups[usize::from(waiting)] = *s;
                    waiting = std::mem::replace(&mut components.next[usize::from(waiting)], NONE);
                }
                components.waiting[label] = *s;
                components.last[label] = *s;
            }
            homes[usize::from(*s)] = components.lowest[label];
        }
        for s in level {
            let label = usize::from(components.labels[usize::from(*s)]);
            components.lowest[label] = NONE;
        }
    }
}
