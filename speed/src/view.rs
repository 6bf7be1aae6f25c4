//! Views, as the hand-written planner has them: by calls that the compiler sees through.

pub trait View {
    fn stations(&self) -> usize;
    fn degree(&self, s: usize) -> usize;
    fn each(&self, s: usize, visit: impl FnMut(usize));
}

/// Links as two lists.
pub struct Listed<'a> {
    pub starts: &'a [u32],
    pub ends: &'a [u16],
}

/// Links as rows of bits.
pub struct Square<'a> {
    pub stations: usize,
    pub bits: &'a [u8],
}

impl Listed<'_> {
    fn row(&self, s: usize) -> &[u16] {
        &self.ends[self.starts[s] as usize..self.starts[s + 1] as usize]
    }

    /// Whether the lists are in order, in one walk: rows rise, and as stations come rising, each row must list them one after the other.
    pub fn check(&self) -> bool {
        let n = self.starts.len().wrapping_sub(1);
        if !(1..=512).contains(&n) || self.starts[0] != 0 || self.starts[n] as usize != self.ends.len() || !self.starts.is_sorted() {
            return false;
        }
        let mut next = [0u32; 512];
        next[..n].copy_from_slice(&self.starts[..n]);
        for s in 0..n {
            if !self.row(s).is_sorted_by(|a, b| a < b) {
                return false;
            }
            for t in self.row(s) {
                let t = usize::from(*t);
                if t >= n || t == s || next[t] == self.starts[t + 1] || usize::from(self.ends[next[t] as usize]) != s {
                    return false;
                }
                next[t] += 1;
            }
        }
        true
    }
}

impl View for Listed<'_> {
    fn stations(&self) -> usize {
        self.starts.len() - 1
    }

    fn degree(&self, s: usize) -> usize {
        self.row(s).len()
    }

    fn each(&self, s: usize, mut visit: impl FnMut(usize)) {
        for t in self.row(s) {
            visit(usize::from(*t));
        }
    }
}

impl Square<'_> {
    fn row(&self, s: usize) -> &[u8] {
        let width = self.stations.div_ceil(8);
        &self.bits[s * width..][..width]
    }
}

/// Eight bytes of a row as a word, fewer at its end.
fn word(bytes: &[u8]) -> u64 {
    let mut word = [0; 8];
    word[..bytes.len()].copy_from_slice(bytes);
    u64::from_le_bytes(word)
}

impl View for Square<'_> {
    fn stations(&self) -> usize {
        self.stations
    }

    fn degree(&self, s: usize) -> usize {
        self.row(s).chunks(8).map(|bytes| word(bytes).count_ones() as usize).sum()
    }

    fn each(&self, s: usize, mut visit: impl FnMut(usize)) {
        for (place, bytes) in self.row(s).chunks(8).enumerate() {
            let mut left = word(bytes);
            while left != 0 {
                visit(place * 64 + left.trailing_zeros() as usize);
                left &= left - 1;
            }
        }
    }
}
