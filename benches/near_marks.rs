//! What is counted at places, and which of the places are marked.

/// Numbers at places, and their sums in a tree: `find` tells at which place the i-th of the things counted is.
pub struct Counts {
    sums: Vec<u32>,
    pub total: u32,
}

impl Counts {
    pub fn new(places: usize) -> Counts {
        Counts {
            sums: vec![0; places.next_power_of_two()],
            total: 0,
        }
    }
    /// Adds to the number at a place, modulo 2^32.
    pub fn add(&mut self, place: usize, more: u32) {
        self.total = self.total.wrapping_add(more);
        let mut at = place + 1;
        while at < self.sums.len() {
            self.sums[at] = self.sums[at].wrapping_add(more);
            at += at & at.wrapping_neg();
        }
    }
    /// The place of the i-th, and how many at that place come before it.
    pub fn find(&self, i: u32) -> (usize, u32) {
        let (mut place, mut rest) = (0, i);
        let mut width = self.sums.len() / 2;
        while width > 0 {
            let sum = self.sums[place + width];
            if sum <= rest {
                rest -= sum;
                place += width;
            }
            width /= 2;
        }
        (place, rest)
    }
}

/// Which of so many places are marked.
pub struct Marks {
    words: Vec<u64>,
    counts: Counts,
}

impl Marks {
    pub fn new(places: usize) -> Marks {
        let words = places.div_ceil(64);
        Marks {
            words: vec![0; words],
            counts: Counts::new(words),
        }
    }
    pub fn total(&self) -> u32 {
        self.counts.total
    }
    pub fn set(&mut self, place: u32) {
        self.words[place as usize / 64] |= 1 << (place % 64);
        self.counts.add(place as usize / 64, 1);
    }
    pub fn clear(&mut self, place: u32) {
        self.words[place as usize / 64] &= !(1 << (place % 64));
        self.counts.add(place as usize / 64, u32::MAX);
    }
    /// The place of the i-th mark.
    pub fn find(&self, i: u32) -> u32 {
        let (at, rest) = self.counts.find(i);
        let mut word = self.words[at];
        for _ in 0..rest {
            word &= word - 1;
        }
        at as u32 * 64 + word.trailing_zeros()
    }
}
