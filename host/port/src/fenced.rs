//! Words to lend, that nobody may touch beyond: a fence of words before them, a closed page behind them.
use crate::pages::Pages;
use compare::memory::FILLER;
use std::cell::Cell;
use std::hint::black_box;

const FENCE: usize = 64;

pub struct Fenced {
    pages: Pages,
    length: usize,
    /// From this word on they are known to be `FILLER`: they need not be written again for the next of very many calls.
    rest: Cell<usize>,
}

impl Default for Fenced {
    fn default() -> Self {
        Fenced { pages: Pages::of(FENCE), length: 0, rest: Cell::new(0) }
    }
}

impl Fenced {
    /// Holds as many words from now on: these, as far as they fit, and `FILLER` in all others.
    pub fn hold(&mut self, used: &[u64], length: usize) {
        if self.pages.words().len() < FENCE + length {
            self.pages = Pages::of(FENCE + length);
        }
        let rest = if self.length == length { self.rest.get() } else { length };
        self.length = length;
        let used = &used[..used.len().min(length)];
        let start = self.start();
        let all = self.pages.words_mut();
        all[start - FENCE..start].fill(FILLER);
        all[start..][..used.len()].copy_from_slice(used);
        if used.len() < rest {
            all[start + used.len()..start + rest].fill(FILLER);
        }
        self.rest.set(used.len());
    }
    /// The last words before the closed page.
    fn start(&self) -> usize {
        self.pages.words().len() - self.length
    }
    pub fn words(&self) -> &[u64] {
        &self.pages.words()[self.start()..]
    }
    pub fn words_mut(&mut self) -> &mut [u64] {
        self.rest.set(self.length);
        let start = self.start();
        &mut self.pages.words_mut()[start..]
    }
    /// Whether it holds what `hold` would put there, and the fence stands.
    pub fn is(&self, used: &[u64]) -> bool {
        // looked at anew: the compiler may not take it that slices lent for reading are as before
        let all = black_box(self.pages.words());
        let start = self.start();
        let used = &used[..used.len().min(self.length)];
        let unused = all[start - FENCE..start].iter().chain(&all[start + used.len()..]);
        let same =
            all[start..][..used.len()] == *used && unused.fold(0, |changes, word| changes | (word ^ FILLER)) == 0;
        self.rest.set(if same { used.len() } else { self.length });
        same
    }
}

#[cfg(test)]
mod tests {
    use super::*;

    #[test]
    fn every_touched_word_is_seen() {
        let mut fenced = Fenced::default();
        for (used, length) in [(&[1, 2, 3][..], 5), (&[1, 2, 3], 2), (&[], 0), (&[], 8192), (&[1, 2], 9000)] {
            fenced.hold(used, length);
            assert!(fenced.is(used));
            let all = fenced.pages.words().len();
            for at in all - length - FENCE..all {
                fenced.pages.words_mut()[at] ^= 1 << (at % 64);
                assert!(!fenced.is(used), "word {at} of {all}");
                fenced.pages.words_mut()[at] ^= 1 << (at % 64);
            }
            assert!(fenced.is(used));
        }
    }
}
