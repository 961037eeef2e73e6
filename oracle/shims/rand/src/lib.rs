//! Stands in for `rand`: the published code draws from a lent row of numbers instead of a generator.
//! A place is `draw % (length + 1)`; a shuffle swaps `i` with `draw % (i + 1)` from the last place down to 1.
use std::cell::RefCell;
use std::ops::RangeInclusive;

thread_local! {
    static LENT: RefCell<Lent> = RefCell::new(Lent::default());
}

/// The lent draws, and what was asked of them.
#[derive(Clone, Debug, Default)]
pub struct Lent {
    draws: Vec<u64>,
    /// How many draws were asked for, those past the end included.
    pub asked: usize,
    /// The upper ends that `gen_range` was called with: the length of the list at each insertion.
    pub lengths: Vec<usize>,
}

impl Lent {
    /// Whether a draw was needed past the end of the lent row.
    pub fn ran_out(&self) -> bool {
        self.asked > self.draws.len()
    }

    /// The next draw; past the end 0, which `ran_out` tells.
    fn draw(&mut self) -> u64 {
        self.asked += 1;
        self.draws.get(self.asked - 1).copied().unwrap_or(0)
    }
}

/// Lends a row of draws to the calls that follow.
pub fn lend(draws: &[u64]) {
    let fresh = Lent {
        draws: draws.to_vec(),
        ..Lent::default()
    };
    LENT.with(|lent| *lent.borrow_mut() = fresh);
}

/// Takes the lent row back, with what was asked of it.
pub fn give_back() -> Lent {
    LENT.with(|lent| std::mem::take(&mut *lent.borrow_mut()))
}

/// The handle on the lent row.
pub struct ThreadRng;

pub fn thread_rng() -> ThreadRng {
    ThreadRng
}

pub trait Rng {
    fn gen_range(&mut self, range: RangeInclusive<usize>) -> usize;
}

impl Rng for ThreadRng {
    fn gen_range(&mut self, range: RangeInclusive<usize>) -> usize {
        let length = *range.end();
        LENT.with(|lent| {
            let mut lent = lent.borrow_mut();
            lent.lengths.push(length);
            (lent.draw() % (length as u64 + 1)) as usize
        })
    }
}

pub mod seq {
    use super::{ThreadRng, LENT};

    pub trait SliceRandom {
        fn shuffle(&mut self, rng: &mut ThreadRng);
    }

    impl<T> SliceRandom for [T] {
        fn shuffle(&mut self, _rng: &mut ThreadRng) {
            for i in (1..self.len()).rev() {
                let other = LENT.with(|lent| lent.borrow_mut().draw() % (i as u64 + 1));
                self.swap(i, other as usize);
            }
        }
    }
}
