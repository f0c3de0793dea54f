//! One case for ours and for plain Rust's two ways: the same input to each, by turns.
use crate::clock;
use std::hint::black_box;

/// Best times, in microseconds.
pub struct Times {
    pub ours: f64,
    /// Plain Rust's, with lists of the circuits of each fibre.
    pub lists: f64,
    /// Plain Rust's, with a `HashMap` from fibre and wavelength.
    pub hashing: f64,
}

impl Times {
    /// Ours over plain Rust's with lists.
    pub fn ratio_to_lists(&self) -> f64 {
        self.ours / self.lists
    }

    /// Ours over plain Rust's with a `HashMap`.
    pub fn ratio_to_hashing(&self) -> f64 {
        self.ours / self.hashing
    }

    /// Ours over the faster of plain Rust's two.
    pub fn ratio_to_faster(&self) -> f64 {
        self.ours / self.lists.min(self.hashing)
    }
}

/// What a call answers: its numbers, or number, place and end of a refusal.
pub type Answer<const N: usize> = Result<[usize; N], (u32, usize, u32)>;

/// A call with what it is given, on lent areas.
pub type Call<Given, Areas, const N: usize> = fn(&Given, &mut Areas) -> Answer<N>;

/// The best of so many rounds of ours, with lists and with a `HashMap`: all accept, answer alike and leave the same bytes.
pub fn measure<Given, Areas: Clone + PartialEq, const N: usize>(
    given: &Given,
    before: &Areas,
    calls: [Call<Given, Areas, N>; 3],
    rounds: usize,
) -> Times {
    let seen = calls.map(|call| {
        let mut areas = before.clone();
        (call(given, &mut areas), areas)
    });
    assert!(seen[0].0.is_ok(), "refused: {:?}", seen[0].0);
    assert!(seen.iter().all(|one| *one == seen[0]), "they differ");
    let mut areas = before.clone();
    let mut best = [f64::MAX; 3];
    for _ in 0..rounds {
        for (best, call) in best.iter_mut().zip(calls) {
            areas.clone_from(before);
            let start = clock::now();
            let _ = black_box(call(given, &mut areas));
            *best = best.min(clock::now() - start);
        }
    }
    let [ours, lists, hashing] = best;
    Times {
        ours,
        lists,
        hashing,
    }
}
