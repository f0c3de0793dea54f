use crate::{Circuit, Numbers, Rng};

/// A shape of circuits.
#[derive(Clone, Copy, Debug, PartialEq, Eq)]
pub enum Family {
    /// Random ends.
    Random,
    /// One link each.
    LengthOne,
    /// Each within the one before it, over and over.
    Nested,
    /// One length, each a link further than the one before it, over and over.
    Staircase,
    /// All over the whole line.
    Full,
    /// A random first link, and one to eight links.
    Short,
}

/// All shapes.
pub const FAMILIES: [Family; 6] = [
    Family::Random,
    Family::LengthOne,
    Family::Nested,
    Family::Staircase,
    Family::Full,
    Family::Short,
];

impl Family {
    /// The ends of circuit i, counted from 0, on a line of n links.
    fn ends(self, i: usize, n: usize, rng: &mut Rng) -> (usize, usize) {
        match self {
            Self::Random => {
                let (a, b) = (rng.within(1, n), rng.within(1, n));
                (a.min(b), a.max(b))
            }
            Self::LengthOne => {
                let a = rng.within(1, n);
                (a, a)
            }
            Self::Nested => {
                let depth = i % n.div_ceil(2);
                (1 + depth, n - depth)
            }
            Self::Staircase => {
                let length = n.div_ceil(4);
                let first = 1 + i % (n - length + 1);
                (first, first + length - 1)
            }
            Self::Full => (1, n),
            Self::Short => {
                let first = rng.within(1, n);
                (first, n.min(first + rng.within(0, 7)))
            }
        }
    }

    /// m circuits of this shape on a line of n links.
    pub fn circuits(self, m: usize, n: usize, numbers: Numbers, rng: &mut Rng) -> Vec<Circuit> {
        (0..m)
            .map(|i| {
                let (first, last) = self.ends(i, n, rng);
                (numbers.of(i), first as u16, last as u16)
            })
            .collect()
    }
}
