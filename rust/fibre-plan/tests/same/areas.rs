//! Lent areas full of noise, and what a planner leaves in them.
use inputs::Rng;
use reference::{Line, Slip};
use std::ops::Range;

/// The least bytes that stand before and behind each lent area, which nobody may touch.
const GUARD: usize = 16;

/// One call: its line, its circuit file, and the lengths of the three areas.
#[derive(Clone, Debug)]
pub struct Input {
    pub line: Line,
    pub circuits: Vec<u8>,
    pub lengths: [usize; 3],
}

/// The numbers of a plan, three or for a mending four, or number, place and end of a refusal.
pub type Answer<const N: usize = 3> = Result<[usize; N], (u32, usize, u32)>;

/// What a call answered and what it left in the areas, as many as it has numbers, guards included.
#[derive(Debug, PartialEq, Eq)]
pub struct Seen<const N: usize = 3> {
    pub answer: Answer<N>,
    pub areas: [Vec<u8>; N],
}

/// Where each lent area stands between its guards: for other links and circuits it may start at another address.
pub fn between_guards<const N: usize>(
    lengths: [usize; N],
    links: usize,
    circuits: usize,
) -> [Range<usize>; N] {
    let from = GUARD + (links ^ circuits) % 8;
    lengths.map(|length| from..from + length)
}

/// The lent areas, guards included: each begins with a list, as far as it has room, and all else is noise.
pub fn filled<const N: usize>(
    lent: [Range<usize>; N],
    lists: [&[u8]; N],
    mut noise: Rng,
) -> [Vec<u8>; N] {
    let mut lists = lists.into_iter();
    lent.map(|lent| {
        let mut area = vec![0; lent.end + GUARD];
        noise.fill(&mut area);
        let list = lists.next().into_iter().flatten();
        for (byte, old) in area[lent].iter_mut().zip(list) {
            *byte = *old;
        }
        area
    })
}

impl Input {
    /// A call with these links, wavelengths and grid, and areas of just the lengths that are asked for.
    pub fn new([n, w, grid]: [usize; 3], circuits: Vec<u8>) -> Self {
        let many = circuits.len() / 8;
        let lengths = [
            fibre_plan::fibre_bytes(many),
            fibre_plan::assignment_bytes(many),
            fibre_plan::work_bytes(n.min(600), many),
        ];
        Self {
            line: Line { n, w, grid },
            circuits,
            lengths,
        }
    }

    /// The same call on another grid.
    pub fn on_grid(&self, grid: usize) -> Self {
        let mut input = self.clone();
        input.line.grid = grid;
        input
    }

    /// Where each lent area stands between its guards.
    pub fn lent(&self) -> [Range<usize>; 3] {
        between_guards(self.lengths, self.line.n, self.circuits.len() / 8)
    }

    /// The areas before the call, guards included: noise that depends only on the input.
    pub fn noise(&self) -> [Vec<u8>; 3] {
        let noise = Rng::new((self.line.n ^ self.circuits.len()) as u64);
        filled(self.lent(), [&[]; 3], noise)
    }

    /// What a planner answers and leaves.
    fn seen(&self, planner: impl Fn(&[u8], [&mut [u8]; 3]) -> Answer) -> Seen {
        let mut areas = self.noise();
        let file = self.circuits.clone();
        let [f, a, k] = &mut areas;
        let [x, y, z] = self.lent();
        let answer = planner(&file, [&mut f[x], &mut a[y], &mut k[z]]);
        assert_eq!(file, self.circuits, "the circuit bytes are only read");
        Seen { answer, areas }
    }

    /// What the library answers and leaves.
    pub fn by_library(&self) -> Seen {
        let Line { n, w, grid } = self.line;
        self.seen(|file, [f, a, k]| {
            fibre_plan::plan_bytes(n, w, grid, file, f, a, k)
                .map(|c| [c.fibres, c.total, c.floor])
                .map_err(|r| (r.number(), r.place(), r.end()))
        })
    }

    /// What the reference answers and leaves, with a mistake or none.
    pub fn by_reference(&self, slip: Slip) -> Seen {
        self.seen(|file, [f, a, k]| {
            reference::plan_with(slip, self.line, file, f, a, k)
                .map(|c| [c.fibres, c.total, c.floor])
                .map_err(|r| (r.number, r.place, r.end))
        })
    }
}
