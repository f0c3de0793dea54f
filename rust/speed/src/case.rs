//! One case: the same file to each planner, by turns.
use crate::baseline;
use crate::before::Before;
use crate::clock;
use crate::plain_check;
use fibre_plan::Finding;
use inputs::{encode, Family, Numbers, Rng};
use std::hint::black_box;

/// The grid of every case: it has all wavelengths that are tried, and a plan does not depend on it otherwise.
pub const GRID: usize = 1;

/// A file of circuits, and the line and the fibres that it is for.
#[derive(Clone, Copy)]
pub struct Case {
    pub family: Family,
    pub numbers: Numbers,
    pub links: usize,
    pub circuits: usize,
    pub wavelengths: usize,
}

/// Best times, in microseconds.
pub struct Times {
    pub ours: f64,
    pub plain: f64,
    /// Ours, up to the end of test 6.
    pub six: f64,
    /// Ours, up to the end of test 7, the one for repeated numbers.
    pub seven: f64,
    /// Plain Rust's, up to the end of test 7.
    pub plain_seven: f64,
    /// That of the archive before; as large as can be where there is none.
    pub before: f64,
    /// Ours for a yes to the plan that was written.
    pub check: f64,
    /// Plain Rust's for a yes to the plan that was written, by sorting.
    pub sorting_check: f64,
    /// The same by hashing.
    pub hashing_check: f64,
}

impl Times {
    /// Times that any other is better than.
    const WORST: Self = Self {
        ours: f64::MAX,
        plain: f64::MAX,
        six: f64::MAX,
        seven: f64::MAX,
        plain_seven: f64::MAX,
        before: f64::MAX,
        check: f64::MAX,
        sorting_check: f64::MAX,
        hashing_check: f64::MAX,
    };

    pub fn ratio(&self) -> f64 {
        self.ours / self.plain
    }

    /// Ours over the time of the archive before.
    pub fn ratio_before(&self) -> f64 {
        self.ours / self.before
    }

    /// Our check over plain Rust's by sorting.
    pub fn ratio_to_sorting(&self) -> f64 {
        self.check / self.sorting_check
    }

    /// Our check over plain Rust's by hashing.
    pub fn ratio_to_hashing(&self) -> f64 {
        self.check / self.hashing_check
    }

    /// The ratio without tests 1 to 7 on either side.
    pub fn ratio_after_tests(&self) -> f64 {
        (self.ours - self.seven) / (self.plain - self.plain_seven)
    }

    /// The share of test 7 in our time; two measured times may cross where it is next to nothing.
    pub fn share_of_seven(&self) -> f64 {
        (self.seven - self.six).max(0.0) / self.ours
    }
}

#[derive(Clone, PartialEq)]
pub struct Areas {
    pub fibres: Vec<u8>,
    pub assignments: Vec<u8>,
    pub work: Vec<u8>,
}

impl Areas {
    pub fn new(case: &Case) -> Self {
        let m = case.circuits;
        Self {
            fibres: vec![0; fibre_plan::fibre_bytes(m)],
            assignments: vec![0; fibre_plan::assignment_bytes(m)],
            work: vec![0; fibre_plan::work_bytes(case.links, m)],
        }
    }

    /// Overwrites all areas, so that each call starts from the same bytes, in the cache.
    pub fn fill(&mut self) {
        self.fibres.fill(0xA5);
        self.assignments.fill(0xA5);
        self.work.fill(0xA5);
    }
}

/// What the calls of a case are given.
struct Lent {
    file: Vec<u8>,
    /// The file with a last record that test 6 refuses.
    spoilt: Vec<u8>,
    areas: Areas,
    /// With an assignment list that is too short, so that a call ends after test 7.
    short: Areas,
    /// With a plan in the lists, and nothing behind it.
    planned: Areas,
}

impl Lent {
    fn new(case: &Case) -> Self {
        let (file, areas) = (case.file(), Areas::new(case));
        let mut spoilt = file.clone();
        let last_link = spoilt.len() - 2;
        spoilt[last_link..].fill(0);
        let mut short = areas.clone();
        short.assignments.pop();
        let mut planned = areas.clone();
        let [count, ..] = case.ours(&file, &mut planned).expect("a plan");
        planned.fibres.truncate(8 * count);
        Self {
            file,
            spoilt,
            areas,
            short,
            planned,
        }
    }
}

/// The time of one call; the areas are filled before the clock starts.
fn timed<T>(areas: &mut Areas, call: impl FnOnce(&mut Areas) -> T) -> f64 {
    areas.fill();
    let start = clock::now();
    black_box(call(areas));
    clock::now() - start
}

/// A check of the plan in the areas.
type Check = fn(&Case, &[u8], &Areas) -> plain_check::Answer;

/// Ours, and plain Rust's two.
const CHECKS: [Check; 3] = [
    Case::check_ours,
    Case::check_by_sorting,
    Case::check_by_hashing,
];

impl Case {
    pub fn file(&self) -> Vec<u8> {
        let mut rng = Rng::new(1);
        encode(
            &self
                .family
                .circuits(self.circuits, self.links, self.numbers, &mut rng),
        )
    }

    pub fn ours(&self, file: &[u8], to: &mut Areas) -> baseline::Answer {
        let Areas {
            fibres,
            assignments,
            work,
        } = to;
        fibre_plan::plan_bytes(
            self.links,
            self.wavelengths,
            GRID,
            file,
            fibres,
            assignments,
            work,
        )
        .map(|c| [c.fibres, c.total, c.floor])
        .map_err(|r| (r.number(), r.place(), r.end()))
    }

    fn plain(&self, file: &[u8], to: &mut Areas) -> baseline::Answer {
        let Areas {
            fibres,
            assignments,
            work,
        } = to;
        baseline::plan(
            self.links,
            self.wavelengths,
            GRID,
            file,
            fibres,
            assignments,
            work,
        )
    }

    fn check_ours(&self, file: &[u8], lists: &Areas) -> plain_check::Answer {
        let (fibres, assignments) = (&lists.fibres, &lists.assignments);
        let (n, w) = (self.links, self.wavelengths);
        fibre_plan::check_bytes(n, w, GRID, file, fibres, assignments)
            .map(|found| match found {
                Finding::Yes { length, floor } => Ok([length, floor]),
                Finding::No { rule, place } => Err((rule.number(), place)),
            })
            .map_err(|r| (r.number(), r.place(), r.end()))
    }

    fn check_by_sorting(&self, file: &[u8], lists: &Areas) -> plain_check::Answer {
        let (fibres, assignments) = (&lists.fibres, &lists.assignments);
        let (n, w, way) = (self.links, self.wavelengths, plain_check::by_sorting);
        plain_check::check(n, w, GRID, file, fibres, assignments, way)
    }

    fn check_by_hashing(&self, file: &[u8], lists: &Areas) -> plain_check::Answer {
        let (fibres, assignments) = (&lists.fibres, &lists.assignments);
        let (n, w, way) = (self.links, self.wavelengths, plain_check::by_hashing);
        plain_check::check(n, w, GRID, file, fibres, assignments, way)
    }

    fn before(&self, planner: &Before, file: &[u8], to: &mut Areas) -> baseline::Answer {
        let areas = [&mut to.fibres, &mut to.assignments, &mut to.work];
        let areas = areas.map(Vec::as_mut_slice);
        planner.plan([self.links, self.wavelengths, GRID], file, areas)
    }

    /// Both answer alike and leave the same bytes; each call that is measured ends where it should.
    fn check(&self, lent: &mut Lent, before: Option<&Before>) {
        let (mut one, mut two) = (lent.areas.clone(), lent.areas.clone());
        let answer = self.ours(&lent.file, &mut one);
        assert!(answer.is_ok(), "{:?} was refused: {answer:?}", self.family);
        assert_eq!(answer, self.plain(&lent.file, &mut two));
        assert!(one == two, "{:?}: the bytes differ", self.family);
        let after_six = self.ours(&lent.spoilt, &mut lent.areas);
        assert_eq!(after_six, Err((6, self.circuits, 2)));
        assert_eq!(after_six, self.plain(&lent.spoilt, &mut lent.areas));
        assert_eq!(self.ours(&lent.file, &mut lent.short), Err((9, 0, 0)));
        assert_eq!(self.plain(&lent.file, &mut lent.short), Err((9, 0, 0)));
        let [_, total, floor] = answer.expect("a plan");
        for check in CHECKS {
            let found = check(self, &lent.file, &lent.planned);
            assert_eq!(found, Ok(Ok([total, floor])));
        }
        if let Some(planner) = before {
            let answer = self.before(planner, &lent.file, &mut lent.areas);
            assert!(answer.is_ok(), "the archive before refuses: {answer:?}");
        }
    }

    /// Calls each check once, and keeps times that are better than those so far.
    fn round_of_checks(&self, lent: &Lent, best: &mut Times) {
        let times = [
            &mut best.check,
            &mut best.sorting_check,
            &mut best.hashing_check,
        ];
        for (best, check) in times.into_iter().zip(CHECKS) {
            let start = clock::now();
            let _ = black_box(check(self, &lent.file, &lent.planned));
            *best = best.min(clock::now() - start);
        }
    }

    /// Calls each planner once, and keeps times that are better than those so far.
    fn round(&self, lent: &mut Lent, before: Option<&Before>, best: &mut Times) {
        let Lent {
            file,
            spoilt,
            areas,
            short,
            ..
        } = lent;
        let keep = |best: &mut f64, time: f64| *best = best.min(time);
        keep(&mut best.ours, timed(areas, |to| self.ours(file, to)));
        keep(&mut best.plain, timed(areas, |to| self.plain(file, to)));
        keep(&mut best.six, timed(areas, |to| self.ours(spoilt, to)));
        keep(&mut best.seven, timed(short, |to| self.ours(file, to)));
        let plain_seven = timed(short, |to| self.plain(file, to));
        keep(&mut best.plain_seven, plain_seven);
        if let Some(planner) = before {
            let time = timed(areas, |to| self.before(planner, file, to));
            keep(&mut best.before, time);
        }
    }

    /// The best of so many rounds; those of another archive as well, if one is given.
    pub fn measure(&self, rounds: usize, before: Option<&Before>) -> Times {
        let mut lent = Lent::new(self);
        self.check(&mut lent, before);
        let mut best = Times::WORST;
        for _ in 0..rounds {
            self.round(&mut lent, before, &mut best);
            self.round_of_checks(&lent, &mut best);
        }
        best
    }
}
