//! What R-2 says of the plan that an addition leaves, and R-11 of what a mending leaves, circuit by circuit and not by its steps.
use crate::added::{self, Addition};
use crate::areas::Input;
use crate::draws::{rng_of, DENSE, MIDDLE, SMALL};
use crate::registers::{self, Mending};
use crate::spread;
use crate::submitted::{ours, typed, Submitted};
use fibre_plan::{Assignment, Circuit, Fibre};
use reference::Line;
use std::sync::atomic::{AtomicUsize, Ordering};

/// A plan that an addition or a mending left, how many of its fibres are old, and which of its circuits: those that were there, or were
/// kept. The others are new.
struct Whole {
    line: Line,
    circuits: Vec<Circuit>,
    fibres: Vec<Fibre>,
    /// Fibre and wavelength of each circuit.
    places: Vec<(u16, u16)>,
    old_fibres: u16,
    old: Vec<bool>,
}

impl Whole {
    fn new(plan: &Submitted, old_fibres: usize, old: Vec<bool>) -> Self {
        let assignments = typed(&plan.assignments, Assignment::from_bytes);
        let place = |a: &Assignment| (a.fibre, a.wavelength);
        Self {
            line: plan.line,
            circuits: typed(&plan.circuits, Circuit::from_bytes),
            fibres: typed(&plan.fibres, Fibre::from_bytes),
            places: assignments.iter().map(place).collect(),
            old_fibres: old_fibres as u16,
            old,
        }
    }

    /// What an addition left.
    fn added(call: &Addition) -> Self {
        let plan = call.whole(&call.by_library());
        let old = |at| at < call.named[1];
        let old = (0..plan.circuits.len() / 8).map(old).collect();
        Self::new(&plan, call.named[0], old)
    }

    /// What a mending left.
    fn mended(call: &Mending) -> Self {
        let seen = call.by_library();
        let plan = call.mended(&seen);
        let report = call.report(&seen);
        let circuits = typed(&plan.circuits, Circuit::from_bytes);
        let kept = |c: &Circuit| report.iter().all(|line| line.circuit != c.number);
        Self::new(&plan, call.named, circuits.iter().map(kept).collect())
    }

    /// Whether a circuit is on an old fibre.
    fn on_old_fibre(&self, at: usize) -> bool {
        self.places[at].0 <= self.old_fibres
    }

    /// Whether a circuit has its place on an old fibre before the turn of a new one.
    fn is_before(&self, other: usize, at: usize) -> bool {
        let lower = self.circuits[other].number < self.circuits[at].number;
        self.old[other] || (lower && self.on_old_fibre(other))
    }

    /// Whether an old fibre spans a new circuit and has this wavelength free there at its turn.
    fn is_free(&self, at: usize, place: (u16, u16)) -> bool {
        let circuit = self.circuits[at];
        let fibre = self.fibres[usize::from(place.0) - 1];
        let clashes = |other: usize| {
            let c = self.circuits[other];
            let overlap = c.first <= circuit.last && circuit.first <= c.last;
            self.places[other] == place && overlap && self.is_before(other, at)
        };
        let spans = fibre.first <= circuit.first && circuit.last <= fibre.last;
        spans && !(0..self.circuits.len()).any(clashes)
    }

    /// The lowest old fibre that has a place for a new circuit at its turn, and the lowest wavelength there.
    fn lowest(&self, at: usize) -> Option<(u16, u16)> {
        let wavelengths = |fibre| (1..=self.line.w as u16).map(move |v| (fibre, v));
        let mut places = (1..=self.old_fibres).flat_map(wavelengths);
        places.find(|&place| self.is_free(at, place))
    }

    /// The new circuits.
    fn new_circuits(&self) -> impl Iterator<Item = usize> + '_ {
        (0..self.circuits.len()).filter(|&at| !self.old[at])
    }

    /// The new circuits that are on added fibres.
    fn left(&self) -> Vec<usize> {
        let new = self.new_circuits();
        new.filter(|&at| !self.on_old_fibre(at)).collect()
    }

    /// A new circuit is on an old fibre exactly if one has a place at its turn, and then it has the lowest.
    fn assert_turns(&self) {
        for at in self.new_circuits() {
            let place = self.on_old_fibre(at).then_some(self.places[at]);
            assert_eq!(self.lowest(at), place, "{:?}", self.circuits[at]);
        }
    }

    /// Those that are left have what they get in a plan of their own, on fibres that are numbered on.
    fn assert_left(&self) {
        let left = self.left();
        let file = left.iter().flat_map(|&at| self.circuits[at].to_bytes());
        let Line { n, w, grid } = self.line;
        let alone = ours(&Input::new([n, w, grid], file.collect())).0;
        let on = |number| self.old_fibres + number;
        let fibres = typed(&alone.fibres, Fibre::from_bytes);
        let numbered = fibres.into_iter().map(|f| Fibre {
            number: on(f.number),
            ..f
        });
        assert!(numbered.eq(self.fibres[usize::from(self.old_fibres)..].iter().copied()));
        let assignments = typed(&alone.assignments, Assignment::from_bytes);
        let places = assignments.iter().map(|a| (on(a.fibre), a.wavelength));
        assert!(places.eq(left.iter().map(|&at| self.places[at])));
    }

    /// What R-2 says of the new circuits holds; how many of them are on old fibres, and how many are left.
    fn assert_r_2(&self) -> [usize; 2] {
        self.assert_turns();
        self.assert_left();
        let left = self.left().len();
        [self.new_circuits().count() - left, left]
    }

    /// An assignment that was found is kept exactly if it breaks none of R-7's rules 4 to 7 and clashes with no kept one of lower number.
    fn assert_kept(&self, found: &[Assignment]) {
        for (at, a) in found.iter().enumerate() {
            let circuit = self.circuits[at];
            let place = (a.fibre, a.wavelength);
            let is_fibre = (1..=self.old_fibres).contains(&a.fibre);
            let is_wavelength = (1..=self.line.w).contains(&a.wavelength.into());
            let fibre = self.fibres.get(usize::from(a.fibre).wrapping_sub(1));
            let spans = fibre.is_some_and(|f| f.first <= circuit.first && circuit.last <= f.last);
            let sound = a.circuit == circuit.number && is_fibre && is_wavelength && spans;
            let clashes = |other: usize| {
                let c = self.circuits[other];
                let overlap = c.first <= circuit.last && circuit.first <= c.last;
                self.old[other]
                    && c.number < circuit.number
                    && self.places[other] == place
                    && overlap
            };
            let kept = sound && !(0..found.len()).any(clashes);
            assert_eq!(self.old[at], kept, "{a:?}");
            assert!(!kept || self.places[at] == place, "{a:?} is moved");
        }
    }
}

/// Does the work for 20,000 calls, and counts the circuits that it hands back: of each kind there are many.
fn counted<const N: usize>(work: impl Fn(usize) -> [usize; N] + Sync) {
    let met = [const { AtomicUsize::new(0) }; N];
    spread(20_000, |i| {
        for (met, many) in met.iter().zip(work(i)) {
            met.fetch_add(many, Ordering::Relaxed);
        }
    });
    let met = met.map(AtomicUsize::into_inner);
    println!("{met:?} circuits of each kind");
    assert!(met.into_iter().all(|many| many > 20_000));
}

#[test]
fn each_added_circuit_at_its_turn() {
    counted(|i| {
        let rng = &mut rng_of(71, i);
        let call = match i % 4000 {
            0 => added::full_size(rng),
            1..100 => added::accepted(MIDDLE, rng),
            100..400 => added::accepted(DENSE, rng),
            _ => added::accepted(SMALL, rng),
        };
        Whole::added(&call).assert_r_2()
    });
}

#[test]
fn each_mended_circuit_at_its_turn() {
    counted(|i| {
        let rng = &mut rng_of(72, i);
        let call = match i % 4000 {
            0 => registers::full_size(rng),
            1..100 => registers::accepted(MIDDLE, rng),
            100..400 => registers::accepted(DENSE, rng),
            _ => registers::accepted(SMALL, rng),
        };
        let whole = Whole::mended(&call);
        whole.assert_kept(&typed(&call.register.assignments, Assignment::from_bytes));
        let kept = whole.old.iter().filter(|old| **old).count();
        let [on_old, left] = whole.assert_r_2();
        [kept, on_old, left]
    });
}
