//! What R-1 promises of its plan, on random circuits, beside the plan of 01 from which it is made.
use inputs::{Numbers, Rng, FAMILIES};
use reference::{lit, needs, paired, Circuit, Plan, Slip};

/// A line, its circuits, what each link needs, and both plans.
struct Planned {
    n: usize,
    w: usize,
    circuits: Vec<Circuit>,
    c: Vec<usize>,
    old: Plan,
    new: Plan,
}

impl Planned {
    fn new(n: usize, w: usize, circuits: Vec<Circuit>) -> Self {
        let c = needs(n, w, &circuits, Slip::None);
        let old = paired(n, w, &circuits, &c, Slip::None);
        let new = lit(n, &circuits, &old, Slip::None);
        Self {
            n,
            w,
            circuits,
            c,
            old,
            new,
        }
    }

    /// A random line with at most so many links, wavelengths and circuits.
    fn random(seed: u64, [links, wavelengths, circuits]: [usize; 3]) -> Self {
        let rng = &mut Rng::new(seed);
        let (n, w) = (rng.within(1, links), rng.within(1, wavelengths));
        let many = rng.within(0, circuits);
        let mut list = FAMILIES[rng.within(0, 5)].circuits(many, n, Numbers::Shuffled, rng);
        rng.shuffle(&mut list);
        let typed = |&(number, first, last): &inputs::Circuit| Circuit {
            number,
            first: first.into(),
            last: last.into(),
        };
        Self::new(n, w, list.iter().map(typed).collect())
    }

    /// The circuits that a list of places has on a fibre.
    fn riders<'a>(&'a self, plan: &'a Plan, number: usize) -> impl Iterator<Item = usize> + 'a {
        (0..self.circuits.len()).filter(move |&j| plan.places[j].fibre == number)
    }

    /// Whether a circuit of a fibre uses a link.
    fn uses(&self, plan: &Plan, number: usize, link: usize) -> bool {
        let mut riders = self.riders(plan, number).map(|j| &self.circuits[j]);
        riders.any(|c| c.first <= link && link <= c.last)
    }

    fn assert_valid(&self) {
        for (j, (circuit, place)) in self.circuits.iter().zip(&self.new.places).enumerate() {
            let span = &self.new.fibres[place.fibre - 1].span;
            assert!(span.contains(&circuit.first) && span.contains(&circuit.last));
            assert!((1..=self.w).contains(&place.wavelength));
            for (other, at) in self.circuits.iter().zip(&self.new.places).take(j) {
                let overlap = circuit.first <= other.last && other.first <= circuit.last;
                assert!(!overlap || at != place, "{circuit:?} and {other:?} clash");
            }
        }
    }

    /// Wavelengths and layers stay, and each circuit's new fibre lies within its old one.
    fn assert_kept(&self) {
        for (was, is) in self.old.places.iter().zip(&self.new.places) {
            let [old, new] = [(&self.old, was), (&self.new, is)]
                .map(|(plan, place)| &plan.fibres[place.fibre - 1]);
            assert_eq!((was.wavelength, old.layer), (is.wavelength, new.layer));
            assert!(old.span.contains(new.span.start()) && old.span.contains(new.span.end()));
        }
    }

    /// Each link of each fibre is used on it, and those beside it are not used on its old fibre.
    fn assert_maximal_runs(&self) {
        for (at, fibre) in self.new.fibres.iter().enumerate() {
            let mut links = fibre.span.clone();
            assert!(
                links.all(|i| self.uses(&self.new, at + 1, i)),
                "a dark link"
            );
            let old = self.old_of(at + 1);
            for beside in [fibre.span.start() - 1, fibre.span.end() + 1] {
                assert!(!self.uses(&self.old, old, beside), "a run is not maximal");
            }
        }
    }

    /// The number of the old fibre of a new one.
    fn old_of(&self, number: usize) -> usize {
        let rider = self.riders(&self.new, number).next();
        self.old.places[rider.expect("a dark fibre")].fibre
    }

    fn assert_numbered_by_old_fibre_then_left_end(&self) {
        let fibres = self.new.fibres.iter().enumerate();
        let keys: Vec<_> = fibres
            .map(|(at, fibre)| (self.old_of(at + 1), *fibre.span.start()))
            .collect();
        assert!(keys.is_sorted_by(|one, two| one < two), "{keys:?}");
    }

    /// Fibres are no more than circuits, and over each link and in length at most twice what is needed.
    fn assert_bounds(&self) {
        assert!(self.new.fibres.len() <= self.circuits.len());
        let over = |i: usize| {
            self.new
                .fibres
                .iter()
                .filter(|f| f.span.contains(&i))
                .count()
        };
        assert!((1..=self.n).all(|i| over(i) <= 2 * self.c[i]));
        let total: usize = (1..=self.n).map(over).sum();
        assert!(total <= 2 * self.c.iter().sum::<usize>());
    }

    /// In another file order there are the same fibres, and each circuit has the same place.
    fn assert_order_does_not_matter(&self, seed: u64) {
        let mut order: Vec<usize> = (0..self.circuits.len()).collect();
        Rng::new(seed).shuffle(&mut order);
        let circuits = order.iter().map(|&j| self.circuits[j]).collect();
        let other = Self::new(self.n, self.w, circuits);
        assert_eq!(self.new.fibres, other.new.fibres);
        let places: Vec<_> = order.iter().map(|&j| self.new.places[j]).collect();
        assert_eq!(places, other.new.places);
    }
}

/// What holds of every plan, on so many random lines.
fn hold(seeds: std::ops::Range<u64>, most: [usize; 3]) {
    for seed in seeds {
        let planned = Planned::random(seed, most);
        planned.assert_valid();
        planned.assert_kept();
        planned.assert_maximal_runs();
        planned.assert_numbered_by_old_fibre_then_left_end();
        planned.assert_bounds();
        planned.assert_order_does_not_matter(seed);
    }
}

#[test]
fn small_lines() {
    hold(0..50_000, [12, 4, 14]);
}

#[test]
fn middle_lines() {
    hold(0..2_000, [100, 80, 120]);
}

#[test]
fn large_lines() {
    hold(0..20, [512, 80, 600]);
}
