//! The check of the library and that of the reference agree on every plan.
use crate::areas::Input;
use crate::draws::{accepted, full_size, rng_of, Digits, Size, LARGE, MIDDLE, SMALL};
use crate::spread;
use crate::submitted::{
    contractors, crowded, damage, damaged, one_fibre_each, ours, ours_with_some_moved, valid,
    with_fibres, Answer, Submitted, MOST_ASSIGNMENTS, MOST_FIBRES,
};
use fibre_plan::{Assignment, Fibre};
use inputs::{encode, Circuit, Numbers, Rng};
use reference::{Finding, Line, Slip, CHECK_SLIPS};
use std::sync::atomic::{AtomicUsize, Ordering};

/// Both say the same, which is handed on.
fn same(plan: &Submitted) -> Answer {
    let (ours, theirs) = (plan.by_library(), plan.by_reference(Slip::None));
    assert!(
        ours == theirs,
        "{plan:?}\nlibrary {ours:?}, reference {theirs:?}"
    );
    ours
}

/// Both say yes.
fn yes(plan: &Submitted) {
    let answer = same(plan);
    let yes = matches!(answer, Ok(Finding::Yes { .. }));
    assert!(yes, "{plan:?}: {answer:?}");
}

/// So many plans of ours get yes, with their total and floor.
fn ours_get_yes(count: usize, series: u64, draw: impl Fn(&mut Rng) -> Input + Sync) {
    spread(count, |i| {
        let (plan, found) = ours(&draw(&mut rng_of(series, i)));
        assert_eq!(same(&plan), Ok(found), "{plan:?}");
    });
}

#[test]
fn our_small_plans_get_yes() {
    ours_get_yes(100_000, 11, |rng| accepted(SMALL, rng));
}

#[test]
fn our_larger_plans_get_yes() {
    ours_get_yes(5_000, 12, |rng| accepted(MIDDLE, rng));
    ours_get_yes(100, 13, |rng| accepted(LARGE, rng));
}

#[test]
fn our_plans_at_the_limits_get_yes() {
    ours_get_yes(120, 14, full_size);
    for (grid, most) in [(1, 40), (2, 80)] {
        ours_get_yes(20, 15, |rng| {
            let mut input = full_size(rng).on_grid(grid);
            input.line.w = most;
            input
        });
    }
}

/// So many valid plans of others get yes.
fn contractors_get_yes(count: usize, series: u64, size: Size) {
    spread(count, |i| {
        let rng = &mut rng_of(series, i);
        let input = accepted(size, rng);
        yes(&contractors(&input, rng));
    });
}

#[test]
fn valid_plans_of_others_get_yes() {
    contractors_get_yes(60_000, 21, SMALL);
    contractors_get_yes(2_000, 22, MIDDLE);
}

#[test]
fn valid_plans_of_others_at_the_limits_get_yes() {
    let moved = AtomicUsize::new(0);
    spread(30, |i| {
        let rng = &mut rng_of(23, i);
        let input = full_size(rng);
        yes(&one_fibre_each(&input, rng));
        yes(&crowded(&input, rng));
        let plan = ours_with_some_moved(&input, rng);
        yes(&plan);
        moved.fetch_add((plan != ours(&input).0).into(), Ordering::Relaxed);
    });
    // Where all wavelengths are in use everywhere, no circuit can be moved.
    assert!(moved.into_inner() >= 10);
}

/// What an answer is counted as: rule, number, and place of 16 or end.
fn kind(answer: Answer) -> (usize, usize, usize) {
    match answer {
        Ok(Finding::Yes { .. }) => (0, 0, 0),
        Ok(Finding::No { rule, .. }) => (rule as usize, 0, 0),
        Err((16, place, _)) => (0, 16, place),
        Err((number, _, end)) => (0, number as usize, end as usize),
    }
}

/// All that an answer can be counted as.
fn kinds() -> Vec<(usize, usize, usize)> {
    let rules = (0..=8).map(|rule| (rule, 0, 0));
    let refusals = [1, 2, 3, 4, 5, 7, 12].map(|number| (0, number, 0));
    let ends = [1, 2, 3].map(|end| (0, 6, end));
    let lists = [1, 2].map(|place| (0, 16, place));
    rules.chain(refusals).chain(ends).chain(lists).collect()
}

#[test]
fn damaged_plans_meet_every_rule_and_every_refusal() {
    let kinds = kinds();
    let met: Vec<AtomicUsize> = kinds.iter().map(|_| AtomicUsize::new(0)).collect();
    spread(100_000, |i| {
        let found = kind(same(&damaged(&mut rng_of(31, i))));
        let at = kinds.iter().position(|kind| *kind == found);
        met[at.unwrap()].fetch_add(1, Ordering::Relaxed);
    });
    for (kind, times) in kinds.iter().zip(met) {
        let times = times.into_inner();
        println!("rule, refusal, place of 16 or end: {kind:?} was met {times} times");
        assert!(times >= 100, "{kind:?} was met {times} times");
    }
}

#[test]
fn larger_damaged_plans() {
    spread(5_000, |i| {
        let rng = &mut rng_of(32, i);
        let mut plan = valid(MIDDLE, rng);
        damage(&mut plan, rng);
        let _ = same(&plan);
    });
    spread(200, |i| {
        let rng = &mut rng_of(33, i);
        let (mut plan, _) = ours(&full_size(rng));
        damage(&mut plan, rng);
        let _ = same(&plan);
    });
}

#[test]
fn nothing_is_written_and_nothing_is_read_behind_the_lists() {
    spread(10_000, |i| {
        let rng = &mut rng_of(34, i);
        let plan = match i % 100 {
            0 => ours(&full_size(rng)).0,
            1..50 => valid(SMALL, rng),
            _ => damaged(rng),
        };
        assert_eq!(plan.by_library_on_pages(), plan.by_library(), "{plan:?}");
    });
}

#[test]
fn layers_do_not_matter() {
    spread(10_000, |i| {
        let rng = &mut rng_of(35, i);
        let plan = damaged(rng);
        let mut other = plan.clone();
        for record in other.fibres.chunks_exact_mut(8) {
            rng.fill(&mut record[6..]);
        }
        assert_eq!(plan.by_library(), other.by_library(), "{plan:?}");
    });
}

/// How many circuits, fibres and assignments there are in the plans of `plan_of`.
const SMALL_RECORDS: [usize; 3] = [3, 18, 24];

/// Of all plans of so many records on two links with one wavelength, the one that has a number.
fn plan_of(many: [usize; 3], code: usize) -> Submitted {
    let mut digits = Digits(code);
    let [circuits, fibres, assignments] = many;
    let circuit = |number| {
        let (first, last) = [(1, 1), (1, 2), (2, 2)][usize::from(digits.next(3))];
        (number as u32 + 1, first, last)
    };
    let circuits: Vec<Circuit> = (0..circuits).map(circuit).collect();
    let fibre = |_| Fibre {
        number: 1 + digits.next(2),
        first: digits.next(3),
        last: 1 + digits.next(3),
        layer: 0,
    };
    let fibres: Vec<Fibre> = (0..fibres).map(fibre).collect();
    let assignment = |_| Assignment {
        circuit: 1 + u32::from(digits.next(2)),
        fibre: digits.next(4),
        wavelength: digits.next(3),
    };
    let assignments: Vec<Assignment> = (0..assignments).map(assignment).collect();
    Submitted {
        line: Line {
            n: 2,
            w: 1,
            grid: 1,
        },
        circuits: encode(&circuits),
        fibres: fibres.iter().flat_map(|f| f.to_bytes()).collect(),
        assignments: assignments.iter().flat_map(|a| a.to_bytes()).collect(),
    }
}

#[test]
fn every_small_plan() {
    for code in 0..27 {
        let many = [code % 3, code / 3 % 3, code / 9];
        let powers = SMALL_RECORDS.iter().zip(many);
        let plans = powers.map(|(base, many)| base.pow(many as u32)).product();
        spread(plans, |i| {
            let _ = same(&plan_of(many, i));
        });
    }
}

/// Our plan of so many circuits on one link, all of which fit on each fibre that has so many wavelengths.
fn on_one_link(circuits: usize, wavelengths: usize, grid: usize) -> Submitted {
    let number = |i| (Numbers::Shuffled.of(i), 1, 1);
    let list: Vec<Circuit> = (0..circuits).map(number).collect();
    ours(&Input::new([1, wavelengths, grid], encode(&list))).0
}

#[test]
fn fibres_up_to_the_limit_and_past_it() {
    for circuits in [0, 1, 2048] {
        let plan = on_one_link(circuits, 80, 2);
        let floor = circuits.div_ceil(80);
        let length = MOST_FIBRES;
        let full = with_fibres(plan.clone(), MOST_FIBRES);
        assert_eq!(same(&full), Ok(Finding::Yes { length, floor }));
        let past = with_fibres(plan, MOST_FIBRES + 1);
        assert_eq!(same(&past), Err((16, 1, 0)));
        for bytes in 1..8 {
            let mut part = full.clone();
            part.fibres.truncate(8 * MOST_FIBRES - bytes);
            assert_eq!(same(&part), Err((16, 1, 0)));
        }
        let mut last = full.clone();
        last.fibres[8 * MOST_FIBRES - 8] ^= 1;
        let place = MOST_FIBRES;
        assert_eq!(same(&last), Ok(Finding::No { rule: 1, place }));
    }
}

#[test]
fn the_last_of_4096_fibres_carries() {
    let mut plan = with_fibres(on_one_link(2048, 40, 1), MOST_FIBRES);
    for (number, grown) in [
        (4096, Ok(())),
        (4097, Err(5)),
        (0, Err(5)),
        (65_535, Err(5)),
    ] {
        crate::draws::set_half(&mut plan.assignments, 8 * 2047 + 4, number);
        let found = same(&plan).map(|found| match found {
            Finding::Yes { .. } => Ok(()),
            Finding::No { rule, place } => {
                assert_eq!(place, 2048);
                Err(rule)
            }
        });
        assert_eq!(found, Ok(grown));
    }
}

#[test]
fn assignments_up_to_the_limit_and_past_it() {
    let full = on_one_link(2048, 80, 2);
    yes(&full);
    assert_eq!(full.assignments.len(), 8 * MOST_ASSIGNMENTS);
    for circuits in [0, 1, 2047, 2048] {
        let mut plan = on_one_link(circuits, 80, 2);
        for (bytes, refused) in [(0, false), (1, true), (7, true), (8, true), (9, true)] {
            plan.assignments.clone_from(&full.assignments);
            plan.assignments.resize(8 * MOST_ASSIGNMENTS + bytes, 1);
            let answer = same(&plan);
            match (refused, circuits) {
                (true, _) => assert_eq!(answer, Err((16, 2, 0))),
                (_, 2048) => yes(&plan),
                _ => assert_eq!(answer, Ok(Finding::No { rule: 3, place: 0 })),
            }
        }
    }
}

#[test]
fn both_lists_too_long() {
    let mut plan = with_fibres(on_one_link(1, 1, 1), MOST_FIBRES + 1);
    plan.assignments.resize(8 * MOST_ASSIGNMENTS + 8, 0);
    assert_eq!(same(&plan), Err((16, 1, 0)));
    plan.circuits.fill(0);
    assert_eq!(same(&plan), Err((5, 1, 0)));
}

#[test]
fn clashes_far_apart() {
    let rng = &mut rng_of(36, 0);
    let list: Vec<Circuit> = (0..2048).map(|i| (Numbers::Shuffled.of(i), 1, 2)).collect();
    let sound = one_fibre_each(&Input::new([2, 40, 1], encode(&list)), rng);
    for distance in [1, 2, 3, 1000, 1024, 2047] {
        for at in [distance, 1024.max(distance), 2047] {
            let mut plan = sound.clone();
            let (one, two) = (8 * (at - distance), 8 * at);
            plan.assignments.copy_within(one + 4..one + 8, two + 4);
            let answer = same(&plan);
            // The fibre of the one spans links 1 and 2, as all do.
            let place = at + 1;
            assert_eq!(answer, Ok(Finding::No { rule: 8, place }));
        }
    }
}

#[test]
fn of_many_clashes_the_first() {
    spread(200, |i| {
        let rng = &mut rng_of(37, i);
        let (mut plan, _) = ours(&full_size(rng));
        let count = plan.assignments.len() / 8;
        for _ in 0..rng.within(2, 40) {
            let [one, two] = [(); 2].map(|()| 8 * rng.within(count / 2, count - 1));
            plan.assignments.copy_within(one + 4..one + 8, two + 4);
        }
        let _ = same(&plan);
    });
}

#[test]
fn each_slip_with_the_check_is_noticed() {
    for slip in CHECK_SLIPS {
        let differ = AtomicUsize::new(0);
        spread(10_000, |i| {
            let plan = damaged(&mut rng_of(31, i));
            let differs = plan.by_library() != plan.by_reference(slip);
            differ.fetch_add(differs.into(), Ordering::Relaxed);
        });
        let differ = differ.into_inner();
        println!("{slip:?}: noticed on {differ} of 10000 plans");
        assert!(differ > 0, "{slip:?} was not noticed");
    }
}
