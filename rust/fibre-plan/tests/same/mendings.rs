//! The mendings of the library and those of the reference agree on every answer and every byte.
use crate::added::{self, far_counts, write_layers, MOST_OLD_FIBRES};
use crate::areas::{Answer, Seen};
use crate::draws::{self, rng_of, span, Digits, Size, DENSE, LARGE, MIDDLE, SMALL};
use crate::registers::{accepted, damage, damaged, full_size, sound, Mending};
use crate::spread;
use crate::submitted::{ours, sorted, typed, with_fibres, Submitted};
use fibre_plan::{Assignment, Circuit, Fibre};
use inputs::{encode, Rng};
use reference::{Finding, Line, Slip, MEND_SLIPS};
use std::sync::atomic::{AtomicUsize, Ordering};

/// Both give the same answer and leave the same bytes, which are handed on.
fn same(call: &Mending) -> Seen<4> {
    let (ours, theirs) = (call.by_library(), call.by_reference(Slip::None));
    assert!(
        ours == theirs,
        "{call:?}\nlibrary {:?}, reference {:?}",
        ours.answer,
        theirs.answer
    );
    ours
}

/// The lines stand by rising number, and each tells what stood in its circuit's record and what stands there now; every other record is
/// as it was.
fn assert_report(call: &Mending, seen: &Seen<4>) {
    let report = call.report(seen);
    assert!(report.is_sorted_by(|one, two| one.circuit < two.circuit));
    let [was, is] = [&call.register, &call.mended(seen)]
        .map(|plan| typed(&plan.assignments, Assignment::from_bytes));
    let circuits = typed(&call.register.circuits, Circuit::from_bytes);
    let mut lines = 0;
    for (at, circuit) in circuits.iter().enumerate() {
        match report.binary_search_by_key(&circuit.number, |line| line.circuit) {
            Err(_) => assert_eq!(was[at], is[at]),
            Ok(line) => {
                let line = report[line];
                let (found, given) = (was[at], is[at]);
                assert_eq!(
                    (line.found_fibre, line.found_wavelength),
                    (found.fibre, found.wavelength)
                );
                assert_eq!(
                    (line.given_fibre, line.given_wavelength),
                    (given.fibre, given.wavelength)
                );
                assert_eq!(given.circuit, circuit.number);
                lines += 1;
            }
        }
    }
    assert_eq!(lines, report.len());
}

/// The mended register is as it should be when it is mended again: nothing is left to do, unless it has more fibres than are mended.
fn assert_mended(call: &Mending, numbers: [usize; 3]) {
    let seen = call.by_library();
    if call.named > MOST_OLD_FIBRES {
        assert_eq!(seen.answer, Err((20, 0, 0)));
        return;
    }
    let [fibres, total, floor] = numbers;
    assert_eq!(seen.answer, Ok([fibres, total, floor, 0]));
    assert!(call.before()[..3] == seen.areas[..3], "{call:?}");
}

/// Both accept a call; the plan that is left gets yes, with its total and floor; it is handed on, with the number of lines.
fn mended(call: &Mending) -> (Submitted, usize) {
    let seen = same(call);
    let Ok([fibres, length, floor, lines]) = seen.answer else {
        panic!("{call:?}\n{:?}", seen.answer);
    };
    let plan = call.mended(&seen);
    assert!(plan
        .fibres
        .starts_with(&call.register.fibres[..8 * call.named]));
    assert_eq!(plan.by_library(), Ok(Finding::Yes { length, floor }));
    assert_report(call, &seen);
    assert_mended(&Mending::new(plan.clone()), [fibres, length, floor]);
    (plan, lines)
}

/// So many accepted calls of a size.
fn same_accepted(series: u64, count: usize, size: Size) {
    spread(count, |i| {
        mended(&accepted(size, &mut rng_of(series, i)));
    });
}

#[test]
fn random_small_mendings() {
    same_accepted(81, 150_000, SMALL);
}

#[test]
fn random_middle_mendings() {
    same_accepted(82, 6_000, MIDDLE);
}

#[test]
fn random_dense_mendings() {
    same_accepted(83, 6_000, DENSE);
}

#[test]
fn random_large_mendings() {
    same_accepted(84, 60, LARGE);
}

#[test]
fn mendings_at_the_limits() {
    spread(60, |i| {
        mended(&full_size(&mut rng_of(85, i)));
    });
}

#[test]
fn each_share_of_damage() {
    for (share, least) in [(0, 0), (1, 1), (5, 10), (50, 100), (100, 1000)] {
        let most = if share == 0 { 0 } else { usize::MAX };
        let lines = AtomicUsize::new(0);
        spread(4_000, |i| {
            let rng = &mut rng_of(86, i);
            let mut register = sound(if i % 100 == 0 { MIDDLE } else { SMALL }, rng);
            damage(&mut register, share, rng);
            lines.fetch_add(mended(&Mending::new(register)).1, Ordering::Relaxed);
        });
        let lines = lines.into_inner();
        println!("{share} % of the records damaged: {lines} lines");
        assert!((least..=most).contains(&lines), "{lines} lines");
    }
}

/// What an answer is counted as: number, and end, or place of 16, or for 20 whether there is a place.
fn kind(answer: Answer<4>) -> (u32, usize) {
    match answer {
        Ok(_) => (0, 0),
        Err((16, place, _)) => (16, place),
        Err((20, place, _)) => (20, place.min(1)),
        Err((number, _, end)) => (number, end as usize),
    }
}

#[test]
fn damaged_calls_meet_every_refusal() {
    let plain = [0, 1, 2, 3, 12, 4, 5, 7, 8, 10, 20, 23].map(|number| (number, 0));
    let others = [(6, 1), (6, 2), (6, 3), (16, 2), (20, 1)];
    let kinds = [&plain[..], &others].concat();
    let met: Vec<AtomicUsize> = kinds.iter().map(|_| AtomicUsize::new(0)).collect();
    spread(70_000, |i| {
        let found = kind(same(&damaged(&mut rng_of(87, i))).answer);
        let at = kinds.iter().position(|kind| *kind == found);
        met[at.unwrap()].fetch_add(1, Ordering::Relaxed);
    });
    for (kind, times) in kinds.iter().zip(met) {
        let times = times.into_inner();
        println!(
            "refusal, and end, place of 16 or whether 20 has one: {kind:?} was met {times} times"
        );
        assert!(times >= 100, "{kind:?} was met {times} times");
    }
}

#[test]
fn a_sound_register_stays() {
    spread(20_000, |i| {
        let rng = &mut rng_of(88, i);
        let register = match i % 1000 {
            0 => ours(&draws::full_size(rng)).0,
            1..50 => sound(MIDDLE, rng),
            _ => sound(SMALL, rng),
        };
        let Ok(Finding::Yes { length, floor }) = register.by_library() else {
            panic!("{register:?} is not sound");
        };
        let call = Mending::new(register);
        let numbers = [call.named, length, floor];
        assert_mended(&call, numbers);
        assert!(call.mended(&call.by_library()) == call.register);
    });
}

#[test]
fn lost_records_are_added_again() {
    spread(20_000, |i| {
        let rng = &mut rng_of(89, i);
        let addition = match i % 1000 {
            0 => added::full_size(rng),
            1..50 => added::accepted(MIDDLE, rng),
            _ => added::accepted(SMALL, rng),
        };
        let mut register = addition.old.clone();
        register.circuits = addition.both();
        register.assignments.resize(register.circuits.len(), 0);
        let call = Mending::new(register);
        let whole = addition.whole(&addition.by_library());
        let seen = call.by_library();
        assert!(call.mended(&seen) == whole, "{addition:?}");
        assert_eq!(call.report(&seen).len(), addition.added.len() / 8);
    });
}

#[test]
fn room_behind_what_is_written_is_untouched() {
    spread(20_000, |i| {
        let rng = &mut rng_of(90, i);
        let mut call = accepted(if i % 100 == 0 { MIDDLE } else { SMALL }, rng);
        for area in [0, 2, 3] {
            call.lengths[area] += rng.within(0, 2000);
        }
        let (before, seen) = (call.before(), same(&call));
        let [fibres, .., lines] = seen.answer.unwrap();
        let many = call.register.circuits.len() / 8;
        let zeroed = 4 * call.register.line.n + 4 * many;
        let used = [8 * fibres, 8 * many, 12 * lines, zeroed];
        for (area, (lent, used)) in call.lent().into_iter().zip(used).enumerate() {
            let behind = lent.start + used..;
            assert!(before[area][behind.clone()] == seen.areas[area][behind]);
            assert!(before[area][..lent.start] == seen.areas[area][..lent.start]);
        }
        let work = &seen.areas[3][call.lent()[3].clone()];
        assert!(work[..zeroed].iter().all(|&byte| byte == 0));
    });
}

#[test]
fn the_file_is_only_read_and_nothing_behind_it() {
    spread(10_000, |i| {
        let rng = &mut rng_of(91, i);
        let call = match i % 100 {
            0 => full_size(rng),
            1..50 => accepted(SMALL, rng),
            _ => damaged(rng),
        };
        assert!(call.by_library_on_pages() == call.by_library(), "{call:?}");
    });
}

#[test]
fn counts_near_the_machine_word() {
    spread(2_000, |i| {
        let rng = &mut rng_of(92, i);
        let mut call = match i % 50 {
            0 => full_size(rng),
            _ => accepted(SMALL, rng),
        };
        for named in far_counts(call.named, call.register.circuits.len() / 8) {
            call.named = named;
            assert_eq!(same(&call).answer, Err((8, 0, 0)), "{named}");
        }
    });
}

#[test]
fn counts_that_are_the_right_ones_if_they_are_cut() {
    spread(200, |i| {
        let call = accepted(SMALL, &mut rng_of(93, i));
        for more in [2048, 4096, 65_536] {
            let mut call = call.clone();
            call.named += more;
            call.lengths[0] += 8 * more;
            let too_many = call.named > MOST_OLD_FIBRES;
            let answer = same(&call).answer;
            assert!(!too_many || answer == Err((20, 0, 0)), "{answer:?}");
        }
    });
}

#[test]
fn each_named_count_and_each_length() {
    spread(3_000, |i| {
        let rng = &mut rng_of(94, i);
        let mut call = accepted(SMALL, rng);
        call.lengths[0] += 8 * rng.within(0, 3);
        let actual = call.clone();
        for named in 0..actual.named + 5 {
            call.named = named;
            same(&call);
        }
        call.named = actual.named;
        for bytes in 0..actual.lengths[1] + 18 {
            call.lengths[1] = bytes;
            let refused = (bytes != actual.lengths[1]).then_some((16, 2, 0));
            assert_eq!(same(&call).answer.err(), refused);
        }
        call.lengths[1] = actual.lengths[1];
        let needed = 12 * (call.register.circuits.len() / 8);
        for bytes in needed.saturating_sub(14)..needed + 3 {
            call.lengths[2] = bytes;
            let refused = (bytes < needed).then_some((23, 0, 0));
            assert_eq!(same(&call).answer.err(), refused);
        }
    });
}

#[test]
fn old_layers_do_not_matter() {
    spread(10_000, |i| {
        let rng = &mut rng_of(95, i);
        let call = accepted(SMALL, rng);
        let [one, two] = [0, 1].map(|_| {
            let mut call = call.clone();
            write_layers(&mut call.register.fibres, || rng.bits() as u16 as usize);
            mended(&call).0
        });
        assert_eq!(one.assignments, two.assignments);
        let old = 8 * call.named;
        assert_eq!(one.fibres[old..], two.fibres[old..]);
    });
}

/// The same call with the circuits and their assignments in another order.
fn shuffled(call: &Mending, rng: &mut Rng) -> Mending {
    let mut other = call.clone();
    let Submitted {
        circuits,
        assignments,
        ..
    } = &call.register;
    let records = circuits.chunks_exact(8).zip(assignments.chunks_exact(8));
    let mut pairs: Vec<_> = records.collect();
    rng.shuffle(&mut pairs);
    let (circuits, assignments): (Vec<_>, Vec<_>) = pairs.into_iter().unzip();
    other.register.circuits = circuits.concat();
    other.register.assignments = assignments.concat();
    other
}

#[test]
fn file_order_does_not_matter() {
    spread(10_000, |i| {
        let rng = &mut rng_of(96, i);
        let call = accepted(if i % 100 == 0 { MIDDLE } else { SMALL }, rng);
        let other = shuffled(&call, rng);
        let seen = [&call, &other].map(Mending::by_library);
        let [one, two] = [call.mended(&seen[0]), other.mended(&seen[1])];
        assert_eq!(one.fibres, two.fibres);
        // A circuit has one record in each list, and numbers differ: so each has the same one.
        assert_eq!(sorted(&one.assignments), sorted(&two.assignments));
        assert_eq!(call.report(&seen[0]), other.report(&seen[1]));
    });
}

/// Of all registers of up to two circuits and up to two fibres on two links, with one wavelength or two, the one that has a number. The
/// circuits rise or fall; an assignment names its circuit or another, and any fibre and wavelength up to one too many.
fn register_of([circuits, fibres]: [usize; 2], code: usize) -> Submitted {
    let mut digits = Digits(code);
    let (n, w, grid) = (2, 1 + usize::from(digits.next(2)), 1);
    let numbers = [[2, 4], [4, 2]][usize::from(digits.next(2))];
    let circuit = |at: usize, digits: &mut Digits| {
        let (first, last) = span(digits);
        (numbers[at], first, last)
    };
    let list: Vec<_> = (0..circuits).map(|at| circuit(at, &mut digits)).collect();
    let fibre = |number, digits: &mut Digits| {
        let ((first, last), layer) = (span(digits), 3);
        Fibre {
            number,
            first,
            last,
            layer,
        }
    };
    let fibres = (1..=fibres as u16).flat_map(|number| fibre(number, &mut digits).to_bytes());
    let fibres: Vec<u8> = fibres.collect();
    let assignment = |at: usize, digits: &mut Digits| {
        let named = (at + usize::from(digits.next(2))) % 2;
        let (fibre, wavelength) = (digits.next(4), digits.next(4));
        Assignment {
            circuit: numbers[named],
            fibre,
            wavelength,
        }
    };
    let assignments = (0..circuits).flat_map(|at| assignment(at, &mut digits).to_bytes());
    Submitted {
        line: Line { n, w, grid },
        circuits: encode(&list),
        fibres,
        assignments: assignments.collect(),
    }
}

#[test]
fn every_small_register() {
    for code in 0..9 {
        let many = [code % 3, code / 3];
        let [circuits, fibres] = many.map(|many| many as u32);
        let calls = 4 * (3 * 32_usize).pow(circuits) * 3_usize.pow(fibres);
        spread(calls, |i| {
            let answer = same(&Mending::new(register_of(many, i))).answer;
            assert!(answer.is_ok());
        });
    }
}

/// A register of so many circuits on one link, whose records are lost, and so many dark fibres.
fn lost(circuits: usize, fibres: usize, link: u16) -> Submitted {
    let list: Vec<_> = (1..=circuits as u32).map(|i| (i, link, link)).collect();
    let register = Submitted {
        line: Line {
            n: 2,
            w: 1,
            grid: 1,
        },
        circuits: encode(&list),
        fibres: vec![],
        assignments: vec![0; 8 * circuits],
    };
    with_fibres(register, fibres)
}

#[test]
fn circuits_up_to_the_limit_and_past_it() {
    for fibres in [0, 1, 2048] {
        for circuits in [2047, 2048, 2049] {
            let call = Mending::new(lost(circuits, fibres, 1));
            let answer = same(&call).answer;
            assert_eq!(answer.err(), (circuits > 2048).then_some((2, 0, 0)));
        }
    }
}

#[test]
fn fibres_up_to_the_limit_and_past_it() {
    for circuits in [0, 1, 2048] {
        for fibres in [2047, 2048, 2049, 4096, 4097] {
            let call = Mending::new(lost(circuits, fibres, 2));
            let refused = (fibres > MOST_OLD_FIBRES).then_some((20, 0, 0));
            let answer = same(&call).answer;
            assert_eq!(
                answer.err(),
                refused,
                "{circuits} circuits, {fibres} fibres"
            );
            let whole = answer.map(|[fibres, .., lines]| [fibres, lines]);
            assert!(refused.is_some() || whole == Ok([fibres + circuits, circuits]));
        }
    }
}

#[test]
fn the_most_fibres_that_a_mending_can_write() {
    // `mended` sees that it cannot be mended again.
    let (plan, lines) = mended(&Mending::new(lost(2048, 2048, 2)));
    assert_eq!((plan.fibres.len() / 8, lines), (4096, 2048));
}

#[test]
fn the_last_fibre_that_is_faulty() {
    for place in [1, 2, 31, 32, 33, 1024, 2047, 2048] {
        for field in [0, 2, 4] {
            let mut register = lost(7, 2048, 1);
            draws::set_half(&mut register.fibres, 8 * (place - 1) + field, 0);
            let answer = same(&Mending::new(register)).answer;
            assert_eq!(answer, Err((20, place, 0)));
        }
    }
}

#[test]
fn each_slip_with_a_mending_is_noticed() {
    for slip in MEND_SLIPS {
        let differ = AtomicUsize::new(0);
        spread(10_000, |i| {
            let call = match i % 2 {
                0 => accepted(SMALL, &mut rng_of(81, i)),
                _ => damaged(&mut rng_of(87, i)),
            };
            let differs = call.by_library() != call.by_reference(slip);
            differ.fetch_add(differs.into(), Ordering::Relaxed);
        });
        let differ = differ.into_inner();
        println!("{slip:?}: noticed on {differ} of 10000 calls");
        assert!(differ > 0, "{slip:?} was not noticed");
    }
}
