//! The additions of the library and those of the reference agree on every answer and every byte.
use crate::added::{
    accepted, column, damaged, far_counts, full_size, other_line, write_layers, Addition,
    MOST_OLD_FIBRES,
};
use crate::areas::{Answer, Input, Seen};
use crate::draws::{self, rng_of, span, Digits, Size, DENSE, LARGE, MIDDLE, SMALL};
use crate::spread;
use crate::submitted::{contractors, ours, sorted, with_fibres, Submitted};
use fibre_plan::{Assignment, Fibre};
use inputs::{encode, Circuit, Numbers, Rng};
use reference::{Finding, Line, Slip, ADD_SLIPS};
use std::ops::Range;
use std::sync::atomic::{AtomicUsize, Ordering};

/// Both give the same answer and leave the same bytes, which are handed on.
fn same(call: &Addition) -> Seen {
    let (ours, theirs) = (call.by_library(), call.by_reference(Slip::None));
    assert!(
        ours == theirs,
        "{call:?}\nlibrary {:?}, reference {:?}",
        ours.answer,
        theirs.answer
    );
    ours
}

/// Both accept a call, and the plan that is left gets yes, with its total and floor; it is handed on.
fn added(call: &Addition) -> Submitted {
    let seen = same(call);
    let Ok([fibres, length, floor]) = seen.answer else {
        panic!("{call:?}\n{:?}", seen.answer);
    };
    let whole = call.whole(&seen);
    assert_eq!(whole.fibres.len(), 8 * fibres);
    let (f, a) = (&call.old.fibres, &call.old.assignments);
    assert!(whole.fibres.starts_with(f) && whole.assignments.starts_with(a));
    assert_eq!(whole.by_library(), Ok(Finding::Yes { length, floor }));
    whole
}

/// So many accepted calls of a size.
fn same_accepted(series: u64, count: usize, size: Size) {
    spread(count, |i| {
        added(&accepted(size, &mut rng_of(series, i)));
    });
}

#[test]
fn random_small_additions() {
    same_accepted(41, 200_000, SMALL);
}

#[test]
fn random_middle_additions() {
    same_accepted(42, 10_000, MIDDLE);
}

#[test]
fn random_dense_additions() {
    same_accepted(47, 10_000, DENSE);
}

#[test]
fn random_large_additions() {
    same_accepted(43, 100, LARGE);
}

#[test]
fn additions_at_the_limits() {
    spread(60, |i| {
        added(&full_size(&mut rng_of(44, i)));
    });
}

/// What an answer is counted as: number and end of a refusal.
fn kind(answer: Answer) -> (u32, u32) {
    answer.map_or_else(|(number, _, end)| (number, end), |_| (0, 0))
}

#[test]
fn damaged_additions_meet_every_refusal() {
    let plain = [0, 1, 2, 3, 12, 4, 5, 7, 8, 9, 10, 13, 14].map(|number| (number, 0));
    let kinds = [&plain[..], &[(6, 1), (6, 2), (6, 3)]].concat();
    let met: Vec<[AtomicUsize; 2]> = kinds.iter().map(|_| Default::default()).collect();
    spread(100_000, |i| {
        let call = damaged(&mut rng_of(45, i));
        let answer = same(&call).answer;
        let at = kinds.iter().position(|met| *met == kind(answer));
        let place = answer.err().map_or(0, |(_, place, _)| place);
        let in_new_file = place > call.old.circuits.len() / 8;
        let times = &met[at.unwrap()][usize::from(in_new_file)];
        times.fetch_add(1, Ordering::Relaxed);
    });
    for ((number, end), times) in kinds.into_iter().zip(met) {
        let [old, new] = times.map(AtomicUsize::into_inner);
        println!("refusal {number} with end {end}: {old} times, and {new} times in the new file");
        let places = match number {
            5..=7 => [true, true],
            14 => [false, true],
            _ => [true, false],
        };
        for (given, times) in places.into_iter().zip([old, new]) {
            let right = if given { times >= 100 } else { times == 0 };
            assert!(right, "refusal {number} was met {old} and {new} times");
        }
    }
}

#[test]
fn larger_damaged_additions() {
    spread(100, |i| {
        let rng = &mut rng_of(46, i);
        let mut call = full_size(rng);
        let [old, new] = [&call.old.circuits, &call.added].map(|file| file.len() / 8);
        match rng.within(0, 3) {
            0 if old > 0 => {
                let at = 8 * rng.within(0, old - 1);
                let other = 8 * rng.within(0, old - 1);
                let list = &mut call.old.assignments;
                list.copy_within(other + 4..other + 8, at + 4);
            }
            1 if old > 0 && new > 0 => {
                let at = 8 * rng.within(0, new - 1);
                let from = 8 * rng.within(0, old - 1);
                call.added[at..at + 4].copy_from_slice(&call.old.circuits[from..from + 4]);
            }
            2 if new > 1 => {
                let at = 8 * rng.within(1, new - 1);
                call.added.copy_within(0..4, at);
            }
            _ => call.old.line.w = rng.within(1, call.old.line.w),
        }
        same(&call);
    });
}

/// How many fibres stand over each link, and how many circuits use it; index 0 is no link.
fn over(links: usize, list: &[u8], [first, last]: [usize; 2]) -> Vec<usize> {
    let mut over = vec![0; links + 1];
    for (a, b) in column(list, first).zip(column(list, last)) {
        over[a..=b].iter_mut().for_each(|many| *many += 1);
    }
    over
}

/// After so many additions to a plan of R-1, with w the least that was given, no link has more fibres than R-2 says.
fn assert_bound(plan: &Submitted, additions: usize, w: usize) {
    let loads = over(plan.line.n, &plan.circuits, [4, 6]);
    let fibres = over(plan.line.n, &plan.fibres, [2, 4]);
    for (fibres, load) in fibres.into_iter().zip(loads) {
        assert!(fibres <= 2 * load.div_ceil(w) + 2 * additions, "{plan:?}");
    }
}

/// One to eight additions, by turns on lines of up to a size, to our plan or to somebody else's; how many there were.
fn chain(size: Size, rng: &mut Rng) -> usize {
    let additions = rng.within(1, 8);
    let mut list = draws::circuits(size.links, size.circuits, rng);
    let part = |list: &mut Vec<Circuit>, links: usize, rng: &mut Rng| {
        let most = list.len() / 2;
        let rest = list.split_off(rng.within(0, most));
        let mut part = std::mem::replace(list, rest);
        // Ends that lie on the line.
        let onto = |link: u16| (usize::from(link - 1) % links + 1) as u16;
        for (_, first, last) in &mut part {
            let ends = [onto(*first), onto(*last)];
            (*first, *last) = (ends[0].min(ends[1]), ends[0].max(ends[1]));
        }
        encode(&part)
    };
    let links = rng.within(1, size.links);
    let (grid, mut least) = inputs::grid_and_wavelengths(size.wavelengths, rng);
    let input = Input::new([links, least, grid], part(&mut list, links, rng));
    let is_ours = rng.once_in(2);
    let mut plan = match is_ours {
        true => ours(&input).0,
        false => contractors(&input, rng),
    };
    for k in 1..=additions {
        if rng.once_in(2) {
            plan.line = other_line(&plan, size, rng);
        }
        let line = plan.line;
        least = least.min(line.w);
        let call = Addition::new(plan, part(&mut list, line.n, rng));
        plan = added(&call);
        if is_ours {
            assert_bound(&plan, k, least);
        }
    }
    additions
}

#[test]
fn chains_of_additions() {
    spread(20_000, |i| {
        chain(SMALL, &mut rng_of(51, i));
    });
    spread(1_000, |i| {
        chain(MIDDLE, &mut rng_of(52, i));
    });
}

#[test]
fn chains_of_additions_at_the_limits() {
    spread(48, |i| {
        chain(LARGE, &mut rng_of(53, i));
    });
}

/// The library's addition to a plan of nothing is its plan, byte for byte.
fn as_planned(input: &Input) {
    let old = Submitted {
        line: input.line,
        circuits: vec![],
        fibres: vec![],
        assignments: vec![],
    };
    let call = Addition {
        lengths: input.lengths,
        ..Addition::new(old, input.circuits.clone())
    };
    assert!(call.before() == input.noise());
    assert!(call.by_library() == input.by_library(), "{input:?}");
}

#[test]
fn an_addition_to_nothing_is_a_plan() {
    spread(30_000, |i| {
        let rng = &mut rng_of(54, i);
        as_planned(&match i % 1000 {
            0 => draws::full_size(rng),
            1..50 => draws::accepted(MIDDLE, rng),
            50..500 => draws::accepted(SMALL, rng),
            _ => draws::damaged(rng),
        });
    });
}

#[test]
fn nothing_new_leaves_the_lists() {
    spread(20_000, |i| {
        let rng = &mut rng_of(55, i);
        let mut call = match i % 1000 {
            0 => full_size(rng),
            1..50 => accepted(MIDDLE, rng),
            _ => accepted(SMALL, rng),
        };
        call.added.clear();
        let (before, seen) = (call.before(), call.by_library());
        let whole = call.whole(&seen);
        assert!(before[..2] == seen.areas[..2] && whole == call.old);
        let [_, length, floor] = seen.answer.unwrap();
        assert_eq!(whole.by_library(), Ok(Finding::Yes { length, floor }));
    });
}

/// What is behind the records that a call needs, in each area, guards included.
fn behind<'a>(areas: &'a [Vec<u8>; 3], used: &[Range<usize>; 3]) -> [&'a [u8]; 3] {
    [0, 1, 2].map(|at| &areas[at][used[at].end..])
}

#[test]
fn room_behind_the_records_is_untouched() {
    spread(20_000, |i| {
        let rng = &mut rng_of(56, i);
        let mut call = accepted(if i % 100 == 0 { MIDDLE } else { SMALL }, rng);
        let more = [(); 3].map(|()| rng.within(0, 2000));
        for (length, more) in call.lengths.iter_mut().zip(more) {
            *length += more;
        }
        let (before, seen) = (call.before(), same(&call));
        let [fibres, ..] = seen.answer.unwrap();
        let circuits = call.both().len() / 8;
        let lens = [8 * fibres, 8 * circuits, 4 * call.old.line.n + 4 * circuits];
        let mut lens = lens.into_iter();
        let used = call.lent().map(|lent| {
            let end = lent.start + lens.next().unwrap();
            lent.start..end
        });
        assert!(behind(&before, &used) == behind(&seen.areas, &used));
        let zeroed = &seen.areas[2][used[2].clone()];
        assert!(zeroed.iter().all(|&byte| byte == 0));
    });
}

#[test]
fn the_files_are_only_read_and_nothing_behind_them() {
    spread(10_000, |i| {
        let rng = &mut rng_of(57, i);
        let call = match i % 100 {
            0 => full_size(rng),
            1..50 => accepted(SMALL, rng),
            _ => damaged(rng),
        };
        assert!(call.by_library_on_pages() == call.by_library(), "{call:?}");
    });
}

#[test]
fn counts_near_the_machine_word() {
    spread(2_000, |i| {
        let rng = &mut rng_of(58, i);
        let call = match i % 50 {
            0 => full_size(rng),
            _ => accepted(SMALL, rng),
        };
        let new = call.added.len() / 8;
        for (list, number) in [(0, 8), (1, 9)] {
            for named in far_counts(call.named[list], new) {
                let mut call = call.clone();
                call.named[list] = named;
                assert_eq!(same(&call).answer, Err((number, 0, 0)), "{named}");
                call.named[1 - list] = named;
                assert_eq!(same(&call).answer, Err((8, 0, 0)), "{named}");
            }
        }
    });
}

#[test]
fn counts_that_are_the_right_ones_if_they_are_cut() {
    spread(200, |i| {
        let call = accepted(SMALL, &mut rng_of(62, i));
        for list in [0, 1] {
            for more in [256, 2048, 4096, 65_536] {
                let mut call = call.clone();
                call.named[list] += more;
                call.lengths[list] += 8 * more;
                assert_eq!(same(&call).answer, Err((13, 0, 0)));
            }
        }
    });
}

#[test]
fn each_named_count() {
    spread(5_000, |i| {
        let rng = &mut rng_of(59, i);
        let mut call = accepted(SMALL, rng);
        for length in &mut call.lengths[..2] {
            *length += 8 * rng.within(0, 3);
        }
        let actual = call.named;
        for fibres in 0..actual[0] + 5 {
            call.named = [fibres, actual[1]];
            same(&call);
        }
        for assignments in 0..actual[1] + 5 {
            call.named = [actual[0], assignments];
            let answer = same(&call).answer;
            let room = assignments + call.added.len() / 8 <= call.lengths[1] / 8;
            let refused = match room {
                true if assignments == actual[1] => None,
                true => Some((13, 0, 0)),
                false => Some((9, 0, 0)),
            };
            assert_eq!(answer.err(), refused);
        }
    });
}

#[test]
fn old_layers_do_not_matter() {
    spread(10_000, |i| {
        let rng = &mut rng_of(60, i);
        let call = accepted(SMALL, rng);
        let seen = [0, 1].map(|_| {
            let mut call = call.clone();
            write_layers(&mut call.old.fibres, || rng.bits() as u16 as usize);
            added(&call)
        });
        assert_eq!(seen[0].assignments, seen[1].assignments);
        let old = 8 * call.named[0];
        assert_eq!(seen[0].fibres[old..], seen[1].fibres[old..]);
    });
}

/// The same call with the records of both files in another order, and the old assignments with them.
fn shuffled(call: &Addition, rng: &mut Rng) -> Addition {
    let mut other = call.clone();
    let old = call.old.circuits.chunks_exact(8);
    let mut pairs: Vec<_> = old.zip(call.old.assignments.chunks_exact(8)).collect();
    rng.shuffle(&mut pairs);
    let (circuits, assignments): (Vec<_>, Vec<_>) = pairs.into_iter().unzip();
    (other.old.circuits, other.old.assignments) = (circuits.concat(), assignments.concat());
    let mut new: Vec<&[u8]> = call.added.chunks_exact(8).collect();
    rng.shuffle(&mut new);
    other.added = new.concat();
    other
}

#[test]
fn file_order_does_not_matter() {
    spread(10_000, |i| {
        let rng = &mut rng_of(61, i);
        let call = accepted(if i % 100 == 0 { MIDDLE } else { SMALL }, rng);
        let (one, two) = (added(&call), added(&shuffled(&call, rng)));
        assert_eq!(one.fibres, two.fibres);
        // A circuit has one record in each list, and numbers differ: so each has the same one.
        assert_eq!(sorted(&one.assignments), sorted(&two.assignments));
    });
}

/// Circuits with these numbers.
fn circuits(numbers: &[u32], digits: &mut Digits) -> Vec<Circuit> {
    let circuit = |&number: &u32| {
        let (first, last) = span(digits);
        (number, first, last)
    };
    numbers.iter().map(circuit).collect()
}

/// Of all plans of these circuits on so many fibres, valid or not, the one that has some digits.
fn small_plan(line: Line, list: &[Circuit], fibres: u16, digits: &mut Digits) -> Submitted {
    let fibre = |number| {
        let ((first, last), layer) = (span(digits), 3);
        Fibre {
            number,
            first,
            last,
            layer,
        }
    };
    let fibres: Vec<Fibre> = (1..=fibres).map(fibre).collect();
    let assignment = |&(circuit, ..): &Circuit| Assignment {
        circuit,
        fibre: 1 + digits.next(2),
        wavelength: 1 + digits.next(2),
    };
    let assignments: Vec<Assignment> = list.iter().map(assignment).collect();
    Submitted {
        line,
        circuits: encode(list),
        fibres: fibres.iter().flat_map(|f| f.to_bytes()).collect(),
        assignments: assignments.iter().flat_map(|a| a.to_bytes()).collect(),
    }
}

/// Of all additions of up to two circuits to up to two, on so many fibres of two links and one wavelength or two, the one that has a
/// number. The new circuits rise or fall.
fn addition_of([old, fibres, new]: [usize; 3], code: usize) -> Addition {
    let mut digits = Digits(code);
    let (n, w, grid) = (2, 1 + usize::from(digits.next(2)), 1);
    let numbers = [[1, 3], [3, 1]][usize::from(digits.next(2))];
    let list = circuits(&[2, 4][..old], &mut digits);
    let plan = small_plan(Line { n, w, grid }, &list, fibres as u16, &mut digits);
    let added = circuits(&numbers[..new], &mut digits);
    Addition::new(plan, encode(&added))
}

#[test]
fn every_small_addition() {
    let met = [const { AtomicUsize::new(0) }; 2];
    for code in 0..27 {
        let many = [code % 3, code / 3 % 3, code / 9];
        let [old, fibres, new] = many.map(|many| many as u32);
        let calls = 4 * 12_usize.pow(old) * 3_usize.pow(fibres) * 3_usize.pow(new);
        spread(calls, |i| {
            let answer = same(&addition_of(many, i)).answer;
            let refused = answer.map_or_else(|refused| refused == (13, 0, 0), |_| false);
            assert!(refused || answer.is_ok());
            met[usize::from(refused)].fetch_add(1, Ordering::Relaxed);
        });
    }
    assert!(met.into_iter().all(|times| times.into_inner() > 10_000));
}

/// A plan of so many circuits on one link, numbered from 1, and so many fibres of which others may be dark.
fn on_one_link(circuits: usize, fibres: usize) -> Submitted {
    let list: Vec<Circuit> = (1..=circuits as u32).map(|i| (i, 1, 1)).collect();
    with_fibres(ours(&Input::new([1, 1, 1], encode(&list))).0, fibres)
}

/// So many circuits on the links of a line of two, numbered from 3,000.
fn new_circuits(count: u32, link: u16) -> Vec<u8> {
    let list: Vec<Circuit> = (3000..3000 + count).map(|i| (i, link, link)).collect();
    encode(&list)
}

#[test]
fn circuits_up_to_the_limit_and_past_it() {
    for old in [0, 1, 1024, 2047, 2048] {
        for new in [2047 - old.min(2047), 2048 - old, 2049 - old] {
            let mut plan = on_one_link(old, 0);
            plan.line.w = 40;
            let call = Addition::new(plan, new_circuits(new as u32, 1));
            let answer = same(&call).answer;
            assert_eq!(answer.err(), (old + new > 2048).then_some((2, 0, 0)));
        }
    }
}

#[test]
fn old_fibres_up_to_the_limit_and_past_it() {
    for circuits in [0, 1, 2048] {
        for fibres in [2047, 2048, 2049, 4096, 4097] {
            let mut plan = on_one_link(circuits, fibres);
            plan.line.n = 2;
            let new = (2048 - circuits as u32).min(7);
            let call = Addition::new(plan, new_circuits(new, 2));
            let many = call.named[0];
            let answer = same(&call).answer;
            let refused = (many > MOST_OLD_FIBRES).then_some((13, 0, 0));
            assert_eq!(answer.err(), refused, "{circuits} circuits, {many} fibres");
            let whole = many + new as usize;
            assert!(refused.is_some() || answer.map(|[fibres, ..]| fibres) == Ok(whole));
        }
    }
}

#[test]
fn the_most_fibres_that_an_addition_can_write() {
    let mut plan = on_one_link(0, 2048);
    plan.line.n = 2;
    let whole = added(&Addition::new(plan, new_circuits(2048, 2)));
    assert_eq!(whole.fibres.len(), 8 * 4096);
    // No circuit can be added to such a plan any more.
    let again = Addition::new(whole, vec![]);
    assert_eq!(same(&again).answer, Err((13, 0, 0)));
}

#[test]
fn the_last_old_fibre_is_lit_or_an_added_one() {
    for (link, fibre) in [(1, 2047), (2, 2048), (3, 2049)] {
        let mut plan = with_fibres(on_one_link(2046, 2046), 2048);
        plan.line.n = 3;
        draws::set_half(&mut plan.fibres, 8 * 2047 + 2, 2);
        draws::set_half(&mut plan.fibres, 8 * 2047 + 4, 2);
        let call = Addition::new(plan, new_circuits(1, link));
        let whole = added(&call);
        assert_eq!(column(&whole.assignments, 4).last(), Some(fibre));
    }
}

#[test]
fn numbers_of_both_files() {
    for numbers in [Numbers::Rising, Numbers::Shuffled] {
        let list: Vec<Circuit> = (0..2048).map(|i| (numbers.of(i), 1, 1)).collect();
        let plan = ours(&Input::new([1, 80, 2], encode(&list[..1024]))).0;
        for (from, to) in [
            (0, 1024),
            (1023, 2047),
            (511, 1500),
            (0, 2047),
            (1023, 1024),
        ] {
            let mut new = list.clone();
            new[to].0 = new[from].0;
            let call = Addition::new(plan.clone(), encode(&new[1024..]));
            assert_eq!(same(&call).answer, Err((14, to + 1, 0)));
            new[to].0 = new[2047 - usize::from(to == 2047)].0;
            let call = Addition::new(plan.clone(), encode(&new[1024..]));
            let later = to.max(2047 - usize::from(to == 2047));
            assert_eq!(same(&call).answer, Err((7, later + 1, 0)));
        }
    }
}

#[test]
fn each_slip_with_an_addition_is_noticed() {
    for slip in ADD_SLIPS {
        let differ = AtomicUsize::new(0);
        spread(10_000, |i| {
            let call = match i % 2 {
                0 => accepted(SMALL, &mut rng_of(41, i)),
                _ => damaged(&mut rng_of(45, i)),
            };
            let differs = call.by_library() != call.by_reference(slip);
            differ.fetch_add(differs.into(), Ordering::Relaxed);
        });
        let differ = differ.into_inner();
        println!("{slip:?}: noticed on {differ} of 10000 calls");
        assert!(differ > 0, "{slip:?} was not noticed");
    }
}
