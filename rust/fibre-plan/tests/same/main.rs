//! The library and a reference written from the papers alone agree on every answer and every byte.
mod added;
mod additions;
mod areas;
mod checks;
mod draws;
mod mendings;
mod pages;
mod registers;
mod submitted;
mod turns;

use areas::{Answer, Input, Seen};
use draws::{accepted, damaged, full_size, rng_of, Size, LARGE, MIDDLE, SMALL};
use inputs::{encode, ladder, Numbers, Rng};
use reference::{Slip, BASE_SLIPS, END_SLIPS, GRID_SLIPS, LIT_SLIPS};
use std::sync::atomic::{AtomicUsize, Ordering};
use std::thread;

/// Does the work for each number below `count`, on all cores.
fn spread(count: usize, work: impl Fn(usize) + Sync) {
    let cores = thread::available_parallelism().map_or(1, usize::from);
    let work = &work;
    thread::scope(|scope| {
        for core in 0..cores {
            scope.spawn(move || (core..count).step_by(cores).for_each(work));
        }
    });
}

/// Both give the same answer and leave the same bytes; the answer is handed on.
fn same(input: &Input) -> Answer {
    let ours = input.by_library();
    let theirs = input.by_reference(Slip::None);
    assert!(
        ours == theirs,
        "{input:?}\nlibrary {:?}, reference {:?}",
        ours.answer,
        theirs.answer
    );
    ours.answer
}

/// So many accepted inputs of a size.
fn same_accepted(series: u64, count: usize, size: Size) {
    spread(count, |i| {
        let answer = same(&accepted(size, &mut rng_of(series, i)));
        assert!(
            answer.is_ok(),
            "input {i} of series {series} was refused: {answer:?}"
        );
    });
}

#[test]
fn every_small_input() {
    for links in 0..=3 {
        for many in 0..=3 {
            let files = draws::circuits_on(links).pow(many as u32);
            spread(3 * files, |i| {
                let file = draws::file_of(links, many, i / 3);
                // The grids by turns.
                let _ = same(&Input::new([links, i % 3, 1 + i / 3 % 2], file));
            });
        }
    }
}

#[test]
fn random_small_inputs() {
    same_accepted(1, 200_000, SMALL);
}

#[test]
fn random_middle_inputs() {
    same_accepted(2, 20_000, MIDDLE);
}

#[test]
fn random_large_inputs() {
    same_accepted(3, 300, LARGE);
}

#[test]
fn inputs_at_the_limits() {
    let past_grid_1 = AtomicUsize::new(0);
    spread(150, |i| {
        let input = full_size(&mut rng_of(4, i));
        assert!(same(&input).is_ok());
        past_grid_1.fetch_add((input.line.w > 40).into(), Ordering::Relaxed);
    });
    assert!((20..60).contains(&past_grid_1.into_inner()));
}

#[test]
fn limits_and_past_them() {
    let files = [0, 1, 2048, 2049].map(|many| {
        let list: Vec<_> = (1..=many).map(|number| (number, 1, 1)).collect();
        encode(&list)
    });
    for links in [0, 1, 512, 513, usize::MAX] {
        for wavelengths in [0, 1, 40, 41, 80, 81, usize::MAX] {
            for grid in [0, 1, 2, 3, usize::MAX] {
                spread(files.len(), |i| {
                    let _ = same(&Input::new([links, wavelengths, grid], files[i].clone()));
                });
            }
        }
    }
}

#[test]
fn a_plan_does_not_depend_on_the_grid() {
    spread(10_000, |i| {
        let rng = &mut rng_of(7, i);
        let mut input = match i % 1000 {
            0 => full_size(rng),
            1..50 => accepted(MIDDLE, rng),
            _ => accepted(SMALL, rng),
        };
        input.line.w = input.line.w.min(40);
        let [one, two] = [1, 2].map(|grid| input.on_grid(grid).by_library());
        assert!(one.answer.is_ok() && one == two, "{input:?}");
    });
}

#[test]
fn damaged_inputs_meet_every_refusal() {
    let met = [const { [const { AtomicUsize::new(0) }; 4] }; 13];
    spread(100_000, |i| {
        let answer = same(&damaged(&mut rng_of(5, i)));
        let (number, _, end) = answer.err().unwrap_or((0, 0, 0));
        met[number as usize][end as usize].fetch_add(1, Ordering::Relaxed);
    });
    for (number, ends) in met.iter().enumerate() {
        for (end, times) in ends.iter().enumerate() {
            let times = times.load(Ordering::Relaxed);
            // Only the program gives 11; only 6 has an end.
            let given = number != 11 && (number == 6) == (end != 0);
            assert!(
                if given { times >= 100 } else { times == 0 },
                "refusal {number} with end {end} was met {times} times"
            );
        }
    }
}

#[test]
fn the_first_record_with_a_wrong_end_and_its_first_fault() {
    // Ends on 5 links, and what is wrong with them.
    let ends = [(1, 5, 0), (0, 9, 1), (0, 0, 1), (9, 8, 2), (5, 6, 3)];
    for one in ends {
        for two in ends {
            let list = [(7, one.0, one.1), (8, two.0, two.1)];
            let refused = [one, two]
                .into_iter()
                .zip(1..)
                .find(|((.., end), _)| *end > 0);
            let answer = same(&Input::new([5, 2, 1], encode(&list)));
            assert_eq!(
                answer.err(),
                refused.map(|((.., end), place)| (6, place, end))
            );
        }
    }
}

#[test]
fn repeats_far_apart() {
    for numbers in [Numbers::Rising, Numbers::Shuffled] {
        for distance in [1, 2, 31, 32, 33, 64, 1000, 2047] {
            for at in [distance, 2047] {
                let answer = same(&draws::repeated(numbers, at, distance));
                assert_eq!(answer, Err((7, at + 1, 0)));
            }
        }
    }
}

#[test]
fn bytes_behind_the_fibres_stay_where_old_pairs_outnumber_them() {
    for more in [0, 1, 8, 400] {
        let mut input = Input::new([21, 2, 1], encode(&ladder()));
        input.lengths[0] += more;
        assert_eq!(same(&input).map(|[fibres, ..]| fibres), Ok(2));
        let ([was, ..], [is, ..]) = (input.noise(), input.by_library().areas);
        let behind = input.lent()[0].start + 2 * 8;
        assert_eq!(was[behind..], is[behind..]);
    }
}

/// The assignment records that a call left, by rising bytes.
fn sorted_assignments<'a>(input: &Input, seen: &'a Seen) -> Vec<&'a [u8]> {
    let start = input.lent()[1].start;
    submitted::sorted(&seen.areas[1][start..start + input.circuits.len()])
}

#[test]
fn file_order_does_not_matter() {
    spread(10_000, |i| {
        let size = if i % 100 == 0 { MIDDLE } else { SMALL };
        let mut rng = rng_of(6, i);
        let input = accepted(size, &mut rng);
        let (one, two) = (input.by_library(), shuffled(&input, &mut rng).by_library());
        assert_eq!(one.answer, two.answer);
        assert_eq!(one.areas[0], two.areas[0], "the fibre lists differ");
        // A circuit has one record in each list, and numbers differ: so each has the same one.
        assert_eq!(
            sorted_assignments(&input, &one),
            sorted_assignments(&input, &two)
        );
    });
}

/// The same records in another order.
fn shuffled(input: &Input, rng: &mut Rng) -> Input {
    let mut records: Vec<&[u8]> = input.circuits.chunks_exact(8).collect();
    rng.shuffle(&mut records);
    Input {
        circuits: records.concat(),
        ..input.clone()
    }
}

/// Each of some mistakes makes a difference on one of 5,000 inputs.
fn noticed(slips: &[Slip], draw: impl Fn(&mut Rng) -> Input + Sync) {
    for &slip in slips {
        let differ = AtomicUsize::new(0);
        spread(5_000, |i| {
            let input = draw(&mut rng_of(1, i));
            if input.by_library() != input.by_reference(slip) {
                differ.fetch_add(1, Ordering::Relaxed);
            }
        });
        let differ = differ.into_inner();
        println!("{slip:?}: noticed on {differ} of 5000 inputs");
        assert!(differ > 0, "{slip:?} was not noticed");
    }
}

#[test]
fn each_slip_is_noticed() {
    noticed(&BASE_SLIPS, |rng| accepted(SMALL, rng));
    noticed(&LIT_SLIPS, |rng| accepted(SMALL, rng));
    noticed(&GRID_SLIPS, damaged);
    noticed(&END_SLIPS, damaged);
}
