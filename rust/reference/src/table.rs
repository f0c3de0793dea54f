//! The tables of refusals.
use crate::check::Plan;
use crate::grid::limit;
use crate::records::Circuit;
use crate::{mend, Line, Old, Refused, Slip};
use std::collections::HashSet;

/// A refusal that applies as a whole.
fn unless(holds: bool, number: u32) -> Result<(), Refused> {
    if holds {
        Ok(())
    } else {
        Err(Refused {
            number,
            place: 0,
            end: 0,
        })
    }
}

/// A refusal of the first circuit that is bad.
fn unless_bad(
    circuits: &[Circuit],
    number: u32,
    bad: impl FnMut(&Circuit) -> bool,
) -> Result<(), Refused> {
    match circuits.iter().position(bad) {
        None => Ok(()),
        Some(at) => Err(Refused {
            number,
            place: at + 1,
            end: 0,
        }),
    }
}

/// Test 5.
fn accepted_numbers(circuits: &[Circuit], slip: Slip) -> Result<(), Refused> {
    let end = u32::from(slip == Slip::EndForFive);
    unless_bad(circuits, 5, |c| c.number == 0).map_err(|refused| Refused { end, ..refused })
}

/// Test 6, by R-6: the first record with any of the three faults, and that record's first fault.
fn accepted_ends(n: usize, circuits: &[Circuit], slip: Slip) -> Result<(), Refused> {
    let order = match slip {
        Slip::ThreeBeforeTwo => [1, 3, 2],
        _ => [1, 2, 3],
    };
    let wrong = |c: &Circuit, end: u32| match end {
        1 => c.first == 0,
        2 => c.first > c.last,
        _ => c.last > n,
    };
    let mut faults = circuits.iter().zip(1..).flat_map(|(c, place)| {
        let ends = order.into_iter().filter(move |&end| wrong(c, end));
        ends.map(move |end| (place, end))
    });
    let first = match slip {
        Slip::EndByEnd => faults.min_by_key(|&(place, end)| (end, place)),
        _ => faults.next(),
    };
    let number = 6;
    first.map_or(Ok(()), |(place, end)| Err(Refused { number, place, end }))
}

/// The tests of the line: 3, 12 and 4.
fn accepted_line(line: Line, slip: Slip) -> Result<(), Refused> {
    unless((1..=512).contains(&line.n), 3)?;
    let twelve = unless([1, 2].contains(&line.grid), 12);
    let four = unless((1..=limit(line.grid, slip)).contains(&line.w), 4);
    match slip {
        Slip::FourBeforeTwelve => four.and(twelve),
        _ => twelve.and(four),
    }
}

/// Test 7.
fn accepted_repeats(circuits: &[Circuit]) -> Result<(), Refused> {
    let mut seen = HashSet::new();
    unless_bad(circuits, 7, |c| !seen.insert(c.number))
}

/// Tests 5, 6 and 7.
fn accepted_records(n: usize, circuits: &[Circuit], slip: Slip) -> Result<(), Refused> {
    accepted_numbers(circuits, slip)?;
    accepted_ends(n, circuits, slip)?;
    accepted_repeats(circuits)
}

/// The circuits of a file that none of the tests 1 to 7 and 12 refuses.
pub fn accepted_circuits(line: Line, file: &[u8], slip: Slip) -> Result<Vec<Circuit>, Refused> {
    unless(file.len().is_multiple_of(8), 1)?;
    unless(file.len() / 8 <= 2048, 2)?;
    accepted_line(line, slip)?;
    let circuits: Vec<Circuit> = file.chunks(8).map(Circuit::read).collect();
    accepted_records(line.n, &circuits, slip)?;
    Ok(circuits)
}

/// The circuits of a file that no test of the planner refuses; `lengths` are those of the lent areas.
pub fn accepted(
    line: Line,
    file: &[u8],
    [fibres, assignments, work]: [usize; 3],
    slip: Slip,
) -> Result<Vec<Circuit>, Refused> {
    let circuits = accepted_circuits(line, file, slip)?;
    let each = if slip == Slip::RoomForPairs { 16 } else { 8 };
    unless(fibres >= each * circuits.len(), 8)?;
    unless(assignments >= 8 * circuits.len(), 9)?;
    unless(work >= 4 * line.n + 4 * circuits.len(), 10)?;
    Ok(circuits)
}

/// Test 16 of one list: whole records, and at most so many.
fn accepted_list(list: &[u8], most: usize, place: usize) -> Result<(), Refused> {
    let holds = list.len().is_multiple_of(8) && list.len() / 8 <= most;
    unless(holds, 16).map_err(|refused| Refused { place, ..refused })
}

/// Test 16, by R-7: the fibres, then the assignments.
pub fn accepted_lists(fibres: &[u8], assignments: &[u8], slip: Slip) -> Result<(), Refused> {
    let most_fibres = match slip {
        Slip::OneFibreLess => 4095,
        Slip::OneFibreMore => 4097,
        _ => 4096,
    };
    let most_assignments = 2048 + usize::from(slip == Slip::OneAssignmentMore);
    let one = accepted_list(fibres, most_fibres, 1);
    let two = accepted_list(assignments, most_assignments, 2);
    match slip {
        Slip::AssignmentListFirst => two.and(one),
        _ => one.and(two),
    }
}

/// A refusal's place, counted on from so many records.
fn counted_on(result: Result<(), Refused>, before: usize) -> Result<(), Refused> {
    result.map_err(|refused| Refused {
        place: before + refused.place,
        ..refused
    })
}

/// Tests 5, 6 and 7 of an old and a new file: 5 and 6 are of both, 7 is within each, the old first; places count on.
fn accepted_two(n: usize, [old, new]: [&[Circuit]; 2], slip: Slip) -> Result<(), Refused> {
    let both = [old, new].concat();
    let before = old.len();
    if slip == Slip::FileByFile {
        accepted_records(n, old, slip)?;
        return counted_on(accepted_records(n, new, slip), before);
    }
    accepted_numbers(&both, slip)?;
    accepted_ends(n, &both, slip)?;
    let of_old = accepted_repeats(old);
    let of_new = counted_on(accepted_repeats(new), before);
    match slip {
        Slip::SevenOfJoinedFile => accepted_repeats(&both),
        Slip::SevenOfNewFileFirst => of_new.and(of_old),
        _ => of_old.and(of_new),
    }
}

/// The refusal as a mistake may have it: a place in the new file counts from 1.
fn from_one(refused: Refused, old: usize, slip: Slip) -> Refused {
    match refused.place.checked_sub(old) {
        Some(place @ 1..) if slip == Slip::PlacesFromOne => Refused { place, ..refused },
        _ => refused,
    }
}

/// The circuits of an old and a new file that none of the tests 1 to 7 and 12 refuses.
fn accepted_files(line: Line, files: [&[u8]; 2], slip: Slip) -> Result<[Vec<Circuit>; 2], Refused> {
    let [old, new] = files.map(<[u8]>::len);
    let whole = |bytes: usize| unless(bytes.is_multiple_of(8), 1);
    match slip {
        Slip::OneOfJoinedFile => whole(old + new)?,
        _ => whole(old).and(whole(new))?,
    }
    let counted = match slip {
        Slip::TwoOfEachFile => (old / 8).max(new / 8),
        _ => old / 8 + new / 8,
    };
    unless(counted <= 2048, 2)?;
    accepted_line(line, slip)?;
    let circuits = files.map(|file| file.chunks_exact(8).map(Circuit::read).collect());
    let [old, new]: &[Vec<Circuit>; 2] = &circuits;
    accepted_two(line.n, [old, new], slip).map_err(|r| from_one(r, old.len(), slip))?;
    Ok(circuits)
}

/// Whether a list of so many bytes has room for the records that are named and for others.
fn has_room(bytes: usize, named: usize, others: usize, slip: Slip) -> bool {
    match slip {
        Slip::RoomWraps => named.wrapping_add(others).wrapping_mul(8) <= bytes,
        _ => 8 * (named as u128 + others as u128) <= bytes as u128,
    }
}

/// Test 14: the first new record whose number the old file has.
fn accepted_new([old, new]: [&[Circuit]; 2], slip: Slip) -> Result<(), Refused> {
    let numbers: HashSet<u32> = old.iter().map(|c| c.number).collect();
    let fourteen = unless_bad(new, 14, |c| numbers.contains(&c.number));
    let before = match slip {
        Slip::FourteenFromOne => 0,
        _ => old.len(),
    };
    counted_on(fourteen, before)
}

/// The most fibres of a plan that is added to or mended.
fn most_old_fibres(slip: Slip) -> usize {
    match slip {
        Slip::OneOldFibreLess => 2047,
        Slip::OneOldFibreMore => 2049,
        _ => 2048,
    }
}

/// Test 13: the old plan, which stands at the start of the two lists.
fn accepted_old(
    line: Line,
    circuits: &[Circuit],
    old: Old,
    [fibres, assignments]: [&[u8]; 2],
    slip: Slip,
) -> Result<Plan, Refused> {
    unless(old.fibres <= most_old_fibres(slip), 13)?;
    unless(old.assignments == circuits.len(), 13)?;
    let fibres = &fibres[..8 * old.fibres];
    let assignments = &assignments[..8 * old.assignments];
    let plan = Plan::read(line, circuits.to_vec(), fibres, assignments, slip);
    unless(plan.is_sound(), 13)?;
    Ok(plan)
}

/// The old plan and the new circuits that no test of an addition refuses; the lent areas are only looked at.
pub fn accepted_addition(
    line: Line,
    old: Old,
    added: &[u8],
    [fibres, assignments, work]: [&[u8]; 3],
    slip: Slip,
) -> Result<(Plan, Vec<Circuit>), Refused> {
    let [circuits, new] = accepted_files(line, [old.circuits, added], slip)?;
    let fourteen = accepted_new([&circuits, &new], slip);
    if slip == Slip::FourteenBeforeEight {
        fourteen?;
    }
    let asked = match slip {
        Slip::RoomForOldCircuits => circuits.len() + new.len(),
        _ => new.len(),
    };
    unless(has_room(fibres.len(), old.fibres, asked, slip), 8)?;
    let assignment_room = has_room(assignments.len(), old.assignments, new.len(), slip);
    unless(assignment_room, 9)?;
    let thirteen = accepted_old(line, &circuits, old, [fibres, assignments], slip);
    if slip == Slip::ThirteenBeforeTen {
        thirteen.as_ref().map_err(|refused| *refused)?;
    }
    let counted = match slip {
        Slip::TenOfNewFile => new.len(),
        _ => circuits.len() + new.len(),
    };
    unless(work.len() >= 4 * line.n + 4 * counted, 10)?;
    if slip == Slip::FourteenBeforeThirteen {
        fourteen?;
    }
    let plan = thirteen?;
    fourteen?;
    Ok((plan, new))
}

/// Test 16, by R-11: the assignments are whole records, one a circuit.
fn accepted_register(bytes: usize, circuits: usize, slip: Slip) -> Result<(), Refused> {
    let holds = match slip {
        Slip::MoreAssignments => bytes.is_multiple_of(8) && bytes / 8 >= circuits,
        _ => bytes == 8 * circuits,
    };
    let place = match slip {
        Slip::SixteenWithoutPlace => 0,
        _ => 2,
    };
    unless(holds, 16).map_err(|refused| Refused { place, ..refused })
}

/// Test 20: at most 2,048 fibres, and none that breaks R-7's rule 1 or 2.
fn accepted_fibres(
    line: Line,
    old_fibres: usize,
    fibres: &[u8],
    slip: Slip,
) -> Result<(), Refused> {
    let most = most_old_fibres(slip);
    let refused = |place| Refused {
        number: 20,
        place,
        end: 0,
    };
    if old_fibres > most {
        let first_too_many = usize::from(slip == Slip::PlaceOfTooMany) * (most + 1);
        return Err(refused(first_too_many));
    }
    let plan = Plan::read(line, vec![], &fibres[..8 * old_fibres], &[], slip);
    match plan.faulty_fibre() {
        None => Ok(()),
        Some(_) if slip == Slip::TwentyWithoutPlace => Err(refused(0)),
        Some((_, place)) => Err(refused(place)),
    }
}

/// Tests 8, 10 and 16 of R-11, for so many circuits and fibres; `lengths` are those of the fibres, the assignments and the work area.
fn accepted_rooms(
    n: usize,
    circuits: usize,
    old_fibres: usize,
    [fibres, assignments, work]: [usize; 3],
    slip: Slip,
) -> Result<(), Refused> {
    let asked = match slip {
        Slip::RoomForPairs => 2 * circuits,
        _ => circuits,
    };
    unless(has_room(fibres, old_fibres, asked, slip), 8)?;
    unless(slip != Slip::NineTested || assignments >= 8 * circuits, 9)?;
    let ten = unless(work >= 4 * n + 4 * circuits, 10);
    let sixteen = accepted_register(assignments, circuits, slip);
    match slip {
        Slip::SixteenBeforeTen => sixteen.and(ten),
        _ => ten.and(sixteen),
    }
}

/// The register that no test of R-11 refuses; the lent areas are only looked at.
pub fn accepted_mending(
    line: Line,
    file: &[u8],
    old_fibres: usize,
    [fibres, assignments, report, work]: [&[u8]; 4],
    slip: Slip,
) -> Result<Plan, Refused> {
    let circuits = accepted_circuits(line, file, slip)?;
    let many = circuits.len();
    let lengths = [fibres, assignments, work].map(<[u8]>::len);
    let rooms = accepted_rooms(line.n, many, old_fibres, lengths, slip);
    let twenty = || accepted_fibres(line, old_fibres, fibres, slip);
    if slip == Slip::TwentyBeforeSixteen && rooms.is_err_and(|refused| refused.number == 16) {
        twenty()?;
    }
    rooms?;
    let twenty_three = |lines: usize| unless(report.len() >= 12 * lines, 23);
    if slip == Slip::TwentyThreeBeforeTwenty {
        twenty_three(many)?;
    }
    twenty()?;
    let (fibres, assignments) = (&fibres[..8 * old_fibres], &assignments[..8 * many]);
    let register = Plan::read(line, circuits, fibres, assignments, slip);
    twenty_three(match slip {
        Slip::ReportForLines => mend::lines(&register, slip),
        _ => many,
    })?;
    Ok(register)
}
