//! The typed function says what the byte level says.
use fibre_plan::{
    check, check_bytes, mend, plan, plan_bytes, Assignment, Circuit, End, Fibre, Finding, Grid,
    Line, Plan, Refusal, ReportLine, Rule,
};
use inputs::{encode, Family, Numbers, Rng};

fn circuits(list: &[(u32, u16, u16)]) -> Vec<Circuit> {
    let typed = |&(number, first, last): &(u32, u16, u16)| Circuit {
        number,
        first,
        last,
    };
    list.iter().map(typed).collect()
}

/// Both grids.
const GRIDS: [Grid; 2] = [Grid::Ghz100, Grid::Ghz50];

/// A line on grid 1.
fn line(links: usize, wavelengths: usize) -> Line {
    let grid = Grid::Ghz100;
    Line {
        links,
        wavelengths,
        grid,
    }
}

#[test]
fn the_listing() {
    let list = [(10, 1, 3), (20, 2, 5), (30, 1, 2), (40, 4, 5)];
    let plan = plan(line(5, 2), &circuits(&list)).unwrap();
    let fibre = |(number, first, last, layer)| Fibre {
        number,
        first,
        last,
        layer,
    };
    let fibres = [(1, 1, 5, 2), (2, 2, 5, 2)].map(fibre);
    let at = |(circuit, fibre, wavelength)| Assignment {
        circuit,
        fibre,
        wavelength,
    };
    let assignments = [(10, 1, 2), (20, 2, 1), (30, 1, 1), (40, 1, 2)].map(at);
    assert_eq!(plan.fibres, fibres);
    assert_eq!(plan.assignments, assignments);
    assert_eq!((plan.total, plan.floor), (9, 6));
}

/// The listing, and the plan of it.
fn listing() -> (Line, Vec<Circuit>, Plan) {
    let circuits = circuits(&[(10, 1, 3), (20, 2, 5), (30, 1, 2), (40, 4, 5)]);
    let plan = plan(line(5, 2), &circuits).unwrap();
    (line(5, 2), circuits, plan)
}

/// What is said of the plan of the listing after a change.
fn found(change: impl Fn(&mut Plan)) -> Result<Finding, Refusal> {
    let (line, circuits, mut plan) = listing();
    change(&mut plan);
    check(line, &circuits, &plan.fibres, &plan.assignments)
}

/// A rule that a change of the plan of the listing breaks, at a place, and how that is told.
type Broken = (Rule, usize, fn(&mut Plan), &'static str);

const BROKEN: [Broken; 8] = [
    (
        Rule::FibreNumber,
        2,
        |p| p.fibres[1].number = 3,
        "rule 1, fibre 2: its number is not its place",
    ),
    (
        Rule::FibreSpan,
        1,
        |p| p.fibres[0].last = 6,
        "rule 2, fibre 1: first link 0 or past the last, or last link past the line",
    ),
    (
        Rule::AssignmentCount,
        0,
        |p| p.assignments.truncate(3),
        "rule 3: not as many assignments as circuits",
    ),
    (
        Rule::CircuitNumber,
        3,
        |p| p.assignments.swap(2, 3),
        "rule 4, assignment 3: not the circuit number of that place",
    ),
    (
        Rule::NoSuchFibre,
        4,
        |p| p.assignments[3].fibre = 3,
        "rule 5, assignment 4: no such fibre",
    ),
    (
        Rule::NotSpanned,
        1,
        |p| p.assignments[0].fibre = 2,
        "rule 6, assignment 1: the fibre does not span the circuit",
    ),
    (
        Rule::Wavelength,
        2,
        |p| p.assignments[1].wavelength = 3,
        "rule 7, assignment 2: the wavelength is not 1 to the line's number of wavelengths",
    ),
    (
        Rule::Clash,
        3,
        |p| p.assignments[1].fibre = 1,
        "rule 8, assignment 3: it clashes with an earlier assignment",
    ),
];

#[test]
fn each_rule() {
    let yes = Finding::Yes {
        length: 9,
        floor: 6,
    };
    assert_eq!(found(|_| ()), Ok(yes));
    assert_eq!(yes.to_string(), "valid: length 9, floor 6");
    for ((rule, place, change, text), number) in BROKEN.into_iter().zip(1..) {
        let no = Finding::No { rule, place };
        assert_eq!(found(change), Ok(no));
        assert_eq!((rule.number(), no.to_string().as_str()), (number, text));
    }
}

#[test]
fn lists_that_are_too_long() {
    let (line, circuits, plan) = listing();
    let dark = |number| Fibre {
        number,
        ..plan.fibres[0]
    };
    let fibres: Vec<Fibre> = (1..=5000).map(dark).collect();
    let assignments = plan.assignments.repeat(600);
    let lengths = [4096, 4097, 5000].map(|many| {
        let found = check(line, &circuits, &fibres[..many], &assignments[..2048]);
        found.map(|found| matches!(found, Finding::No { place: 0, .. }))
    });
    let refused = Err(Refusal::FibreList);
    assert_eq!(lengths, [Ok(true), refused, refused]);
    for many in [2049, 2400] {
        let found = check(line, &circuits, &fibres[..4096], &assignments[..many]);
        assert_eq!(found, Err(Refusal::AssignmentList));
    }
}

#[test]
fn refusals_of_a_check() {
    let (line, circuits, plan) = listing();
    let Plan {
        fibres,
        assignments,
        ..
    } = plan;
    let answer = |line, circuits: &[Circuit]| check(line, circuits, &fibres, &assignments);
    let refused = |line, circuits: &[Circuit]| answer(line, circuits).unwrap_err();
    let many = circuits.repeat(600);
    assert_eq!(refused(line, &many), Refusal::Circuits);
    assert_eq!(refused(line, &many[..5]), Refusal::Repeated { place: 5 });
    let wrong = Line { links: 4, ..line };
    let end = End::LastPastLine;
    assert_eq!(refused(wrong, &circuits), Refusal::Ends { place: 2, end });
    let wrong = Line { links: 513, ..line };
    assert_eq!(refused(wrong, &circuits), Refusal::Links);
    let wrong = Line {
        wavelengths: 41,
        ..line
    };
    assert_eq!(refused(wrong, &circuits), Refusal::Wavelengths);
    assert_eq!(check_bytes(5, 2, 3, &[], &[], &[1]), Err(Refusal::Grid));
    assert_eq!(
        check_bytes(5, 2, 2, &[], &[], &[1]),
        Err(Refusal::AssignmentList)
    );
}

#[test]
fn circuits_added_to_the_listing() {
    let (line, mut circuits, old) = listing();
    let added = self::circuits(&[(50, 4, 5), (15, 3, 5), (60, 1, 1)]);
    let new = old.add(line, &circuits, &added).unwrap();
    let last = Fibre {
        number: 3,
        first: 1,
        last: 1,
        layer: 1,
    };
    assert_eq!(new.fibres, [&old.fibres[..], &[last]].concat());
    let at = |(circuit, fibre, wavelength)| Assignment {
        circuit,
        fibre,
        wavelength,
    };
    let assignments = [(50, 2, 2), (15, 1, 1), (60, 3, 1)].map(at);
    let all = [&old.assignments[..], &assignments].concat();
    assert_eq!(new.assignments, all);
    assert_eq!((new.total, new.floor), (10, 10));
    let none = new.add(line, &circuits, &[]);
    assert_eq!(none, Err(Refusal::OldPlan), "the old circuits are seven");
    circuits.extend(added);
    assert_eq!(new.add(line, &circuits, &[]).as_ref(), Ok(&new));
}

#[test]
fn total_and_floor_of_an_old_plan_are_not_read() {
    let (line, circuits, old) = listing();
    let (total, floor) = (usize::MAX, 0);
    let other = Plan {
        total,
        floor,
        ..old.clone()
    };
    let added = self::circuits(&[(1, 1, 5)]);
    let [one, two] = [&old, &other].map(|plan| plan.add(line, &circuits, &added));
    assert!(one.is_ok() && one == two);
}

#[test]
fn refusals_of_an_addition() {
    let (line, circuits, old) = listing();
    let added = self::circuits(&[(50, 4, 5), (20, 3, 5)]);
    let refused =
        |line, old: &Plan, added: &[Circuit]| old.add(line, &circuits, added).unwrap_err();
    let place = 6;
    assert_eq!(refused(line, &old, &added), Refusal::OldNumber { place });
    let end = End::LastPastLine;
    let short = Line { links: 4, ..line };
    assert_eq!(
        refused(short, &old, &added),
        Refusal::Ends { place: 2, end }
    );
    let long = self::circuits(&[(50, 4, 6)]);
    assert_eq!(refused(line, &old, &long), Refusal::Ends { place: 5, end });
    let few = Line {
        wavelengths: 1,
        ..line
    };
    assert_eq!(refused(few, &old, &added), Refusal::OldPlan);
    for many in [2045, 2048, 2049, 5000] {
        let added = self::circuits(&[(1, 1, 1)]).repeat(many);
        assert_eq!(refused(line, &old, &added), Refusal::Circuits);
    }
    let many = circuits.repeat(600);
    assert_eq!(old.add(line, &many, &[]), Err(Refusal::Circuits));
    let mut longer = old.clone();
    longer.assignments = old.assignments.repeat(600);
    assert_eq!(refused(line, &longer, &[]), Refusal::OldPlan);
}

#[test]
fn circuits_added_to_many_fibres() {
    let (line, circuits, old) = listing();
    for (many, sound) in [(2047, true), (2048, true), (2049, false), (5000, false)] {
        let dark = |number| Fibre {
            number,
            first: 5,
            last: 5,
            layer: 0,
        };
        let mut plan = old.clone();
        plan.fibres.extend((3..=many).map(dark));
        let added = self::circuits(&[(50, 1, 1)]);
        let fibres = plan
            .add(line, &circuits, &added)
            .map(|plan| plan.fibres.len());
        let whole = Ok(usize::from(many) + 1);
        assert_eq!(fibres, if sound { whole } else { Err(Refusal::OldPlan) });
    }
}

/// A line of a report: circuit, fibre and wavelength found, fibre and wavelength given.
fn report_line(circuit: u32, found: [u16; 2], given: [u16; 2]) -> ReportLine {
    ReportLine {
        circuit,
        found_fibre: found[0],
        found_wavelength: found[1],
        given_fibre: given[0],
        given_wavelength: given[1],
    }
}

/// What becomes of the register of the listing after a change, and the report.
fn mended(change: impl Fn(&mut Plan)) -> Result<(Plan, Vec<ReportLine>), Refusal> {
    let (line, circuits, mut register) = listing();
    change(&mut register);
    let mended = mend(line, &circuits, &register.fibres, &register.assignments)?;
    let Plan { total, floor, .. } = mended.plan;
    let (fibres, assignments) = (&mended.plan.fibres, &mended.plan.assignments);
    let found = check(line, &circuits, fibres, assignments)?;
    let length = total;
    assert_eq!(found, Finding::Yes { length, floor });
    Ok((mended.plan, mended.report))
}

#[test]
fn the_register_of_the_listing_mended() {
    let (_, _, plan) = listing();
    assert_eq!(mended(|_| ()), Ok((plan.clone(), vec![])));
    // Circuit 10 has the place of 30, which then gets that of 10; what stands for 20 names nobody.
    let (new, report) = mended(|register| {
        register.assignments[0].wavelength = 1;
        register.assignments[1].circuit = 0;
    })
    .unwrap();
    let lines = [
        report_line(20, [2, 1], [2, 1]),
        report_line(30, [1, 1], [1, 2]),
    ];
    assert_eq!(report, lines);
    assert_eq!((&new.fibres, new.total), (&plan.fibres, plan.total));
    let places = new.assignments.iter().map(|a| (a.fibre, a.wavelength));
    assert!(places.eq([(1, 1), (2, 1), (1, 2), (1, 2)]));
    assert!(new
        .assignments
        .iter()
        .map(|a| a.circuit)
        .eq([10, 20, 30, 40]));
}

#[test]
fn a_fibre_that_is_lost_is_planned_again() {
    let (_, _, plan) = listing();
    let (new, report) = mended(|register| register.fibres.truncate(1)).unwrap();
    assert_eq!(report, [report_line(20, [2, 1], [2, 1])]);
    // The layer is counted from 1 again.
    let second = Fibre {
        layer: 1,
        ..plan.fibres[1]
    };
    assert_eq!(new.fibres, [plan.fibres[0], second]);
    assert_eq!(new.assignments, plan.assignments);
}

#[test]
fn refusals_of_a_mending() {
    let refused = |change: fn(&mut Plan)| mended(change).unwrap_err();
    let not_one_each = Refusal::AssignmentList;
    assert_eq!(refused(|r| r.assignments.truncate(3)), not_one_each);
    assert_eq!(
        refused(|r| r.assignments.extend_from_within(..1)),
        not_one_each
    );
    assert_eq!(
        refused(|r| r.assignments = r.assignments.repeat(600)),
        not_one_each
    );
    let place = 2;
    let faulty = Refusal::FibreRecord { place };
    assert_eq!(refused(|r| r.fibres[1].number = 3), faulty);
    assert_eq!(refused(|r| r.fibres[1].last = 6), faulty);
    let (line, circuits, plan) = listing();
    let answer = |line, circuits: &[Circuit]| {
        let assignments = plan.assignments.repeat(circuits.len().div_ceil(4));
        let assignments = &assignments[..circuits.len()];
        mend(line, circuits, &plan.fibres, assignments).unwrap_err()
    };
    let end = End::LastPastLine;
    let short = Line { links: 4, ..line };
    assert_eq!(answer(short, &circuits), Refusal::Ends { place, end });
    let none = Line { links: 0, ..line };
    assert_eq!(answer(none, &circuits), Refusal::Links);
    let many = circuits.repeat(600);
    assert_eq!(answer(line, &many), Refusal::Circuits);
    assert_eq!(answer(line, &many[..5]), Refusal::Repeated { place: 5 });
}

#[test]
fn a_register_of_many_fibres() {
    for (many, sound) in [(2047, true), (2048, true), (2049, false), (5000, false)] {
        let dark = |number| Fibre {
            number,
            first: 5,
            last: 5,
            layer: 0,
        };
        let answer = mended(|register| {
            register.fibres.extend((3..=many).map(dark));
            register.assignments[2].fibre = 0;
        });
        let lines = answer.map(|(plan, report)| (plan.fibres.len(), report.len()));
        let whole = Ok((usize::from(many), 1));
        assert_eq!(lines, if sound { whole } else { Err(Refusal::Fibres) });
    }
}

#[test]
fn the_bytes_as_types() {
    let list = Family::Random.circuits(300, 200, Numbers::Shuffled, &mut Rng::new(7));
    let fifty = Line {
        grid: Grid::Ghz50,
        ..line(200, 48)
    };
    let typed = plan(fifty, &circuits(&list)).unwrap();
    let (mut fibres, mut assignments, mut work) = ([1; 2400], [1; 2400], [1; 2000]);
    let counts = plan_bytes(
        200,
        48,
        2,
        &encode(&list),
        &mut fibres,
        &mut assignments,
        &mut work,
    )
    .unwrap();
    assert_eq!((typed.total, typed.floor), (counts.total, counts.floor));
    assert_eq!(typed.fibres.len(), counts.fibres);
    let (records, _) = fibres.as_chunks();
    assert!(typed
        .fibres
        .iter()
        .zip(records)
        .all(|(f, r)| *f == Fibre::from_bytes(r)));
    let (records, _) = assignments.as_chunks();
    assert!(typed
        .assignments
        .iter()
        .zip(records)
        .all(|(a, r)| *a == Assignment::from_bytes(r)));
}

#[test]
fn refusals() {
    let good = circuits(&[(1, 1, 1)]);
    assert_eq!(plan(line(0, 1), &good), Err(Refusal::Links));
    assert_eq!(plan(line(usize::MAX, 1), &good), Err(Refusal::Links));
    assert_eq!(plan(line(1, 41), &good), Err(Refusal::Wavelengths));
    assert_eq!(plan(line(1, 1), &good.repeat(2049)), Err(Refusal::Circuits));
    assert_eq!(
        plan(line(1, 1), &good.repeat(2)),
        Err(Refusal::Repeated { place: 2 })
    );
    let zero = circuits(&[(1, 9, 9), (0, 1, 1)]);
    assert_eq!(plan(line(1, 1), &zero), Err(Refusal::Zero { place: 2 }));
}

#[test]
fn which_end_is_wrong() {
    for (first, last, end) in [
        (0, 1, End::FirstZero),
        (0, 0, End::FirstZero),
        (0, 9, End::FirstZero),
        (3, 2, End::FirstPastLast),
        (9, 8, End::FirstPastLast),
        (5, 6, End::LastPastLine),
        (6, 6, End::LastPastLine),
    ] {
        let list = circuits(&[(1, 1, 5), (2, first, last), (3, 0, 0)]);
        let refused = Refusal::Ends { place: 2, end };
        assert_eq!(plan(line(5, 2), &list), Err(refused));
        assert_eq!(refused.end(), end.number());
    }
}

#[test]
fn the_limit_of_each_grid() {
    for (grid, limit) in GRIDS.into_iter().zip([40, 80]) {
        assert_eq!(grid.max_wavelengths(), limit);
        let answer = |wavelengths| {
            let line = Line {
                grid,
                ..line(1, wavelengths)
            };
            plan(line, &circuits(&[(1, 1, 1)])).map(|plan| plan.total)
        };
        assert_eq!([1, limit].map(answer), [Ok(1); 2]);
        assert_eq!([0, limit + 1].map(answer), [Err(Refusal::Wavelengths); 2]);
    }
}

#[test]
fn numbers_and_frequencies_of_each_grid() {
    for (grid, number) in GRIDS.into_iter().zip(1..) {
        assert_eq!(grid.number(), number);
        for wavelength in 0..=u16::MAX {
            let ghz = i64::from(grid.frequency(wavelength));
            assert_eq!(ghz, i64::from(reference::frequency(number, wavelength)));
        }
    }
}

#[test]
fn refusals_as_text() {
    for (end, text) in [
        (End::FirstZero, "first link 0"),
        (End::FirstPastLast, "first link past the last"),
        (End::LastPastLine, "last link past the line"),
    ] {
        let refused = Refusal::Ends { place: 3, end };
        let told = format!("refusal 6, record 3: {text}");
        assert_eq!([end.to_string(), refused.to_string()], [text, &told]);
    }
    assert_eq!(
        Refusal::WorkRoom.to_string(),
        "refusal 10: the work area is too short"
    );
    assert_eq!(
        Refusal::FibreList.to_string(),
        "refusal 16, list 1: the fibre list is not whole records, or more than 4,096"
    );
    assert_eq!(
        Refusal::AssignmentList.to_string(),
        "refusal 16, list 2: the assignment list is not whole records, or more than 2,048, or, to be mended, not one a circuit"
    );
    assert_eq!(
        Refusal::Fibres.to_string(),
        "refusal 20: there are more than 2,048 fibres"
    );
    assert_eq!(
        Refusal::FibreRecord { place: 3 }.to_string(),
        "refusal 20, fibre 3: its number is not its place, or first link 0 or past the last, or last link past the line"
    );
    assert_eq!(
        Refusal::ReportRoom.to_string(),
        "refusal 23: the report is too short"
    );
    assert_eq!(
        Refusal::OldPlan.to_string(),
        "refusal 13: the old plan is not valid on this line, or has more than 2,048 fibres"
    );
    assert_eq!(
        Refusal::OldNumber { place: 9 }.to_string(),
        "refusal 14, record 9: its number stands in the old file"
    );
    assert_eq!(
        Refusal::Grid.to_string(),
        "refusal 12: the grid is neither 1 nor 2"
    );
    assert_eq!(
        Refusal::Wavelengths.to_string(),
        "refusal 4: the number of wavelengths is not 1 to 40, on grid 1, or 1 to 80, on grid 2"
    );
}

#[test]
fn fibres_and_assignments_are_read_back() {
    let fibre = Fibre {
        number: 0x0102,
        first: 0x0304,
        last: 0x0506,
        layer: 0x0708,
    };
    assert_eq!(fibre.to_bytes(), [2, 1, 4, 3, 6, 5, 8, 7]);
    assert_eq!(Fibre::from_bytes(&fibre.to_bytes()), fibre);
    let assignment = Assignment {
        circuit: 0x0102_0304,
        fibre: 0x0506,
        wavelength: 0x0708,
    };
    assert_eq!(assignment.to_bytes(), [4, 3, 2, 1, 6, 5, 8, 7]);
    assert_eq!(Assignment::from_bytes(&assignment.to_bytes()), assignment);
}

#[test]
fn a_line_of_a_report_is_read() {
    let bytes = [4, 3, 2, 1, 6, 5, 8, 7, 10, 9, 12, 11];
    let line = report_line(0x0102_0304, [0x0506, 0x0708], [0x090A, 0x0B0C]);
    assert_eq!(ReportLine::from_bytes(&bytes), line);
}

#[test]
fn a_circuit_is_read_back() {
    let circuit = Circuit {
        number: 0x0102_0304,
        first: 0x0506,
        last: 0x0708,
    };
    assert_eq!(circuit.to_bytes(), [4, 3, 2, 1, 6, 5, 8, 7]);
    assert_eq!(Circuit::from_bytes(&circuit.to_bytes()), circuit);
}
