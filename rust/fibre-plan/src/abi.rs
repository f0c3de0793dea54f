//! The exported functions of the archive.
use crate::Old;

/// What `fibre_plan` and `fibre_add` answer, as the archive returns it. The layout is that of `include/fibre_plan.h`.
#[repr(C)]
pub struct PlanAnswer {
    pub refusal: u32,
    pub place: u32,
    pub end: u32,
    pub fibres: usize,
    pub total: usize,
    pub floor: usize,
}

/// What `fibre_check` answers, as the archive returns it. The layout is that of `include/fibre_plan.h`.
#[repr(C)]
pub struct CheckAnswer {
    pub refusal: u32,
    pub place: u32,
    pub end: u32,
    pub rule: u32,
    pub length: usize,
    pub floor: usize,
}

/// What `fibre_mend` answers, as the archive returns it. The layout is that of `include/fibre_plan.h`: first the fields of the others.
#[repr(C)]
pub struct MendAnswer {
    pub plan: PlanAnswer,
    pub lines: usize,
}

extern "C" {
    fn fibre_plan(
        links: usize,
        wavelengths: usize,
        grid: usize,
        circuits: *const u8,
        circuits_len: usize,
        fibres: *mut u8,
        fibres_len: usize,
        assignments: *mut u8,
        assignments_len: usize,
        work: *mut u8,
        work_len: usize,
    ) -> PlanAnswer;

    fn fibre_add(
        links: usize,
        wavelengths: usize,
        grid: usize,
        circuits: *const u8,
        circuits_len: usize,
        added: *const u8,
        added_len: usize,
        old_fibres: usize,
        old_assignments: usize,
        fibres: *mut u8,
        fibres_len: usize,
        assignments: *mut u8,
        assignments_len: usize,
        work: *mut u8,
        work_len: usize,
    ) -> PlanAnswer;

    fn fibre_mend(
        links: usize,
        wavelengths: usize,
        grid: usize,
        circuits: *const u8,
        circuits_len: usize,
        old_fibres: usize,
        fibres: *mut u8,
        fibres_len: usize,
        assignments: *mut u8,
        assignments_len: usize,
        report: *mut u8,
        report_len: usize,
        work: *mut u8,
        work_len: usize,
    ) -> MendAnswer;

    fn fibre_check(
        links: usize,
        wavelengths: usize,
        grid: usize,
        circuits: *const u8,
        circuits_len: usize,
        fibres: *const u8,
        fibres_len: usize,
        assignments: *const u8,
        assignments_len: usize,
    ) -> CheckAnswer;
}

/// Calls `fibre_plan` on lent areas.
pub fn plan(
    links: usize,
    wavelengths: usize,
    grid: usize,
    circuits: &[u8],
    fibres: &mut [u8],
    assignments: &mut [u8],
    work: &mut [u8],
) -> PlanAnswer {
    // SAFETY: the function takes every input; each pointer and length are those of a slice that is
    // borrowed for the call, and the three that are written, being `&mut`, overlap nothing.
    unsafe {
        fibre_plan(
            links,
            wavelengths,
            grid,
            circuits.as_ptr(),
            circuits.len(),
            fibres.as_mut_ptr(),
            fibres.len(),
            assignments.as_mut_ptr(),
            assignments.len(),
            work.as_mut_ptr(),
            work.len(),
        )
    }
}

/// Calls `fibre_add` on lent areas.
pub fn add(
    [links, wavelengths, grid]: [usize; 3],
    old: Old<'_>,
    added: &[u8],
    fibres: &mut [u8],
    assignments: &mut [u8],
    work: &mut [u8],
) -> PlanAnswer {
    // SAFETY: the function takes every input; each pointer and length are those of a slice that is
    // borrowed for the call, and the three that are written, being `&mut`, overlap nothing.
    unsafe {
        fibre_add(
            links,
            wavelengths,
            grid,
            old.circuits.as_ptr(),
            old.circuits.len(),
            added.as_ptr(),
            added.len(),
            old.fibres,
            old.assignments,
            fibres.as_mut_ptr(),
            fibres.len(),
            assignments.as_mut_ptr(),
            assignments.len(),
            work.as_mut_ptr(),
            work.len(),
        )
    }
}

/// Calls `fibre_mend` on lent areas.
pub fn mend(
    [links, wavelengths, grid]: [usize; 3],
    circuits: &[u8],
    old_fibres: usize,
    fibres: &mut [u8],
    assignments: &mut [u8],
    report: &mut [u8],
    work: &mut [u8],
) -> MendAnswer {
    // SAFETY: the function takes every input; each pointer and length are those of a slice that is
    // borrowed for the call, and the four that are written, being `&mut`, overlap nothing.
    unsafe {
        fibre_mend(
            links,
            wavelengths,
            grid,
            circuits.as_ptr(),
            circuits.len(),
            old_fibres,
            fibres.as_mut_ptr(),
            fibres.len(),
            assignments.as_mut_ptr(),
            assignments.len(),
            report.as_mut_ptr(),
            report.len(),
            work.as_mut_ptr(),
            work.len(),
        )
    }
}

/// Calls `fibre_check`.
pub fn check(
    links: usize,
    wavelengths: usize,
    grid: usize,
    circuits: &[u8],
    fibres: &[u8],
    assignments: &[u8],
) -> CheckAnswer {
    // SAFETY: the function takes every input, writes to none, and each pointer and length are those of a slice that is
    // borrowed for the call.
    unsafe {
        fibre_check(
            links,
            wavelengths,
            grid,
            circuits.as_ptr(),
            circuits.len(),
            fibres.as_ptr(),
            fibres.len(),
            assignments.as_ptr(),
            assignments.len(),
        )
    }
}

#[cfg(test)]
mod tests {
    use super::{add, check, mend, plan, CheckAnswer, MendAnswer};
    use crate::Old;

    const CIRCUIT: [u8; 8] = [7, 0, 0, 0, 1, 0, 1, 0];

    #[test]
    fn a_plan_has_no_refusal_no_place_and_no_end() {
        let answer = plan(1, 1, 1, &CIRCUIT, &mut [1; 8], &mut [1; 8], &mut [1; 8]);
        assert_eq!((answer.refusal, answer.place, answer.end), (0, 0, 0));
        assert_eq!((answer.fibres, answer.total, answer.floor), (1, 1, 1));
    }

    #[test]
    fn a_refusal_has_three_zeros() {
        let file = [CIRCUIT, CIRCUIT].concat();
        let answer = plan(1, 1, 1, &file, &mut [1; 16], &mut [1; 16], &mut [1; 12]);
        assert_eq!((answer.refusal, answer.place, answer.end), (7, 2, 0));
        assert_eq!((answer.fibres, answer.total, answer.floor), (0, 0, 0));
    }

    #[test]
    fn refusal_6_has_an_end_and_three_zeros() {
        for (first, last, end) in [(0, 9, 1), (9, 8, 2), (5, 6, 3)] {
            let file = [CIRCUIT, [8, 0, 0, 0, first, 0, last, 0]].concat();
            let answer = plan(5, 1, 1, &file, &mut [1; 16], &mut [1; 16], &mut [1; 28]);
            assert_eq!((answer.refusal, answer.place, answer.end), (6, 2, end));
            assert_eq!((answer.fibres, answer.total, answer.floor), (0, 0, 0));
        }
    }

    /// The six numbers of an addition of a file to circuit 7 on one fibre of one link and two wavelengths.
    fn added(file: &[u8]) -> ([u32; 3], [usize; 3]) {
        let old = Old {
            circuits: &CIRCUIT,
            fibres: 1,
            assignments: 1,
        };
        let mut fibres = [1, 0, 1, 0, 1, 0, 1, 0].repeat(2);
        let mut assignments = ASSIGNMENT.repeat(2);
        let line = [1, 2, 1];
        let answer = add(line, old, file, &mut fibres, &mut assignments, &mut [1; 12]);
        (
            [answer.refusal, answer.place, answer.end],
            [answer.fibres, answer.total, answer.floor],
        )
    }

    #[test]
    fn an_addition_has_three_numbers_or_a_refusal() {
        assert_eq!(added(&[8, 0, 0, 0, 1, 0, 1, 0]), ([0; 3], [1, 1, 1]));
        assert_eq!(added(&[7, 0, 0, 0, 1, 0, 1, 0]), ([14, 2, 0], [0; 3]));
        assert_eq!(added(&[8, 0, 0, 0, 1, 0, 2, 0]), ([6, 2, 3], [0; 3]));
    }

    /// The seven numbers of a mending of circuit 7, whose record is lost, on so many fibres of one link.
    fn mended(line: [usize; 3], old_fibres: usize) -> ([u32; 3], [usize; 4]) {
        let mut fibres = [1, 0, 1, 0, 1, 0, 1, 0].repeat(3);
        let (mut assignment, mut report, mut work) = ([0; 8], [1; 12], [1; 8]);
        let (f, a, r, k) = (&mut fibres, &mut assignment, &mut report, &mut work);
        let MendAnswer { plan, lines } = mend(line, &CIRCUIT, old_fibres, f, a, r, k);
        (
            [plan.refusal, plan.place, plan.end],
            [plan.fibres, plan.total, plan.floor, lines],
        )
    }

    #[test]
    fn a_mending_has_four_numbers_or_a_refusal() {
        assert_eq!(mended([1, 1, 1], 1), ([0; 3], [1, 1, 1, 1]));
        assert_eq!(mended([1, 1, 1], 2), ([20, 2, 0], [0; 4]));
        assert_eq!(mended([1, 1, 1], 3), ([8, 0, 0], [0; 4]));
        assert_eq!(mended([1, 1, 3], 1), ([12, 0, 0], [0; 4]));
    }

    /// The six numbers of an answer.
    fn numbers(answer: CheckAnswer) -> ([u32; 4], [usize; 2]) {
        (
            [answer.refusal, answer.place, answer.end, answer.rule],
            [answer.length, answer.floor],
        )
    }

    const FIBRE: [u8; 8] = [1, 0, 1, 0, 2, 0, 1, 0];
    const ASSIGNMENT: [u8; 8] = [7, 0, 0, 0, 1, 0, 1, 0];

    #[test]
    fn a_yes_has_a_length_and_a_floor() {
        let answer = check(2, 1, 1, &CIRCUIT, &FIBRE, &ASSIGNMENT);
        assert_eq!(numbers(answer), ([0; 4], [2, 1]));
    }

    #[test]
    fn a_no_has_a_rule_and_a_place() {
        let answer = check(1, 1, 1, &CIRCUIT, &FIBRE, &ASSIGNMENT);
        assert_eq!(numbers(answer), ([0, 1, 0, 2], [0; 2]));
        let answer = check(2, 1, 1, &CIRCUIT, &FIBRE, &[]);
        assert_eq!(numbers(answer), ([0, 0, 0, 3], [0; 2]));
    }

    #[test]
    fn a_check_that_is_refused_has_no_rule() {
        let answer = check(2, 1, 1, &[7, 0, 0, 0, 2, 0, 1, 0], &FIBRE, &ASSIGNMENT);
        assert_eq!(numbers(answer), ([6, 1, 2, 0], [0; 2]));
        let answer = check(2, 1, 1, &CIRCUIT, &FIBRE, &ASSIGNMENT[1..]);
        assert_eq!(numbers(answer), ([16, 2, 0, 0], [0; 2]));
    }
}
