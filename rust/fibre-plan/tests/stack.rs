//! How much stack one call uses, as the header says: of `fibre_plan` less than 48 KB, of `fibre_check` less than 64 KB, of `fibre_add` and `fibre_mend` less than 96 KB.
#![cfg(target_arch = "x86_64")]
use fibre_plan::{
    add_bytes, assignment_bytes, check_bytes, fibre_bytes, mend_bytes, plan_bytes, report_bytes,
    work_bytes, Finding, Old, Rule,
};
use inputs::{encode, Family, Numbers, Rng, FAMILIES};
use std::arch::asm;
use std::hint::black_box;

/// What the header promises that a plan stays below.
const PLAN: usize = 48 * 1024;

/// What the header promises that an addition stays below.
const ADD: usize = 96 * 1024;

/// What the header promises that a mending stays below.
const MEND: usize = 96 * 1024;

/// What the header promises that a check stays below.
const CHECK: usize = 64 * 1024;

/// The stack that is lent, far more than what is promised.
const STACK: usize = 1024 * 1024;

/// 16 bytes of stack: a stack's top stands at a multiple of 16.
#[derive(Clone, Copy)]
#[repr(C, align(16))]
struct Line([u8; 16]);

/// One call with its areas.
struct Call {
    links: usize,
    wavelengths: usize,
    grid: usize,
    circuits: Vec<u8>,
    added: Vec<u8>,
    old_fibres: usize,
    fibres: Vec<u8>,
    assignments: Vec<u8>,
    report: Vec<u8>,
    work: Vec<u8>,
    planned: bool,
    checked: Option<Finding>,
}

impl Call {
    /// A call at the limits: 512 links and 2,048 circuits.
    fn new(family: Family, numbers: Numbers, (wavelengths, grid): (usize, usize)) -> Self {
        let mut rng = Rng::new(wavelengths as u64);
        let mut list = family.circuits(2048, 512, numbers, &mut rng);
        rng.shuffle(&mut list);
        Self {
            links: 512,
            wavelengths,
            grid,
            circuits: encode(&list),
            added: vec![],
            old_fibres: 0,
            fibres: vec![0; fibre_bytes(2048)],
            assignments: vec![0; assignment_bytes(2048)],
            report: vec![0; report_bytes(2048)],
            work: vec![0; work_bytes(512, 2048)],
            planned: false,
            checked: None,
        }
    }
}

/// Makes the call.
extern "C" fn make(call: &mut Call) {
    let answer = plan_bytes(
        call.links,
        call.wavelengths,
        call.grid,
        &call.circuits,
        &mut call.fibres,
        &mut call.assignments,
        &mut call.work,
    );
    call.planned = answer.is_ok();
}

/// Adds the new circuits to what is in the areas.
extern "C" fn add(call: &mut Call) {
    let old = Old {
        circuits: &call.circuits,
        fibres: call.old_fibres,
        assignments: call.circuits.len() / 8,
    };
    let answer = add_bytes(
        [call.links, call.wavelengths, call.grid],
        old,
        &call.added,
        &mut call.fibres,
        &mut call.assignments,
        &mut call.work,
    );
    call.planned = answer.is_ok();
}

/// Mends what is in the areas.
extern "C" fn mend(call: &mut Call) {
    let answer = mend_bytes(
        [call.links, call.wavelengths, call.grid],
        &call.circuits,
        call.old_fibres,
        &mut call.fibres,
        &mut call.assignments,
        &mut call.report,
        &mut call.work,
    );
    call.planned = answer.is_ok();
}

/// Checks what is in the areas.
extern "C" fn check(call: &mut Call) {
    let answer = check_bytes(
        call.links,
        call.wavelengths,
        call.grid,
        &call.circuits,
        &call.fibres,
        &call.assignments,
    );
    call.checked = answer.ok();
}

/// Calls a function on a stack that is lent.
fn call_on<T>(stack: &mut [Line], function: extern "C" fn(&mut T), argument: &mut T) {
    let top = stack.as_mut_ptr_range().end;
    // SAFETY: the stack is lent for the call, its top is a multiple of 16, and the stack pointer, kept in a register
    // that the callee preserves, is put back.
    unsafe {
        asm!(
            "mov r12, rsp",
            "mov rsp, {top}",
            "call {function}",
            "mov rsp, r12",
            top = in(reg) top,
            function = in(reg) function,
            in("rdi") argument,
            out("r12") _,
            clobber_abi("C"),
        );
    }
}

/// The bytes of stack down to the lowest that a call writes; a byte that is written with the paint does not show.
fn used<T>(function: extern "C" fn(&mut T), argument: &mut T, paint: u8) -> usize {
    let mut stack = vec![Line([paint; 16]); STACK / 16];
    call_on(&mut stack, function, argument);
    let mut bytes = stack.iter().flat_map(|line| line.0);
    STACK - bytes.position(|byte| byte != paint).unwrap_or(STACK)
}

/// Writes some bytes of stack.
extern "C" fn write_20_000(seed: &mut u8) {
    black_box([*seed; 20_000]);
}

#[test]
fn what_is_written_is_seen() {
    let bytes = used(write_20_000, &mut 1, 0xa5);
    assert!((20_000..40_100).contains(&bytes), "{bytes}");
}

/// The most bytes that a function writes to the stack, for calls at the limits.
fn most(
    function: extern "C" fn(&mut Call),
    prepare: fn(&mut Call),
    done: impl Fn(&Call) -> bool,
) -> usize {
    let mut most = 0;
    for family in FAMILIES {
        for numbers in [Numbers::Rising, Numbers::Shuffled] {
            for carried in [(1, 1), (4, 2), (16, 1), (40, 1), (80, 2)] {
                for paint in [0xa5, 0x5a] {
                    let mut call = Call::new(family, numbers, carried);
                    prepare(&mut call);
                    most = most.max(used(function, &mut call, paint));
                    assert!(done(&call));
                }
            }
        }
    }
    most
}

#[test]
fn a_plan_uses_less_than_48_kb_of_stack() {
    let most = most(make, |_| (), |call| call.planned);
    println!("fibre_plan uses at most {most} bytes of stack");
    assert!(most < PLAN, "{most} bytes of stack");
}

/// Plans, and adds dark fibres up to so many.
fn plan_and_fill_to(call: &mut Call, many: u16) {
    make(call);
    let filled = |record: &[u8]| record[0] != 0 || record[1] != 0;
    let count = call.fibres.chunks_exact(8).filter(|r| filled(r)).count();
    call.fibres.truncate(8 * count);
    for number in count as u16 + 1..=many {
        let [low, high] = number.to_le_bytes();
        call.fibres.extend([low, high, 1, 0, 1, 0, 0, 0]);
    }
}

/// Plans, and adds dark fibres up to the most that are checked.
fn plan_and_fill(call: &mut Call) {
    plan_and_fill_to(call, 4096);
}

/// Plans so many of the circuits, adds dark fibres up to the most that others are added to, and leaves the rest to be added.
fn plan_some<const OLD: usize>(call: &mut Call) {
    call.added = call.circuits.split_off(8 * OLD);
    plan_and_fill_to(call, 2048);
    assert!(call.planned);
    call.old_fibres = 2048;
    call.fibres
        .resize(8 * call.old_fibres + call.added.len(), 0);
}

#[test]
fn an_addition_uses_less_than_96_kb_of_stack() {
    let prepared: [fn(&mut Call); 5] = [
        plan_some::<0>,
        plan_some::<1>,
        plan_some::<1024>,
        plan_some::<1920>,
        plan_some::<2048>,
    ];
    let most = prepared.map(|prepare| most(add, prepare, |call| call.planned));
    println!("fibre_add uses at most {most:?} bytes of stack");
    assert!(
        most.into_iter().all(|most| most < ADD),
        "{most:?} bytes of stack"
    );
}

/// Plans, adds dark fibres up to the most that are mended, and loses one record of so many; of 0, none.
fn plan_and_lose<const OF: usize>(call: &mut Call) {
    plan_some::<2048>(call);
    call.fibres.resize(8 * (call.old_fibres + 2048), 0);
    let records = call.assignments.chunks_exact_mut(8).enumerate();
    for (_, record) in records.filter(|(at, _)| OF > 0 && at.is_multiple_of(OF)) {
        record.fill(0);
    }
}

#[test]
fn a_mending_uses_less_than_96_kb_of_stack() {
    let prepared: [fn(&mut Call); 4] = [
        plan_and_lose::<0>,
        plan_and_lose::<1>,
        plan_and_lose::<2>,
        plan_and_lose::<100>,
    ];
    let most = prepared.map(|prepare| most(mend, prepare, |call| call.planned));
    println!("fibre_mend uses at most {most:?} bytes of stack");
    assert!(
        most.into_iter().all(|most| most < MEND),
        "{most:?} bytes of stack"
    );
}

/// Plans and fills, and gives the last circuit the place of the one before it.
fn plan_and_spoil(call: &mut Call) {
    plan_and_fill(call);
    let end = call.assignments.len();
    let before = end - 12..end - 8;
    call.assignments.copy_within(before, end - 4);
    // Both have the same ends.
    let end = call.circuits.len();
    call.circuits.copy_within(end - 12..end - 8, end - 4);
}

#[test]
fn a_check_uses_less_than_64_kb_of_stack() {
    let yes = |call: &Call| matches!(call.checked, Some(Finding::Yes { .. }));
    let (rule, place) = (Rule::Clash, 2048);
    let no = |call: &Call| call.checked == Some(Finding::No { rule, place });
    let most = most(check, plan_and_fill, yes).max(most(check, plan_and_spoil, no));
    println!("fibre_check uses at most {most} bytes of stack");
    assert!(most < CHECK, "{most} bytes of stack");
}
