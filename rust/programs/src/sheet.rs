//! Sheets and texts as they should be.
use crate::Line;
use inputs::Circuit;
use std::fmt::Write;

/// The number of two bytes that stands at a place.
fn two_at(record: &[u8], at: usize) -> u16 {
    u16::from_le_bytes([record[at], record[at + 1]])
}

/// The plan of the records of a line, by the reference: its three numbers and both lists, or the refusal.
fn plan_of(
    line: Line,
    circuits: &[u8],
) -> Result<(reference::Counts, [Vec<u8>; 2]), reference::Refused> {
    let [n, w] = [line.n, line.w].map(usize::from);
    let grid = line.grid_meant();
    let many = circuits.len() / 8;
    let mut fibres = vec![0; 8 * many];
    let mut assignments = vec![0; 8 * many];
    let mut work = vec![0; 4 * n + 4 * many];
    let counts = reference::plan(
        reference::Line { n, w, grid },
        circuits,
        &mut fibres,
        &mut assignments,
        &mut work,
    )?;
    fibres.truncate(8 * counts.fibres);
    Ok((counts, [fibres, assignments]))
}

/// The bytes of `fibres.rec` and `assign.rec` for the records of a line, by the reference; none where they are refused.
pub fn lists_of(line: impl Into<Line>, circuits: &[u8]) -> Option<[Vec<u8>; 2]> {
    plan_of(line.into(), circuits).ok().map(|(_, lists)| lists)
}

/// The line of a refusal.
fn refusal(refused: reference::Refused) -> String {
    format!("R {} {} {}\n", refused.number, refused.place, refused.end)
}

/// The sheet of two lists, with their three numbers.
fn sheet(line: Line, counts: reference::Counts, fibres: &[u8], assignments: &[u8]) -> String {
    let mut text = String::new();
    for record in fibres.chunks_exact(8) {
        let [number, first, last, layer] = [0, 2, 4, 6].map(|at| two_at(record, at));
        writeln!(text, "F {number} {first} {last} {layer}").unwrap();
    }
    for record in assignments.chunks_exact(8) {
        let number = u32::from_le_bytes(record[..4].try_into().unwrap());
        let [fibre, wavelength] = [4, 6].map(|at| two_at(record, at));
        let frequency = reference::frequency(line.grid_meant(), wavelength);
        writeln!(text, "C {number} {fibre} {wavelength} {frequency}").unwrap();
    }
    writeln!(
        text,
        "T {} {} {}",
        counts.fibres, counts.total, counts.floor
    )
    .unwrap();
    text
}

/// The sheet of the records of a line, by the reference: its lines, or the line of the refusal.
pub fn sheet_of(line: impl Into<Line>, circuits: &[u8]) -> String {
    let line = line.into();
    match plan_of(line, circuits) {
        Ok((counts, [fibres, assignments])) => sheet(line, counts, &fibres, &assignments),
        Err(refused) => refusal(refused),
    }
}

/// A plan as its three record files: the circuits, the fibres and the assignments.
pub type Files = [Vec<u8>; 3];

/// The sheet of a plan with new circuits added, and its files, by the reference; or the line of the refusal, and none.
pub fn grown_of(line: impl Into<Line>, old: &Files, new: &[u8]) -> (String, Option<Files>) {
    let line = line.into();
    let [n, w] = [line.n, line.w].map(usize::from);
    let grid = line.grid_meant();
    let [circuits, mut fibres, mut assignments] = old.clone();
    let many = [&circuits[..], new].map(|file| file.len() / 8);
    // A list that is not whole records is no plan: more fibres are named than an addition takes.
    let whole = fibres.len() % 8 == 0 && assignments.len() % 8 == 0;
    let named = reference::Old {
        circuits: &circuits,
        fibres: if whole { fibres.len() / 8 } else { 2049 },
        assignments: assignments.len() / 8,
    };
    fibres.resize(8 * (named.fibres + many[1]), 0);
    assignments.resize(8 * (named.assignments + many[1]), 0);
    let mut work = vec![0; 4 * n + 4 * (many[0] + many[1])];
    let line_of = reference::Line { n, w, grid };
    match reference::add(
        line_of,
        named,
        new,
        &mut fibres,
        &mut assignments,
        &mut work,
    ) {
        Ok(counts) => {
            fibres.truncate(8 * counts.fibres);
            let text = sheet(line, counts, &fibres, &assignments);
            let files = [[&circuits[..], new].concat(), fibres, assignments];
            (text, Some(files))
        }
        Err(refused) => (refusal(refused), None),
    }
}

/// The text that a person would type for the circuits of a line.
pub fn text_of(line: impl Into<Line>, circuits: &[Circuit]) -> String {
    let header: Vec<String> = line.into().numbers().map(|x| x.to_string()).collect();
    let mut text = header.join(" ") + "\n";
    for (number, first, last) in circuits {
        writeln!(text, "{number} {first} {last}").unwrap();
    }
    text
}

/// Two texts are the same; else the first line that differs is told.
///
/// # Panics
///
/// Where they are not.
#[track_caller]
pub fn assert_same(printed: &str, expected: &str) {
    if printed == expected {
        return;
    }
    let mut expected_lines = expected.split_inclusive('\n');
    let mut lines = printed.split_inclusive('\n').enumerate();
    let differs = lines.find(|(_, line)| expected_lines.next() != Some(line));
    let (at, line) = differs.unwrap_or((printed.lines().count(), ""));
    let expected = expected.split_inclusive('\n').nth(at).unwrap_or("");
    panic!("line {} is {line:?}, not {expected:?}", at + 1);
}
