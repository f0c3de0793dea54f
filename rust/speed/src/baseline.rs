//! The planner as a Rust programmer would write it: the same tests, the same bytes, no proof.
use std::collections::HashSet;

/// Number, place and end of a refusal.
pub type Refused = (u32, usize, u32);

/// How many fibres, their total length, and the floor.
pub type Counts = [usize; 3];

/// What a planner answers.
pub type Answer = Result<Counts, Refused>;

#[derive(Clone, Copy)]
pub struct Circuit {
    pub number: u32,
    pub first: u16,
    pub last: u16,
    /// Its place in the file, counted from 0.
    pub place: u16,
}

impl Circuit {
    /// Its first and last link, to count with.
    fn ends(&self) -> (usize, usize) {
        (usize::from(self.first), usize::from(self.last))
    }

    /// Its place, to index with.
    pub fn at(&self) -> usize {
        usize::from(self.place)
    }
}

pub struct Fibre {
    pub first: usize,
    pub last: usize,
    layer: usize,
}

#[derive(Clone, Copy, PartialEq)]
enum Colour {
    Red,
    Blue,
    Taken,
    Open,
}
use Colour::{Blue, Open, Red, Taken};

pub fn unless(holds: bool, number: u32) -> Result<(), Refused> {
    holds.then_some(()).ok_or((number, 0, 0))
}

pub fn unless_at(found: Option<usize>, number: u32) -> Result<(), Refused> {
    found.map_or(Ok(()), |at| Err((number, at + 1, 0)))
}

/// The circuits of a file.
pub fn read_circuits(file: &[u8]) -> Vec<Circuit> {
    let records = file.chunks_exact(8).enumerate();
    records.map(|(j, record)| read(j, record)).collect()
}

fn read(place: usize, record: &[u8]) -> Circuit {
    let two = |at: usize| u16::from_le_bytes([record[at], record[at + 1]]);
    Circuit {
        number: u32::from_le_bytes([record[0], record[1], record[2], record[3]]),
        first: two(4),
        last: two(6),
        place: place as u16,
    }
}

/// The numbers of circuits, or the first that repeats an earlier one's.
pub fn numbers(circuits: &[Circuit]) -> Result<HashSet<u32>, usize> {
    let mut seen = HashSet::with_capacity(circuits.len());
    let repeated = circuits.iter().position(|c| !seen.insert(c.number));
    repeated.map_or(Ok(seen), Err)
}

/// What is wrong with the ends of a circuit, or 0.
fn wrong_end(n: usize, circuit: &Circuit) -> u32 {
    let (first, last) = circuit.ends();
    if first == 0 {
        1
    } else if last < first {
        2
    } else if n < last {
        3
    } else {
        0
    }
}

/// Test 6.
pub fn accepted_ends(n: usize, circuits: &[Circuit]) -> Result<(), Refused> {
    let wrong = |(j, c): (usize, &Circuit)| (6, j + 1, wrong_end(n, c));
    let mut ends = circuits.iter().enumerate().map(wrong);
    ends.find(|(.., end)| *end != 0).map_or(Ok(()), Err)
}

/// Tests 3, 12 and 4.
pub fn accepted_line(n: usize, w: usize, grid: usize) -> Result<(), Refused> {
    unless((1..=512).contains(&n), 3)?;
    unless(grid == 1 || grid == 2, 12)?;
    let limit = if grid == 2 { 80 } else { 40 };
    unless((1..=limit).contains(&w), 4)
}

/// The circuits of a file that none of the tests 1 to 7 and 12 refuses.
pub fn accepted_circuits(
    n: usize,
    w: usize,
    grid: usize,
    file: &[u8],
) -> Result<Vec<Circuit>, Refused> {
    let m = file.len() / 8;
    unless(file.len().is_multiple_of(8), 1)?;
    unless(m <= 2048, 2)?;
    accepted_line(n, w, grid)?;
    let circuits = read_circuits(file);
    unless_at(circuits.iter().position(|c| c.number == 0), 5)?;
    accepted_ends(n, &circuits)?;
    unless_at(numbers(&circuits).err(), 7)?;
    Ok(circuits)
}

/// The circuits of a file that no test refuses; `lengths` are those of the lent areas.
fn accepted(
    n: usize,
    w: usize,
    grid: usize,
    file: &[u8],
    [fibres, assignments, work]: [usize; 3],
) -> Result<Vec<Circuit>, Refused> {
    let circuits = accepted_circuits(n, w, grid, file)?;
    let m = circuits.len();
    unless(8 * m <= fibres, 8)?;
    unless(8 * m <= assignments, 9)?;
    unless(4 * n + 4 * m <= work, 10)?;
    Ok(circuits)
}

/// Each link's c(i); index 0 is no link.
pub fn needs(n: usize, w: usize, circuits: &[Circuit]) -> Vec<usize> {
    let mut load = vec![0usize; n + 1];
    for c in circuits {
        let (first, last) = c.ends();
        load[first..=last].iter_mut().for_each(|l| *l += 1);
    }
    load.iter().map(|l| l.div_ceil(w)).collect()
}

/// The first link in from..to that is not such, or `to`.
fn end_of(from: usize, to: usize, such: impl Fn(usize) -> bool) -> usize {
    (from..to).find(|&i| !such(i)).unwrap_or(to)
}

/// Fills row k. `waiting` stands by rising number.
fn fill_row(k: usize, colours: &mut [Colour], waiting: &mut Vec<Circuit>, rows: &mut [usize]) {
    let end = colours.len();
    let mut from = 1;
    while let Some(l) = (from..end).find(|&i| colours[i] == Open) {
        from = l;
        let past = end_of(l, end, |i| colours[i] == Open);
        let high = end_of(past, end, |i| colours[i] == Blue);
        let low = (1..l)
            .rev()
            .find(|&i| colours[i] != Blue)
            .map_or(1, |i| i + 1);
        let fits = |c: &Circuit| {
            let (first, last) = c.ends();
            low <= first && first < past && l <= last && last < high
        };
        match waiting.iter().position(fits) {
            Some(at) => {
                let c = waiting.remove(at);
                let (first, last) = c.ends();
                rows[c.at()] = k;
                colours[first.max(l)..past.min(last + 1)].fill(Taken);
            }
            None => colours[l..past].fill(Blue),
        }
    }
}

/// The row of each circuit, counted from 1, in file order.
fn fill_sheet(w: usize, circuits: &[Circuit], c: &[usize], top: usize) -> Vec<usize> {
    let mut waiting = circuits.to_vec();
    waiting.sort_by_key(|c| c.number);
    let mut rows = vec![0; circuits.len()];
    let mut colours = vec![Red; c.len()];
    for k in 1..=top * w {
        for (colour, need) in colours.iter_mut().zip(c).skip(1) {
            if *colour != Blue {
                *colour = if k <= (top - need) * w { Red } else { Open };
            }
        }
        fill_row(k, &mut colours, &mut waiting, &mut rows);
    }
    rows
}

/// The first fibre of each pair, in the order of the list, and where each layer's pairs start.
fn pairs(c: &[usize], top: usize) -> (Vec<Fibre>, Vec<usize>) {
    let (mut list, mut starts) = (Vec::new(), Vec::new());
    for layer in 1..=top {
        starts.push(list.len());
        let lit = |i: usize| c[i] > top - layer;
        let mut i = 1;
        while let Some(first) = (i..c.len()).find(|&i| lit(i)) {
            i = end_of(first, c.len(), lit);
            list.push(Fibre {
                first,
                last: i - 1,
                layer,
            });
        }
    }
    (list, starts)
}

/// Whether each circuit gets the second fibre, in file order.
fn seconds(circuits: &[Circuit], rows: &[usize]) -> Vec<bool> {
    let mut order: Vec<&Circuit> = circuits.iter().collect();
    order.sort_by_key(|c| (rows[c.at()], c.last));
    let mut second = vec![false; circuits.len()];
    // The row reached, and the greatest last link on its first fibre.
    let (mut row, mut reach) = (0, 0);
    for c in order {
        if rows[c.at()] != row {
            (row, reach) = (rows[c.at()], 0);
        }
        if c.first <= reach {
            second[c.at()] = true;
        } else {
            reach = c.last;
        }
    }
    second
}

/// The pair of a circuit, among those of its layer and later ones.
fn pair_of(circuit: &Circuit, pairs: &[Fibre]) -> usize {
    let (first, _) = circuit.ends();
    let found = pairs.iter().position(|f| first <= f.last);
    found.expect("a circuit lies within a fibre of its layer")
}

/// The fibre of each circuit before dark ones are left out, counted from 0, in file order.
fn old_fibres(
    w: usize,
    circuits: &[Circuit],
    rows: &[usize],
    (pairs, starts): (&[Fibre], &[usize]),
) -> Vec<usize> {
    let old = |(circuit, second): (&Circuit, bool)| {
        let start = starts[(rows[circuit.at()] - 1) / w];
        2 * (start + pair_of(circuit, &pairs[start..])) + usize::from(second)
    };
    circuits
        .iter()
        .zip(seconds(circuits, rows))
        .map(old)
        .collect()
}

/// The runs of links that the circuits of each old fibre use, and the number of each circuit's, in file order.
fn light(circuits: &[Circuit], old: &[usize], pairs: &[Fibre]) -> (Vec<Fibre>, Vec<usize>) {
    let mut order: Vec<&Circuit> = circuits.iter().collect();
    order.sort_unstable_by_key(|c| (old[c.at()], c.first));
    let mut fibres: Vec<Fibre> = Vec::new();
    let mut numbers = vec![0; circuits.len()];
    let mut before = None;
    for c in order {
        let (first, last) = c.ends();
        let on = old[c.at()];
        match fibres.last_mut() {
            Some(f) if before == Some(on) && first <= f.last + 1 => f.last = f.last.max(last),
            _ => fibres.push(Fibre {
                first,
                last,
                layer: pairs[on / 2].layer,
            }),
        }
        before = Some(on);
        numbers[c.at()] = fibres.len();
    }
    (fibres, numbers)
}

/// Writes record i of a list, counted from 0.
pub fn put(list: &mut [u8], i: usize, fields: [u16; 4]) {
    let record = list[8 * i..8 * i + 8].chunks_exact_mut(2);
    for (bytes, field) in record.zip(fields) {
        bytes.copy_from_slice(&field.to_le_bytes());
    }
}

/// Writes fibres behind so many others.
pub fn write_fibres(list: &mut [u8], before: usize, fibres: &[Fibre]) {
    for (i, f) in (before..).zip(fibres) {
        let fields = [i + 1, f.first, f.last, f.layer];
        put(list, i, fields.map(|x| x as u16));
    }
}

/// Writes the assignment of a circuit as record i of a list.
pub fn write_assignment(list: &mut [u8], i: usize, circuit: &Circuit, fibre: u16, wavelength: u16) {
    let halves = [circuit.number as u16, (circuit.number >> 16) as u16];
    put(list, i, [halves[0], halves[1], fibre, wavelength]);
}

/// A plan: its fibres, and the number of each circuit's fibre and its wavelength, in file order.
pub struct Plan {
    pub fibres: Vec<Fibre>,
    numbers: Vec<usize>,
    rows: Vec<usize>,
    w: usize,
}

impl Plan {
    /// Fibre number and wavelength of a circuit.
    pub fn place(&self, at: usize) -> (usize, usize) {
        (self.numbers[at], (self.rows[at] - 1) % self.w + 1)
    }
}

/// Plans circuits, where link i needs c(i).
pub fn settle(w: usize, circuits: &[Circuit], c: &[usize]) -> Plan {
    let top = c.iter().copied().max().unwrap_or(0);
    let rows = fill_sheet(w, circuits, c, top);
    let (pairs, starts) = pairs(c, top);
    let old = old_fibres(w, circuits, &rows, (&pairs, &starts));
    let (fibres, numbers) = light(circuits, &old, &pairs);
    Plan {
        fibres,
        numbers,
        rows,
        w,
    }
}

/// Plans the circuit records on lent areas.
pub fn plan(
    n: usize,
    w: usize,
    grid: usize,
    file: &[u8],
    fibres: &mut [u8],
    assignments: &mut [u8],
    work: &mut [u8],
) -> Answer {
    let lengths = [fibres.len(), assignments.len(), work.len()];
    let circuits = accepted(n, w, grid, file, lengths)?;
    let c = needs(n, w, &circuits);
    let plan = settle(w, &circuits, &c);
    write_fibres(fibres, 0, &plan.fibres);
    for circuit in &circuits {
        let (fibre, wavelength) = plan.place(circuit.at());
        write_assignment(
            assignments,
            circuit.at(),
            circuit,
            fibre as u16,
            wavelength as u16,
        );
    }
    work[..4 * n + 4 * circuits.len()].fill(0);
    let total = plan.fibres.iter().map(|f| f.last - f.first + 1).sum();
    Ok([plan.fibres.len(), total, c.iter().sum()])
}
