//! The sheet, row by row.
use crate::records::Circuit;
use crate::{runs, Slip};
use std::ops::RangeInclusive;

#[derive(Clone, Copy, PartialEq)]
enum Colour {
    Red,
    Blue,
    Taken,
    Open,
}
use Colour::{Blue, Open, Red, Taken};

/// Whether a circuit uses a link of the run, and each of its links is in the run or blue.
fn fits(c: &Circuit, run: &RangeInclusive<usize>, colours: &[Colour], slip: Slip) -> bool {
    let allowed = |i| colours[i] == Blue || (slip == Slip::TakenNotSeen && colours[i] == Taken);
    c.links().all(|i| run.contains(&i) || allowed(i)) && c.links().any(|i| run.contains(&i))
}

/// The row of each circuit, counted from 1; `None` where none was found for it.
pub fn rows(
    n: usize,
    w: usize,
    circuits: &[Circuit],
    c: &[usize],
    slip: Slip,
) -> Vec<Option<usize>> {
    let top = c.iter().copied().max().unwrap_or(0);
    let mut rows = vec![None; circuits.len()];
    let mut colours = vec![Red; n + 1];
    for k in 1..=top * w {
        for i in 1..=n {
            if k <= (top - c[i]) * w {
                colours[i] = Red;
            } else if colours[i] != Blue || slip == Slip::BlueNotKept {
                colours[i] = Open;
            }
        }
        while let Some(run) = runs(n, |i| colours[i] == Open).into_iter().next() {
            let waits_and_fits =
                |&j: &usize| rows[j].is_none() && fits(&circuits[j], &run, &colours, slip);
            let mut fitting = (0..circuits.len()).filter(waits_and_fits);
            let chosen = match slip {
                Slip::TiesByPlace => fitting.next(),
                _ => fitting.min_by_key(|&j| circuits[j].number),
            };
            match chosen {
                Some(j) => {
                    rows[j] = Some(k);
                    let used = circuits[j].links().filter(|i| run.contains(i));
                    used.for_each(|i| colours[i] = Taken);
                }
                None => colours[run].fill(Blue),
            }
        }
    }
    rows
}
