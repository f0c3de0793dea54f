//! From rows to fibres: the plan of 01, in which fibres come in pairs and may be dark.
use crate::records::Circuit;
use crate::{runs, sheet, Fibre, Place, Plan, Slip, NOWHERE};

/// The fibres: by layer, then by left end, two of each.
fn fibres(n: usize, c: &[usize]) -> Vec<Fibre> {
    let top = c.iter().copied().max().unwrap_or(0);
    let mut list = Vec::new();
    for layer in 1..=top {
        for span in runs(n, |i| c[i] > top - layer) {
            for span in [span.clone(), span] {
                list.push(Fibre { span, layer });
            }
        }
    }
    list
}

/// The circuits of one row whose first link is on a fibre, by rising last link.
fn of_run(circuits: &[Circuit], row: &[usize], fibre: &Fibre) -> Vec<usize> {
    let on = |j: &usize| fibre.span.contains(&circuits[*j].first);
    let mut found: Vec<usize> = row.iter().copied().filter(on).collect();
    found.sort_by_key(|&j| circuits[j].last);
    found
}

/// Where each circuit is carried.
fn assignments(
    w: usize,
    circuits: &[Circuit],
    rows: &[Option<usize>],
    fibres: &[Fibre],
    slip: Slip,
) -> Vec<Place> {
    let last_row = rows.iter().flatten().copied().max().unwrap_or(0);
    let mut by_row = vec![Vec::new(); last_row + 1];
    for (j, row) in rows.iter().enumerate() {
        by_row[row.unwrap_or(0)].push(j);
    }
    let mut places = vec![NOWHERE; circuits.len()];
    for (k, row) in by_row.iter().enumerate().skip(1) {
        let layer = k.div_ceil(w);
        let pairs = fibres.iter().enumerate().step_by(2);
        for (at, fibre) in pairs.filter(|(_, f)| f.layer == layer) {
            let mut on_first: Vec<usize> = Vec::new();
            for j in of_run(circuits, row, fibre) {
                let clash = on_first.iter().any(|&i| circuits[i].overlaps(&circuits[j]));
                if !clash {
                    on_first.push(j);
                }
                let second = clash != (slip == Slip::SecondFirst);
                places[j] = Place {
                    fibre: at + 1 + usize::from(second),
                    wavelength: k - (layer - 1) * w,
                };
            }
        }
    }
    places
}

/// The plan of 01, where link i needs c(i).
pub fn paired(n: usize, w: usize, circuits: &[Circuit], c: &[usize], slip: Slip) -> Plan {
    let rows = sheet::rows(n, w, circuits, c, slip);
    let fibres = fibres(n, c);
    let places = assignments(w, circuits, &rows, &fibres, slip);
    Plan { fibres, places }
}
