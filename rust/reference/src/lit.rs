//! the plan of 01 without dark fibres and without dark links.
use crate::records::Circuit;
use crate::{runs, Fibre, Place, Plan, Slip, NOWHERE};
use std::collections::BTreeSet;
use std::ops::RangeInclusive;

/// What becomes a fibre, and the circuits on it.
struct Strand {
    fibre: Fibre,
    riders: Vec<usize>,
}

/// The circuits of the old fibre with a number, in one group.
fn groups(number: usize, old: &Plan, slip: Slip) -> Vec<Vec<usize>> {
    let on = |j: &usize| old.places[*j].fibre == number;
    let mut riders: Vec<usize> = (0..old.places.len()).filter(on).collect();
    if slip != Slip::FibreForEachWavelength {
        return vec![riders];
    }
    let wavelength = |j: &usize| old.places[*j].wavelength;
    riders.sort_by_key(wavelength);
    let apart = riders.chunk_by(|i, j| wavelength(i) == wavelength(j));
    apart.map(<[usize]>::to_vec).collect()
}

/// The maximal runs of links that some circuits use.
fn used(n: usize, riders: &[Circuit], slip: Slip) -> Vec<RangeInclusive<usize>> {
    let uses_both = |i, j| {
        let mut links = riders.iter().map(Circuit::links);
        links.any(|links| links.contains(&i) && links.contains(&j))
    };
    let found = runs(n, |i| uses_both(i, i));
    match slip {
        Slip::GapBridged => found
            .first()
            .zip(found.last())
            .map(|(left, right)| *left.start()..=*right.end())
            .into_iter()
            .collect(),
        // Odd places stand for links, even ones for what lies between two links.
        Slip::AbuttingSplit => runs(2 * n, |at| uses_both(at.div_ceil(2), at / 2 + 1))
            .into_iter()
            .map(|run| run.start().div_ceil(2)..=run.end().div_ceil(2))
            .collect(),
        _ => found,
    }
}

/// What becomes of the old fibres: by old fibre, then by left end.
fn strands(n: usize, circuits: &[Circuit], old: &Plan, slip: Slip) -> Vec<Strand> {
    let mut list = Vec::new();
    for (at, fibre) in old.fibres.iter().enumerate() {
        for group in groups(at + 1, old, slip) {
            let riders: Vec<Circuit> = group.iter().map(|&j| circuits[j]).collect();
            for span in used(n, &riders, slip) {
                let on = |j: &usize| span.contains(&circuits[*j].first);
                list.push(Strand {
                    riders: group.iter().copied().filter(on).collect(),
                    fibre: Fibre {
                        span,
                        layer: fibre.layer,
                    },
                });
            }
        }
    }
    list
}

/// Counts the layers that there are from 1.
fn count_layers(strands: &mut [Strand]) {
    let layers: BTreeSet<usize> = strands.iter().map(|s| s.fibre.layer).collect();
    for strand in strands {
        strand.fibre.layer = layers.range(..=strand.fibre.layer).count();
    }
}

/// Gives each circuit the lowest wavelength that no circuit before it has that is on its fibre and overlaps it.
fn lower_wavelengths(circuits: &[Circuit], places: &mut [Place]) {
    for (j, circuit) in circuits.iter().enumerate() {
        let on = |wavelength| Place {
            wavelength,
            ..places[j]
        };
        let taken = |v| (0..j).any(|i| places[i] == on(v) && circuits[i].overlaps(circuit));
        places[j].wavelength = (1..).find(|&v| !taken(v)).unwrap_or(0);
    }
}

/// The plan of R-1: each maximal run of links that the circuits of an old fibre use is a fibre of the same layer in its
/// place; wavelengths stay.
pub fn lit(n: usize, circuits: &[Circuit], old: &Plan, slip: Slip) -> Plan {
    let mut strands = strands(n, circuits, old, slip);
    match slip {
        Slip::LeftEndFirst => strands.sort_by_key(|s| (s.fibre.layer, *s.fibre.span.start())),
        Slip::LayersFromOne => count_layers(&mut strands),
        _ => (),
    }
    let mut places = vec![NOWHERE; circuits.len()];
    for (at, strand) in strands.iter().enumerate() {
        for &j in &strand.riders {
            places[j] = Place {
                fibre: at + 1,
                wavelength: old.places[j].wavelength,
            };
        }
    }
    if slip == Slip::LowestWavelength {
        lower_wavelengths(circuits, &mut places);
    }
    let fibres = strands.into_iter().map(|s| s.fibre).collect();
    Plan { fibres, places }
}
