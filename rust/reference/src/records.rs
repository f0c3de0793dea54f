//! The records: 8 bytes each, low byte first.
use crate::{Fibre, Place};
use std::ops::RangeInclusive;

/// A circuit [first, last].
#[derive(Clone, Copy, Debug)]
pub struct Circuit {
    /// Its number.
    pub number: u32,
    /// Its first link.
    pub first: usize,
    /// Its last link.
    pub last: usize,
}

/// A number of some bytes, low byte first.
fn number(bytes: &[u8]) -> u32 {
    bytes
        .iter()
        .rev()
        .fold(0, |high, &b| 256 * high + u32::from(b))
}

/// Two bytes, low byte first.
fn two(x: usize) -> [u8; 2] {
    [(x % 256) as u8, (x / 256) as u8]
}

impl Circuit {
    /// Reads a circuit record.
    pub fn read(record: &[u8]) -> Self {
        Self {
            number: number(&record[0..4]),
            first: number(&record[4..6]) as usize,
            last: number(&record[6..8]) as usize,
        }
    }

    /// The links that it uses.
    pub fn links(&self) -> RangeInclusive<usize> {
        self.first..=self.last
    }

    /// Whether the two share a link.
    pub fn overlaps(&self, other: &Circuit) -> bool {
        self.links().any(|i| other.links().contains(&i))
    }

    /// Its assignment record.
    pub(crate) fn assigned(&self, place: Place) -> [u8; 8] {
        let [a, b, c, d] = [0, 8, 16, 24].map(|shift| (self.number >> shift) as u8);
        let [[e, f], [g, h]] = [two(place.fibre), two(place.wavelength)];
        [a, b, c, d, e, f, g, h]
    }
}

impl Fibre {
    /// Its record, with the number that it has in the list.
    pub(crate) fn record(&self, number: usize) -> [u8; 8] {
        let [[a, b], [c, d]] = [two(number), two(*self.span.start())];
        let [[e, f], [g, h]] = [two(*self.span.end()), two(self.layer)];
        [a, b, c, d, e, f, g, h]
    }
}

/// The number and the fibre of a fibre record.
pub(crate) fn fibre(record: &[u8]) -> (usize, Fibre) {
    let [place, first, last, layer] = [0, 2, 4, 6].map(|at| number(&record[at..at + 2]) as usize);
    let span = first..=last;
    (place, Fibre { span, layer })
}

/// The circuit number and the place of an assignment record.
pub(crate) fn assignment(record: &[u8]) -> (u32, Place) {
    let [fibre, wavelength] = [4, 6].map(|at| number(&record[at..at + 2]) as usize);
    (number(&record[0..4]), Place { fibre, wavelength })
}

/// Writes record i of a list, counted from 0.
pub fn put(list: &mut [u8], i: usize, record: [u8; 8]) {
    list[8 * i..8 * i + 8].copy_from_slice(&record);
}
