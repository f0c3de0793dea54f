//! Inputs: each is made from its number alone, so that a failure can be had again.
use crate::areas::Input;
use inputs::{encode, grid_and_wavelengths, Circuit, Numbers, Rng, FAMILIES};
use reference::Line;

/// The most links, wavelengths and circuits of an input.
#[derive(Clone, Copy)]
pub struct Size {
    pub links: usize,
    pub wavelengths: usize,
    pub circuits: usize,
}

pub const SMALL: Size = Size {
    links: 12,
    wavelengths: 4,
    circuits: 14,
};
pub const MIDDLE: Size = Size {
    links: 100,
    wavelengths: 80,
    circuits: 120,
};
/// Many fibres on a short line.
pub const DENSE: Size = Size {
    links: 24,
    wavelengths: 8,
    circuits: 200,
};
pub const LARGE: Size = Size {
    links: 512,
    wavelengths: 80,
    circuits: 2048,
};

/// The generator of input i of a series.
pub fn rng_of(series: u64, i: usize) -> Rng {
    Rng::new(Rng::new(series).bits() ^ i as u64)
}

/// Circuits of one family, their numbers rising or not.
pub fn circuits(links: usize, many: usize, rng: &mut Rng) -> Vec<Circuit> {
    let family = FAMILIES[rng.within(0, 5)];
    let numbers = [Numbers::Rising, Numbers::Shuffled][rng.within(0, 1)];
    let mut list = family.circuits(many, links, numbers, rng);
    if rng.once_in(2) {
        rng.shuffle(&mut list);
    }
    list
}

/// An input that is accepted, on either grid. Half of them are lent more than they need.
pub fn accepted(size: Size, rng: &mut Rng) -> Input {
    let links = rng.within(1, size.links);
    let (grid, wavelengths) = grid_and_wavelengths(size.wavelengths, rng);
    let many = rng.within(0, size.circuits);
    let file = encode(&circuits(links, many, rng));
    let mut input = Input::new([links, wavelengths, grid], file);
    if rng.once_in(2) {
        input.lengths = input.lengths.map(|length| length + rng.within(0, 40));
    }
    input
}

/// An input at the limits: 512 links and 2,048 circuits, on either grid.
pub fn full_size(rng: &mut Rng) -> Input {
    let file = encode(&circuits(LARGE.links, LARGE.circuits, rng));
    let (grid, wavelengths) = grid_and_wavelengths(LARGE.wavelengths, rng);
    Input::new([LARGE.links, wavelengths, grid], file)
}

/// Numbers of links that no line has; some are small if they are cut to 8, 16 or 32 bits.
const BAD_LINKS: [usize; 6] = [0, 513, 256 + 513, 65_536 + 3, (1 << 32) + 3, usize::MAX];

/// Numbers of wavelengths that no fibre of grid 1 has; fibres of grid 2 may have the first two.
const BAD_WAVELENGTHS: [usize; 8] = [
    41,
    80,
    81,
    0,
    256 + 3,
    65_536 + 3,
    (1 << 32) + 3,
    usize::MAX,
];

/// Numbers that no grid has; some are 1 or 2 if they are cut to 8, 16 or 32 bits.
const BAD_GRIDS: [usize; 8] = [
    0,
    3,
    50,
    256 + 1,
    256 + 2,
    65_536 + 1,
    (1 << 32) + 2,
    usize::MAX,
];

/// Spoils one number of the line.
pub fn spoil_line(line: &mut Line, rng: &mut Rng) {
    match rng.within(0, 2) {
        0 => line.n = BAD_LINKS[rng.within(0, 5)],
        1 => line.w = BAD_WAVELENGTHS[rng.within(0, 7)],
        _ => line.grid = BAD_GRIDS[rng.within(0, 7)],
    }
}

/// Writes a two-byte field of a record.
pub fn set_half(file: &mut [u8], at: usize, x: usize) {
    file[at..at + 2].copy_from_slice(&(x as u16).to_le_bytes());
}

/// Spoils one circuit record.
pub fn spoil_record(file: &mut [u8], links: usize, rng: &mut Rng) {
    let many = file.len() / 8;
    if many == 0 {
        return;
    }
    let at = 8 * rng.within(0, many - 1);
    let other = 8 * rng.within(0, many - 1);
    match rng.within(0, 6) {
        0 => file[at..at + 4].fill(0),
        1 => set_half(file, at + 4, 0),
        2 => set_half(file, at + 4, links.saturating_add(1)),
        3 => set_half(file, at + 6, links.saturating_add(1)),
        4 => file.copy_within(other..other + 4, at),
        5 => {
            // The first link is past the last, and the last past the line.
            set_half(file, at + 4, links.saturating_add(2));
            set_half(file, at + 6, links.saturating_add(1));
        }
        _ => file[at + rng.within(0, 7)] ^= 1 << rng.within(0, 7),
    }
}

/// Makes a list of at most so many records shorter or longer, or too long.
pub fn spoil_length(list: &mut Vec<u8>, most: usize, rng: &mut Rng) {
    match rng.within(0, 2) {
        0 => list.truncate(list.len().saturating_sub(rng.within(1, 9))),
        1 => list.resize(list.len() + rng.within(1, 9), 1),
        _ => list.resize(8 * most + rng.within(1, 9), 1),
    }
}

/// Makes a lent area too short.
fn spoil_room(input: &mut Input, rng: &mut Rng) {
    let length = &mut input.lengths[rng.within(0, 2)];
    *length = match rng.within(0, 1) {
        0 => length.saturating_sub(1),
        _ => 0,
    };
}

/// An input with one to four faults, some of which may undo each other.
pub fn damaged(rng: &mut Rng) -> Input {
    let mut input = accepted(SMALL, rng);
    for _ in 0..rng.within(1, 4) {
        match rng.within(0, 9) {
            0 | 1 => spoil_line(&mut input.line, rng),
            2 | 3 => spoil_length(&mut input.circuits, LARGE.circuits, rng),
            4 => spoil_room(&mut input, rng),
            _ => spoil_record(&mut input.circuits, input.line.n, rng),
        }
    }
    input
}

/// A file of 2,048 circuits in which record `at` has the number of the record so far before it.
pub fn repeated(numbers: Numbers, at: usize, distance: usize) -> Input {
    let number = |i: usize| numbers.of(if i == at { at - distance } else { i });
    let list: Vec<Circuit> = (0..LARGE.circuits).map(|i| (number(i), 1, 1)).collect();
    Input::new([1, 1, 1], encode(&list))
}

/// The digits of a number, each of its own base.
pub struct Digits(pub usize);

impl Digits {
    pub fn next(&mut self, base: usize) -> u16 {
        let digit = self.0 % base;
        self.0 /= base;
        digit as u16
    }
}

/// The first and the last of two links.
pub fn span(digits: &mut Digits) -> (u16, u16) {
    [(1, 1), (1, 2), (2, 2)][usize::from(digits.next(3))]
}

/// Circuit numbers of the small inputs: none, and an order that is another byte by byte.
const NUMBERS: [u32; 4] = [0, 1, 2, 1 << 24];

/// How many circuits there are with these numbers and both ends 0 to n + 1.
pub fn circuits_on(links: usize) -> usize {
    NUMBERS.len() * (links + 2) * (links + 2)
}

/// Of all files of so many such circuits, the one that has a number.
pub fn file_of(links: usize, many: usize, code: usize) -> Vec<u8> {
    let mut digits = Digits(code);
    let mut circuit = || {
        let number = NUMBERS[usize::from(digits.next(NUMBERS.len()))];
        (number, digits.next(links + 2), digits.next(links + 2))
    };
    let list: Vec<Circuit> = (0..many).map(|_| circuit()).collect();
    encode(&list)
}
