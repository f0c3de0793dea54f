//! The table of refusals.
use std::error::Error;
use std::fmt;

/// Which end of a circuit is wrong: the first of these that applies to it.
#[derive(Clone, Copy, Debug, PartialEq, Eq, Hash)]
pub enum End {
    /// 1: the first link is 0.
    FirstZero,
    /// 2: the first link is past the last.
    FirstPastLast,
    /// 3: the last link is past the line.
    LastPastLine,
}

impl End {
    /// Its number in the table.
    pub const fn number(self) -> u32 {
        match self {
            Self::FirstZero => 1,
            Self::FirstPastLast => 2,
            Self::LastPastLine => 3,
        }
    }

    /// What is wrong.
    const fn text(self) -> &'static str {
        match self {
            Self::FirstZero => "first link 0",
            Self::FirstPastLast => "first link past the last",
            Self::LastPastLine => "last link past the line",
        }
    }
}

impl fmt::Display for End {
    fn fmt(&self, f: &mut fmt::Formatter<'_>) -> fmt::Result {
        f.write_str(self.text())
    }
}

/// Why an input was refused. A place is that of a circuit, counted from 1, but for 16 and 20. Where circuits are added, those of the new
/// file count on from those of the old one.
#[derive(Clone, Copy, Debug, PartialEq, Eq, Hash)]
#[non_exhaustive]
pub enum Refusal {
    /// 1: the bytes of a circuit file are not a multiple of 8.
    Records,
    /// 2: there are more than 2,048 circuits, old and new ones counted together.
    Circuits,
    /// 3: the number of links is not 1 to 512.
    Links,
    /// 12: the grid is neither 1 nor 2. It is tested between 3 and 4.
    Grid,
    /// 4: the number of wavelengths is not 1 to 40, on grid 1, or 1 to 80, on grid 2.
    Wavelengths,
    /// 5: a circuit number is 0.
    Zero {
        /// The first such record.
        place: usize,
    },
    /// 6: a first link is 0, or past the last link, or the last link is past the line.
    Ends {
        /// The first such record.
        place: usize,
        /// Which of the three it is.
        end: End,
    },
    /// 7: a circuit number stands twice in a file.
    Repeated {
        /// The first record that repeats an earlier one.
        place: usize,
    },
    /// 8: the fibre list has fewer than 8 bytes an old record and 8 bytes a circuit that is planned or mended.
    FibreRoom,
    /// 9: the assignment list has fewer than 8 bytes an old record and 8 bytes a circuit that is planned.
    AssignmentRoom,
    /// 10: the work area has fewer than 4 bytes a link and 4 bytes a circuit, old or new.
    WorkRoom,
    /// 13: the plan that circuits are to be added to is not a valid one on this line, as [`check`](crate::check) tells, or has more
    /// than 2,048 fibres.
    OldPlan,
    /// 14: a circuit that is to be added has the number of an old one.
    OldNumber {
        /// The first such record of the new file.
        place: usize,
    },
    /// 16, place 1: the fibre list to be checked is not whole records, or more than 4,096.
    FibreList,
    /// 16, place 2: the assignment list to be checked is not whole records, or more than 2,048; one to be mended is not one whole record
    /// for each circuit.
    AssignmentList,
    /// 20, place 0: the register to be mended has more than 2,048 fibres.
    Fibres,
    /// 20: a fibre of the register to be mended breaks rule 1 or 2 of [`Rule`](crate::Rule).
    FibreRecord {
        /// The first such fibre.
        place: usize,
    },
    /// 23: the report has fewer than 12 bytes a circuit.
    ReportRoom,
    /// What this crate's table does not have: the archive is newer.
    Other {
        /// Its number.
        number: u32,
        /// Its place.
        place: usize,
        /// Its end.
        end: u32,
    },
}

impl Refusal {
    /// The refusal with a number, a place and an end of the table; none of the three is lost.
    pub(crate) fn from_table(number: u32, place: usize, end: u32) -> Self {
        let at = |end| Self::Ends { place, end };
        match (number, place, end) {
            (1, 0, 0) => Self::Records,
            (2, 0, 0) => Self::Circuits,
            (3, 0, 0) => Self::Links,
            (4, 0, 0) => Self::Wavelengths,
            (5, _, 0) => Self::Zero { place },
            (6, _, 1) => at(End::FirstZero),
            (6, _, 2) => at(End::FirstPastLast),
            (6, _, 3) => at(End::LastPastLine),
            (7, _, 0) => Self::Repeated { place },
            (8, 0, 0) => Self::FibreRoom,
            (9, 0, 0) => Self::AssignmentRoom,
            (10, 0, 0) => Self::WorkRoom,
            (12, 0, 0) => Self::Grid,
            (13, 0, 0) => Self::OldPlan,
            (14, _, 0) => Self::OldNumber { place },
            (16, 1, 0) => Self::FibreList,
            (16, 2, 0) => Self::AssignmentList,
            (20, 0, 0) => Self::Fibres,
            (20, _, 0) => Self::FibreRecord { place },
            (23, 0, 0) => Self::ReportRoom,
            _ => Self::Other { number, place, end },
        }
    }

    /// Its number in the table.
    pub fn number(self) -> u32 {
        match self {
            Self::Records => 1,
            Self::Circuits => 2,
            Self::Links => 3,
            Self::Wavelengths => 4,
            Self::Zero { .. } => 5,
            Self::Ends { .. } => 6,
            Self::Repeated { .. } => 7,
            Self::FibreRoom => 8,
            Self::AssignmentRoom => 9,
            Self::WorkRoom => 10,
            Self::Grid => 12,
            Self::OldPlan => 13,
            Self::OldNumber { .. } => 14,
            Self::FibreList | Self::AssignmentList => 16,
            Self::Fibres | Self::FibreRecord { .. } => 20,
            Self::ReportRoom => 23,
            Self::Other { number, .. } => number,
        }
    }

    /// The circuit that it is about, counted from 1, or for 16 the list: 1 the fibres, 2 the assignments, or for 20 the fibre; 0 where it
    /// is about none.
    pub fn place(self) -> usize {
        match self {
            Self::Zero { place }
            | Self::Ends { place, .. }
            | Self::Repeated { place }
            | Self::OldNumber { place }
            | Self::FibreRecord { place }
            | Self::Other { place, .. } => place,
            Self::FibreList => 1,
            Self::AssignmentList => 2,
            _ => 0,
        }
    }

    /// The number of the end that is wrong, 1, 2 or 3 as [`End::number`], or 0 where it is not refusal 6.
    pub fn end(self) -> u32 {
        match self {
            Self::Ends { end, .. } => end.number(),
            Self::Other { end, .. } => end,
            _ => 0,
        }
    }

    /// What is wrong.
    fn text(self) -> &'static str {
        match self {
            Self::Records => "the circuit bytes are not a multiple of 8",
            Self::Circuits => "there are more than 2,048 circuits",
            Self::Links => "the number of links is not 1 to 512",
            Self::Grid => "the grid is neither 1 nor 2",
            Self::Wavelengths => {
                "the number of wavelengths is not 1 to 40, on grid 1, or 1 to 80, on grid 2"
            }
            Self::Zero { .. } => "its number is 0",
            Self::Ends { end, .. } => end.text(),
            Self::Repeated { .. } => "its number stands twice",
            Self::FibreRoom => "the fibre list is too short",
            Self::AssignmentRoom => "the assignment list is too short",
            Self::WorkRoom => "the work area is too short",
            Self::OldPlan => {
                "the old plan is not valid on this line, or has more than 2,048 fibres"
            }
            Self::OldNumber { .. } => "its number stands in the old file",
            Self::FibreList => "the fibre list is not whole records, or more than 4,096",
            Self::AssignmentList => {
                "the assignment list is not whole records, or more than 2,048, or, to be mended, not one a circuit"
            }
            Self::Fibres => "there are more than 2,048 fibres",
            Self::FibreRecord { .. } => {
                "its number is not its place, or first link 0 or past the last, or last link past the line"
            }
            Self::ReportRoom => "the report is too short",
            Self::Other { .. } => "this crate has no words for it",
        }
    }
}

impl fmt::Display for Refusal {
    fn fmt(&self, f: &mut fmt::Formatter<'_>) -> fmt::Result {
        write!(f, "refusal {}", self.number())?;
        match (self, self.place()) {
            (_, 0) => (),
            (Self::FibreList | Self::AssignmentList, place) => write!(f, ", list {place}")?,
            (Self::FibreRecord { .. }, place) => write!(f, ", fibre {place}")?,
            (_, place) => write!(f, ", record {place}")?,
        }
        write!(f, ": {}", self.text())
    }
}

impl Error for Refusal {}

#[cfg(test)]
mod tests {
    use super::Refusal;

    #[test]
    fn each_number_is_handed_on() {
        for number in 1..=24 {
            for place in [0, 1, 2, 3, 2048] {
                for end in 0..=4 {
                    let refusal = Refusal::from_table(number, place, end);
                    let numbers = (refusal.number(), refusal.place(), refusal.end());
                    assert_eq!(numbers, (number, place, end));
                }
            }
        }
    }
}
