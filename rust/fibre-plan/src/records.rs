//! The records, 8 bytes each, and the lines of a report, 12 bytes each; numbers low byte first.

/// The bytes of a record.
pub const RECORD_BYTES: usize = 8;

/// The bytes of a line of a report.
pub const REPORT_LINE_BYTES: usize = 12;

/// A circuit that is asked for: links `first` to `last`.
#[derive(Clone, Copy, Debug, PartialEq, Eq, Hash)]
pub struct Circuit {
    /// The circuit's number, from 1; no two circuits of a file have the same.
    pub number: u32,
    /// Its first link, from 1.
    pub first: u16,
    /// Its last link.
    pub last: u16,
}

/// A fibre of a plan: it spans links `first` to `last`.
#[derive(Clone, Copy, Debug, PartialEq, Eq, Hash)]
pub struct Fibre {
    /// The fibre's number: its place in the list, from 1.
    pub number: u16,
    /// Its first link.
    pub first: u16,
    /// Its last link.
    pub last: u16,
    /// The layer that it belongs to, from 1; a layer may have no fibre.
    pub layer: u16,
}

/// Where a circuit is carried.
#[derive(Clone, Copy, Debug, PartialEq, Eq, Hash)]
pub struct Assignment {
    /// The circuit's number.
    pub circuit: u32,
    /// The number of its fibre.
    pub fibre: u16,
    /// Its wavelength, from 1.
    pub wavelength: u16,
}

/// A line of the report of a mending: a circuit that was not kept, where it was found, and where it is carried. The two may be alike.
#[derive(Clone, Copy, Debug, PartialEq, Eq, Hash)]
pub struct ReportLine {
    /// The circuit's number.
    pub circuit: u32,
    /// The number of the fibre in the record at the circuit's place, whatever else stood there.
    pub found_fibre: u16,
    /// The wavelength in that record.
    pub found_wavelength: u16,
    /// The number of its fibre.
    pub given_fibre: u16,
    /// Its wavelength.
    pub given_wavelength: u16,
}

/// The two bytes at `at`, as a number.
fn half(bytes: &[u8], at: usize) -> u16 {
    u16::from_le_bytes([bytes[at], bytes[at + 1]])
}

/// The first four bytes, as a number.
fn whole(bytes: &[u8]) -> u32 {
    u32::from_le_bytes([bytes[0], bytes[1], bytes[2], bytes[3]])
}

/// A record of a number of four bytes and two of two.
fn join(number: u32, one: u16, two: u16) -> [u8; RECORD_BYTES] {
    let mut bytes = [0; RECORD_BYTES];
    bytes[..4].copy_from_slice(&number.to_le_bytes());
    bytes[4..6].copy_from_slice(&one.to_le_bytes());
    bytes[6..].copy_from_slice(&two.to_le_bytes());
    bytes
}

impl Circuit {
    /// The circuit record.
    pub fn to_bytes(self) -> [u8; RECORD_BYTES] {
        join(self.number, self.first, self.last)
    }

    /// Reads a circuit record.
    pub fn from_bytes(bytes: &[u8; RECORD_BYTES]) -> Self {
        Self {
            number: whole(bytes),
            first: half(bytes, 4),
            last: half(bytes, 6),
        }
    }
}

impl Fibre {
    /// The fibre record.
    pub fn to_bytes(self) -> [u8; RECORD_BYTES] {
        let mut bytes = [0; RECORD_BYTES];
        let fields = [self.number, self.first, self.last, self.layer];
        for (at, field) in bytes.chunks_exact_mut(2).zip(fields) {
            at.copy_from_slice(&field.to_le_bytes());
        }
        bytes
    }

    /// Reads a fibre record.
    pub fn from_bytes(bytes: &[u8; RECORD_BYTES]) -> Self {
        Self {
            number: half(bytes, 0),
            first: half(bytes, 2),
            last: half(bytes, 4),
            layer: half(bytes, 6),
        }
    }
}

impl Assignment {
    /// The assignment record.
    pub fn to_bytes(self) -> [u8; RECORD_BYTES] {
        join(self.circuit, self.fibre, self.wavelength)
    }

    /// Reads an assignment record.
    pub fn from_bytes(bytes: &[u8; RECORD_BYTES]) -> Self {
        Self {
            circuit: whole(bytes),
            fibre: half(bytes, 4),
            wavelength: half(bytes, 6),
        }
    }
}

impl ReportLine {
    /// Reads a line of a report.
    pub fn from_bytes(bytes: &[u8; REPORT_LINE_BYTES]) -> Self {
        Self {
            circuit: whole(bytes),
            found_fibre: half(bytes, 4),
            found_wavelength: half(bytes, 6),
            given_fibre: half(bytes, 8),
            given_wavelength: half(bytes, 10),
        }
    }
}

/// The bytes of a list of records, but of no more than one past so many: what is past the limits is refused, and the others
/// do not matter for that.
pub fn encode<T: Copy>(
    list: &[T],
    most: usize,
    write: impl Fn(T) -> [u8; RECORD_BYTES],
) -> Vec<u8> {
    let records = list.iter().take(most + 1);
    records.flat_map(|&record| write(record)).collect()
}

/// The first `many` records of a list, or lines of a report.
pub fn decode<T, const BYTES: usize>(
    list: &[u8],
    many: usize,
    read: impl Fn(&[u8; BYTES]) -> T,
) -> Vec<T> {
    let (records, _) = list.as_chunks();
    records.iter().take(many).map(read).collect()
}
