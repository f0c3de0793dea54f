//! Mistakes to make on purpose, so that a comparison can be seen to fail.

/// A mistake, or none.
#[derive(Clone, Copy, Debug, PartialEq, Eq)]
pub enum Slip {
    /// No mistake.
    None,
    /// Of the circuits that fit, the first in the file is placed.
    TiesByPlace,
    /// Blue links are open again in the next row.
    BlueNotKept,
    /// Where a circuit is free to choose, it gets the second fibre.
    SecondFirst,
    /// L(i) / w is rounded down.
    RoundedDown,
    /// A circuit may lie over taken links beside the run.
    TakenNotSeen,
    /// Every link has the largest c(i).
    LargestLoad,
    /// A fibre's length is last link less first.
    LastLessFirst,
    /// The work area is left as it was.
    WorkNotZeroed,
    /// An old fibre becomes one, from its first to its last used link.
    GapBridged,
    /// Circuits of an old fibre that abut and do not overlap get a fibre each.
    AbuttingSplit,
    /// Fibres of a layer are numbered by left end, then by old fibre.
    LeftEndFirst,
    /// The layers that have fibres are counted from 1.
    LayersFromOne,
    /// An old fibre's wavelengths become fibres apart.
    FibreForEachWavelength,
    /// Refusal 8 asks for 16 bytes a circuit.
    RoomForPairs,
    /// The total is twice the floor.
    TwiceTheFloor,
    /// A circuit gets the lowest wavelength that is free on its new fibre.
    LowestWavelength,
    /// Test 4 comes before test 12.
    FourBeforeTwelve,
    /// Both grids have the limit of grid 1.
    OneLimit,
    /// Of a record's wrong ends, 3 is tested before 2.
    ThreeBeforeTwo,
    /// Each of the three ends is tested over the whole file before the next.
    EndByEnd,
    /// Refusal 5 has end 1.
    EndForFive,
    /// The lists to be checked are tested before the circuits.
    ListsFirst,
    /// Of the lists to be checked, the assignments are tested first.
    AssignmentListFirst,
    /// 4,096 fibres are too many to be checked.
    OneFibreLess,
    /// 4,097 fibres are not too many to be checked.
    OneFibreMore,
    /// 2,049 assignments are not too many to be checked.
    OneAssignmentMore,
    /// Each rule is tested over a whole list before the next.
    RuleByRule,
    /// A fibre of layer 0 breaks rule 2.
    LayerNotIgnored,
    /// Rule 3 comes before the fibres.
    CountFirst,
    /// Rule 3 comes after the assignments.
    CountLast,
    /// The numbers of rules 5 and 6 are exchanged.
    FiveForSix,
    /// Wavelength w + 1 is allowed.
    OneWavelengthMore,
    /// Circuits with one fibre and wavelength clash even if they do not overlap.
    ClashWithoutOverlap,
    /// Rule 8 has the place of the earlier one.
    EarlierOfTwo,
    /// A new circuit gets the highest wavelength that is free on its fibre.
    HighestWavelength,
    /// The first fibre that spans a new circuit is taken, and if no wavelength is free there, none.
    FirstThatSpans,
    /// Of the free places the one with the lowest wavelength is taken, then the lowest fibre.
    LowestWavelengthOfAll,
    /// A wavelength that a circuit has somewhere on a fibre is free nowhere on it.
    WholeFibreTaken,
    /// What the old circuits have counts as free.
    OldNotSeen,
    /// New circuits take their turns in file order.
    TurnsByPlace,
    /// New circuits take their turns by falling number.
    TurnsFalling,
    /// Those that are left are planned one by one.
    OneByOne,
    /// The layers of added fibres run on from the old ones.
    LayersCountedOn,
    /// Added fibres are numbered from 1.
    NumberedFromOne,
    /// The new assignments are written by rising number.
    WrittenByNumber,
    /// The old fibres get layer 1.
    OldLayersChanged,
    /// Only so much of the work area is zeroed as the new file asks for.
    WorkOfNewFile,
    /// The floor is that of the new file.
    FloorOfNewFile,
    /// Number and total of the fibres are those of the added ones.
    NumbersOfNewFibres,
    /// Test 1 is of both files joined.
    OneOfJoinedFile,
    /// Test 2 is of each file.
    TwoOfEachFile,
    /// Tests 5, 6 and 7 are those of the old file, then those of the new one.
    FileByFile,
    /// Test 7 is of both files joined.
    SevenOfJoinedFile,
    /// Test 7 is of the new file, then of the old one.
    SevenOfNewFileFirst,
    /// The places of 5, 6 and 7 in the new file count from 1.
    PlacesFromOne,
    /// The place of 14 counts from 1.
    FourteenFromOne,
    /// Test 8 asks for 8 bytes for each old fibre and for each circuit of both files.
    RoomForOldCircuits,
    /// The bytes that 8 and 9 ask for are counted in a machine word, which wraps around.
    RoomWraps,
    /// Test 10 counts the new file only.
    TenOfNewFile,
    /// How many old assignments are named does not matter.
    NamedAssignmentsIgnored,
    /// 2,048 old fibres are too many.
    OneOldFibreLess,
    /// 2,049 old fibres are not too many.
    OneOldFibreMore,
    /// Test 13 comes before test 10.
    ThirteenBeforeTen,
    /// Test 14 comes before test 13.
    FourteenBeforeThirteen,
    /// Test 14 comes before test 8.
    FourteenBeforeEight,
    /// Circuits are kept and placed in one pass.
    OnePass,
    /// An assignment is looked for by its circuit number, wherever it stands.
    FoundByNumber,
    /// Assignments are kept in file order.
    KeptByPlace,
    /// Assignments are kept by falling number.
    KeptFalling,
    /// An assignment that names another circuit is kept if that is all that is wrong with it.
    RuleFourNotSeen,
    /// What clashes with a sound assignment is not kept, even if that one is not kept either.
    ClashWithNotKept,
    /// What is found in a record that is not kept counts as taken.
    FoundCountsAsTaken,
    /// The number in a record that is not kept stays.
    NumberNotMended,
    /// Test 9 is run as well.
    NineTested,
    /// Test 16 comes before test 10.
    SixteenBeforeTen,
    /// More assignments than circuits are allowed.
    MoreAssignments,
    /// Refusal 16 has no place.
    SixteenWithoutPlace,
    /// Test 20 comes before test 16.
    TwentyBeforeSixteen,
    /// Refusal 20 has no place.
    TwentyWithoutPlace,
    /// Refusal 20 for too many fibres has the place of the first that is too many.
    PlaceOfTooMany,
    /// Test 23 comes before test 20.
    TwentyThreeBeforeTwenty,
    /// Test 23 asks for 12 bytes for each line that is written.
    ReportForLines,
    /// The report has a line for a circuit that is kept, too.
    LineForKept,
    /// The lines stand in file order.
    LinesByPlace,
    /// A line has what is given in place of what was found.
    GivenForFound,
    /// A line has the circuit number that was found in the record.
    CircuitOfRecord,
    /// The rest of the report is zeroed.
    ReportZeroed,
}

/// The mistakes with the base.
pub const BASE_SLIPS: [Slip; 8] = [
    Slip::TiesByPlace,
    Slip::BlueNotKept,
    Slip::SecondFirst,
    Slip::RoundedDown,
    Slip::TakenNotSeen,
    Slip::LargestLoad,
    Slip::LastLessFirst,
    Slip::WorkNotZeroed,
];

/// The mistakes with R-1.
pub const LIT_SLIPS: [Slip; 8] = [
    Slip::GapBridged,
    Slip::AbuttingSplit,
    Slip::LeftEndFirst,
    Slip::LayersFromOne,
    Slip::FibreForEachWavelength,
    Slip::RoomForPairs,
    Slip::TwiceTheFloor,
    Slip::LowestWavelength,
];

/// The mistakes with R-5.
pub const GRID_SLIPS: [Slip; 2] = [Slip::FourBeforeTwelve, Slip::OneLimit];

/// The mistakes with R-6. The order 2, 1, 3 is none: a first link 0 is never past the last.
pub const END_SLIPS: [Slip; 3] = [Slip::ThreeBeforeTwo, Slip::EndByEnd, Slip::EndForFive];

/// The mistakes with R-7.
pub const CHECK_SLIPS: [Slip; 13] = [
    Slip::ListsFirst,
    Slip::AssignmentListFirst,
    Slip::OneFibreLess,
    Slip::OneFibreMore,
    Slip::OneAssignmentMore,
    Slip::RuleByRule,
    Slip::LayerNotIgnored,
    Slip::CountFirst,
    Slip::CountLast,
    Slip::FiveForSix,
    Slip::OneWavelengthMore,
    Slip::ClashWithoutOverlap,
    Slip::EarlierOfTwo,
];

/// The mistakes with R-2.
pub const ADD_SLIPS: [Slip; 31] = [
    Slip::HighestWavelength,
    Slip::FirstThatSpans,
    Slip::LowestWavelengthOfAll,
    Slip::WholeFibreTaken,
    Slip::OldNotSeen,
    Slip::TurnsByPlace,
    Slip::TurnsFalling,
    Slip::OneByOne,
    Slip::LayersCountedOn,
    Slip::NumberedFromOne,
    Slip::WrittenByNumber,
    Slip::OldLayersChanged,
    Slip::WorkOfNewFile,
    Slip::FloorOfNewFile,
    Slip::NumbersOfNewFibres,
    Slip::OneOfJoinedFile,
    Slip::TwoOfEachFile,
    Slip::FileByFile,
    Slip::SevenOfJoinedFile,
    Slip::SevenOfNewFileFirst,
    Slip::PlacesFromOne,
    Slip::FourteenFromOne,
    Slip::RoomForOldCircuits,
    Slip::RoomWraps,
    Slip::TenOfNewFile,
    Slip::NamedAssignmentsIgnored,
    Slip::OneOldFibreLess,
    Slip::OneOldFibreMore,
    Slip::ThirteenBeforeTen,
    Slip::FourteenBeforeThirteen,
    Slip::FourteenBeforeEight,
];

/// The mistakes with R-11, and those with that it can have as well.
pub const MEND_SLIPS: [Slip; 45] = [
    Slip::OnePass,
    Slip::FoundByNumber,
    Slip::KeptByPlace,
    Slip::KeptFalling,
    Slip::RuleFourNotSeen,
    Slip::ClashWithNotKept,
    Slip::FoundCountsAsTaken,
    Slip::NumberNotMended,
    Slip::RoomForPairs,
    Slip::NineTested,
    Slip::SixteenBeforeTen,
    Slip::MoreAssignments,
    Slip::SixteenWithoutPlace,
    Slip::TwentyBeforeSixteen,
    Slip::TwentyWithoutPlace,
    Slip::PlaceOfTooMany,
    Slip::TwentyThreeBeforeTwenty,
    Slip::ReportForLines,
    Slip::LineForKept,
    Slip::LinesByPlace,
    Slip::GivenForFound,
    Slip::CircuitOfRecord,
    Slip::ReportZeroed,
    Slip::HighestWavelength,
    Slip::FirstThatSpans,
    Slip::LowestWavelengthOfAll,
    Slip::WholeFibreTaken,
    Slip::OldNotSeen,
    Slip::TurnsByPlace,
    Slip::TurnsFalling,
    Slip::OneByOne,
    Slip::LayersCountedOn,
    Slip::NumberedFromOne,
    Slip::FloorOfNewFile,
    Slip::NumbersOfNewFibres,
    Slip::RoomWraps,
    Slip::OneOldFibreLess,
    Slip::OneOldFibreMore,
    Slip::WorkNotZeroed,
    Slip::FourBeforeTwelve,
    Slip::RuleByRule,
    Slip::LayerNotIgnored,
    Slip::OneWavelengthMore,
    Slip::ClashWithoutOverlap,
    Slip::LastLessFirst,
];
