//! What `typed` prints for a text, and that it writes no file.
use inputs::{encode, Circuit, Family, Numbers, Rng};
use programs::texts::{right_texts, wrong_texts, LISTING, MOST_BYTES};
use programs::{
    assert_same, random_line, run, run_without_input, sheet_of, text_of, Folder, Line, UNREAD_INPUT,
};

/// What is wrong, by number and end of a refusal, on a line.
fn fault(number: &str, end: &str, line: Line) -> &'static str {
    match (number, end, line.grid_meant()) {
        ("3", "0", _) => "not 1 to 512 links",
        ("12", "0", _) => "a grid that is neither 1 nor 2",
        ("4", "0", 1) => "not 1 to 40 wavelengths",
        ("4", "0", 2) => "not 1 to 80 wavelengths",
        ("5", "0", _) => "circuit number 0",
        ("6", "1", _) => "first link 0",
        ("6", "2", _) => "first link past the last",
        ("6", "3", _) => "last link past the line",
        ("7", "0", _) => "a circuit number that stands twice",
        refused => panic!("{refused:?}"),
    }
}

/// The program prints this for a text, whatever stands in its folder, and changes nothing there.
#[track_caller]
fn prints(text: &[u8], expected: &str) {
    for folder in [
        Folder::new(),
        Folder::with_records((9, 3), &encode(&[(77, 8, 9)])),
    ] {
        let before = folder.entries();
        assert_same(&run("typed", &folder, text), expected);
        assert!(folder.entries() == before, "the folder has changed");
    }
}

/// The numbers of the lines that count: that of the header, then those of the circuits.
fn lines_that_count(text: &[u8]) -> Vec<usize> {
    let counts = |line: &[u8]| {
        let first = line.iter().find(|byte| !b" \t\r".contains(byte));
        first.is_some_and(|&byte| byte != b'#')
    };
    let lines = text.split(|&byte| byte == b'\n').enumerate();
    lines
        .filter(|(_, line)| counts(line))
        .map(|(at, _)| at + 1)
        .collect()
}

/// The sheet of a text that says this, or its refusal with the line of the text.
fn expected(text: &[u8], line: Line, circuits: &[Circuit]) -> String {
    let sheet = sheet_of(line, &encode(circuits));
    let Some(refused) = sheet.strip_prefix("R ") else {
        return sheet;
    };
    let fields: Vec<&str> = refused.trim_end().split(' ').collect();
    let [number, place, end] = fields[..] else {
        panic!("{sheet}");
    };
    // The header is the line before the first circuit's, and its refusals have place 0.
    let at = lines_that_count(text)[place.parse::<usize>().unwrap()];
    format!("{sheet}line {at}: {}\n", fault(number, end, line))
}

#[test]
fn right_texts_are_planned_or_refused() {
    for (text, line, circuits) in right_texts() {
        prints(&text, &expected(&text, line, &circuits));
    }
}

#[test]
fn wrong_texts_are_told() {
    for (text, told) in wrong_texts() {
        prints(&text, &told);
    }
}

#[test]
fn the_listing() {
    let sheet = "F 1 1 5 2\nF 2 2 5 2\n\
        C 10 1 2 192200\nC 20 2 1 192100\nC 30 1 1 192100\nC 40 1 2 192200\nT 2 9 6\n";
    prints(text_of((5, 2), &LISTING).as_bytes(), sheet);
    prints(text_of((5, 2, 1), &LISTING).as_bytes(), sheet);
    let fifty = sheet.replace("192200", "192150");
    prints(text_of((5, 2, 2), &LISTING).as_bytes(), &fifty);
    prints(b"# no circuits\n5 2", "T 0 0 0\n");
}

/// A text is refused by this line, and then the number of its line and the fault are told; and so it is with idle lines
/// before it.
#[track_caller]
fn refuses(text: &str, refusal: &str, line: usize, fault: &str) {
    for (before, lines) in [("", 0), ("# 5 2\n", 1), ("\n \t\r\n  # x\n\n", 4)] {
        let told = format!("{refusal}\nline {}: {fault}\n", line + lines);
        prints(format!("{before}{text}").as_bytes(), &told);
    }
}

#[test]
fn each_refusal_and_its_line() {
    for n in ["0", "513", "65535"] {
        let text = format!("{n} 41\n# x\n\n0 0 0\n");
        refuses(&text, "R 3 0 0", 1, "not 1 to 512 links");
    }
    for grid in ["0", "3", "65535"] {
        let text = format!("5 81 {grid}\n# x\n0 0 0\n");
        refuses(&text, "R 12 0 0", 1, "a grid that is neither 1 nor 2");
    }
    for header in ["512 0", "512 41", "512 65535", "5 41 1", "5 80 1"] {
        let text = format!("{header}\n\n# x\n0 0 0\n");
        refuses(&text, "R 4 0 0", 1, "not 1 to 40 wavelengths");
    }
    for header in ["512 0 2", "5 81 2", "5 65535 2"] {
        let text = format!("{header}\n\n# x\n0 0 0\n");
        refuses(&text, "R 4 0 0", 1, "not 1 to 80 wavelengths");
    }
    let text = "5 2\n# x\n10 0 9\n\n0 1 3\n10 1 1\n0 1 1";
    refuses(text, "R 5 2 0", 5, "circuit number 0");
    let text = "5 2\r\n10 1 3\r\n\r\n20 1 3\r\n# 10 1 3\r\n10 1 3\r\n20 1 3\r\n";
    refuses(text, "R 7 3 0", 6, "a circuit number that stands twice");
}

#[test]
fn each_wrong_end_and_its_line() {
    for (refusal, fault, wrong) in [
        ("R 6 3 1", "first link 0", ["0 1", "0 0", "0 9"]),
        ("R 6 3 2", "first link past the last", ["3 2", "9 8", "1 0"]),
        (
            "R 6 3 3",
            "last link past the line",
            ["5 6", "6 6", "1 65535"],
        ),
    ] {
        for ends in wrong {
            let text = format!("5 2\n10 1 3\n# x\n20 2 5\n\n10 {ends}\n40 9 9\n50 0 1\n");
            refuses(&text, refusal, 6, fault);
        }
    }
}

#[test]
fn n_w_and_grid_are_told_apart() {
    prints(b"5 80 2", "T 0 0 0\n");
    prints(
        b"2 5 80",
        "R 12 0 0\nline 1: a grid that is neither 1 nor 2\n",
    );
    prints(b"41 40", "T 0 0 0\n");
    prints(b"40 41", "R 4 0 0\nline 1: not 1 to 40 wavelengths\n");
    prints(
        b"2 5\n10 1 3\n",
        "R 6 1 3\nline 2: last link past the line\n",
    );
}

#[test]
fn sheets_at_the_limits() {
    for (w, grid) in [(1, 1), (40, 1), (80, 2)] {
        for family in [Family::Random, Family::Full] {
            let mut list = family.circuits(2048, 512, Numbers::Shuffled, &mut Rng::new(w.into()));
            for (i, circuit) in list.iter_mut().enumerate() {
                circuit.0 = u32::MAX - i as u32;
            }
            let mut text = text_of((512, w, grid), &list).into_bytes();
            text.resize(MOST_BYTES, b'\n');
            prints(&text, &sheet_of((512, w, grid), &encode(&list)));
        }
    }
}

/// The text of a line, with lines between that do not count.
fn with_idle_lines(text: &str, rng: &mut Rng) -> String {
    let idle = ["", "", "\n", "# 1 1 1\n", "\r\n", " \t\n", "\t#\r\n"];
    let lines = text.split_inclusive('\n');
    lines
        .map(|line| idle[rng.within(0, 6)].to_owned() + line)
        .collect()
}

#[test]
fn random_texts() {
    for seed in 0..200 {
        let (line, circuits) = random_line(seed);
        let text = with_idle_lines(&text_of(line, &circuits), &mut Rng::new(seed));
        prints(text.as_bytes(), &expected(text.as_bytes(), line, &circuits));
    }
}

#[test]
fn standard_input_that_cannot_be_read() {
    let folder = Folder::with_records((9, 3), &encode(&[(77, 8, 9)]));
    let before = folder.entries();
    assert_eq!(run_without_input("typed", &folder), UNREAD_INPUT);
    assert!(folder.entries() == before, "the folder has changed");
}
