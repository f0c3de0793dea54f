//! What `sheet` prints, and that it leaves its folder as it was.
use inputs::{encode, Circuit, Numbers, Rng, FAMILIES};
use programs::texts::LISTING;
use programs::{assert_same, random_line, run, run_as_nobody, sheet_of, Folder, Line};

/// What is printed where a file cannot be had.
const UNREAD: &str = "R 11 0 0\n";

/// The most bytes of the circuit file that are read.
const READ: usize = 16_392;

/// The program prints this in the folder, and changes nothing there.
#[track_caller]
fn prints(folder: &Folder, text: &str) {
    let before = folder.entries();
    assert_same(&run("sheet", folder, b""), text);
    assert!(folder.entries() == before, "the folder has changed");
}

/// The program prints what the reference answers for these records, and never 8, 9 or 10.
#[track_caller]
fn prints_sheet(line: impl Into<Line>, circuits: &[u8]) -> String {
    let line = line.into();
    let text = sheet_of(line, &circuits[..circuits.len().min(READ)]);
    prints(&Folder::with_records(line, circuits), &text);
    for never in ["R 8 ", "R 9 ", "R 10 "] {
        assert!(!text.starts_with(never));
    }
    text
}

/// The program prints this for these records, and so says the reference.
#[track_caller]
fn prints_for(line: impl Into<Line>, circuits: &[Circuit], text: &str) {
    assert_eq!(prints_sheet(line, &encode(circuits)), text);
}

/// m circuits, all over link 1, numbered down from the largest number.
fn high_numbers(m: u32) -> Vec<Circuit> {
    (0..m).map(|i| (u32::MAX - i, 1, 1)).collect()
}

#[test]
fn the_listing() {
    let text = "F 1 1 5 2\nF 2 2 5 2\n\
        C 10 1 2 192200\nC 20 2 1 192100\nC 30 1 1 192100\nC 40 1 2 192200\nT 2 9 6\n";
    prints_for((5, 2), &LISTING, text);
    prints_for((5, 2, 1), &LISTING, text);
}

#[test]
fn the_listing_on_grid_2() {
    let text = "F 1 1 5 2\nF 2 2 5 2\n\
        C 10 1 2 192150\nC 20 2 1 192100\nC 30 1 1 192100\nC 40 1 2 192150\nT 2 9 6\n";
    prints_for((5, 2, 2), &LISTING, text);
}

#[test]
fn the_last_wavelength_of_each_grid() {
    for (w, grid, ghz) in [
        (40, 1, 196_000),
        (40, 2, 194_050),
        (41, 2, 194_100),
        (80, 2, 196_050),
    ] {
        let list: Vec<Circuit> = (1..=w).map(|number| (number, 1, 1)).collect();
        let text = prints_sheet((1, w as u16, grid), &encode(&list));
        let end = format!("\nC {w} 1 {w} {ghz}\nT 1 1 1\n");
        assert!(
            text.starts_with("F 1 1 1 1\nC 1 1 1 192100\n") && text.ends_with(&end),
            "{text}"
        );
    }
}

#[test]
fn a_missing_file() {
    let (line, circuits) = ([5, 0, 2, 0], encode(&LISTING));
    prints(&Folder::new(), UNREAD);
    prints(&Folder::with(&[("line.rec", &line)]), UNREAD);
    prints(&Folder::with(&[("circuits.rec", &circuits)]), UNREAD);
}

#[test]
fn a_folder_in_place_of_a_file() {
    let folder = Folder::with(&[("circuits.rec", &encode(&LISTING))]);
    folder.put_folder("line.rec");
    prints(&folder, UNREAD);
    let folder = Folder::with(&[("line.rec", &[5, 0, 2, 0])]);
    folder.put_folder("circuits.rec");
    prints(&folder, UNREAD);
}

#[test]
fn a_file_that_may_not_be_read() {
    for name in ["line.rec", "circuits.rec"] {
        let folder = Folder::with_records((5, 2), &encode(&LISTING));
        folder.allow(name, 0);
        assert_eq!(run_as_nobody("sheet", &folder, b""), UNREAD);
    }
}

#[test]
fn the_length_of_the_line_file() {
    let (bytes, circuits) = ([5, 0, 2, 0, 2, 0, 0, 0, 0, 0], encode(&LISTING));
    for length in 0..=bytes.len() {
        let files: [(&str, &[u8]); 2] =
            [("line.rec", &bytes[..length]), ("circuits.rec", &circuits)];
        let text = match length {
            4 => sheet_of((5, 2), &circuits),
            6 => sheet_of((5, 2, 2), &circuits),
            _ => UNREAD.to_owned(),
        };
        prints(&Folder::with(&files), &text);
    }
}

#[test]
fn a_line_file_comes_before_all_refusals() {
    for line in [&[0; 5][..], &[0; 7]] {
        let folder = Folder::with(&[("line.rec", line), ("circuits.rec", &[0; 7])]);
        prints(&folder, UNREAD);
    }
}

#[test]
fn the_length_of_the_circuit_file() {
    let bytes = [encode(&high_numbers(2050)), vec![0; 100_000]].concat();
    let lengths = [
        (1, "R 1 0 0\n"),
        (7, "R 1 0 0\n"),
        (9, "R 1 0 0\n"),
        (16_383, "R 1 0 0\n"),
        (16_385, "R 1 0 0\n"),
        (16_391, "R 1 0 0\n"),
        (16_392, "R 2 0 0\n"),
        (16_393, "R 2 0 0\n"),
        (16_399, "R 2 0 0\n"),
        (16_400, "R 2 0 0\n"),
        (100_000, "R 2 0 0\n"),
    ];
    for (length, text) in lengths {
        assert_eq!(prints_sheet((1, 40), &bytes[..length]), text, "{length}");
    }
    assert!(prints_sheet((1, 40), &bytes[..16_384]).ends_with("T 52 52 52\n"));
}

#[test]
fn no_circuits() {
    for line in [(1, 1, 1), (5, 2, 2), (512, 40, 1), (512, 41, 2), (1, 80, 2)] {
        prints_for(line, &[], "T 0 0 0\n");
    }
}

#[test]
fn sheets_at_the_limits() {
    for (w, grid) in [(1, 1), (40, 1), (80, 2)] {
        for family in FAMILIES {
            let mut list = family.circuits(2048, 512, Numbers::Shuffled, &mut Rng::new(w.into()));
            for (i, circuit) in list.iter_mut().enumerate() {
                circuit.0 = u32::MAX - i as u32;
            }
            let text = prints_sheet((512, w, grid), &encode(&list));
            let last = text.lines().last().unwrap();
            assert!(last.starts_with("T "), "{family:?}, {w}: {last}");
        }
    }
}

/// 2,048 circuits over these links, numbered down from the largest number, on one wavelength: a fibre and a layer each.
#[track_caller]
fn prints_a_fibre_each(first: u16, last: u16, totals: &str) -> String {
    let list: Vec<Circuit> = (0..2048).map(|i| (u32::MAX - i, first, last)).collect();
    let text = prints_sheet((512, 1), &encode(&list));
    let middle = format!("\nF 2048 {first} {last} 2048\nC 4294967295 2048 1 192100\n");
    assert!(text.contains(&middle) && text.ends_with(totals));
    text
}

#[test]
fn the_greatest_total() {
    prints_a_fibre_each(1, 512, "\nT 2048 1048576 1048576\n");
}

#[test]
fn the_longest_lines() {
    let text = prints_a_fibre_each(512, 512, "\nT 2048 2048 2048\n");
    assert!(text.contains("\nF 1000 512 512 1000\n"));
}

#[test]
fn each_refusal_and_its_place() {
    let mut records = encode(&LISTING);
    records.push(0);
    assert_eq!(prints_sheet((5, 2), &records), "R 1 0 0\n");
    prints_for((1, 1), &high_numbers(2049), "R 2 0 0\n");
    for n in [0, 513, 65_535] {
        prints_for((n, 2), &LISTING, "R 3 0 0\n");
    }
    for grid in [0, 3, 50, 257, 258, 512, 65_535] {
        prints_for((5, 2, grid), &LISTING, "R 12 0 0\n");
    }
    for w in [0, 41, 80, 65_535] {
        prints_for((5, w), &LISTING, "R 4 0 0\n");
        prints_for((5, w, 1), &LISTING, "R 4 0 0\n");
    }
    for w in [0, 81, 65_535] {
        prints_for((5, w, 2), &LISTING, "R 4 0 0\n");
    }
    prints_for(
        (5, 2),
        &[(1, 1, 1), (2, 1, 1), (0, 1, 1), (0, 1, 1)],
        "R 5 3 0\n",
    );
    prints_for((5, 2), &[(4, 1, 1), (4, 1, 1), (4, 1, 1)], "R 7 2 0\n");
    prints_for(
        (5, 2),
        &[(4, 1, 1), (9, 1, 1), (8, 1, 1), (9, 2, 3)],
        "R 7 4 0\n",
    );
}

#[test]
fn each_wrong_end() {
    for (end, wrong) in [
        (1, &[(0, 1), (0, 0), (0, 6), (0, 65_535)][..]),
        (2, &[(3, 2), (1, 0), (6, 5), (9, 8), (65_535, 1)]),
        (3, &[(5, 6), (6, 6), (1, 65_535), (65_535, 65_535)]),
    ] {
        for &(first, last) in wrong {
            let text = format!("R 6 2 {end}\n");
            prints_for((5, 2), &[(1, 1, 1), (2, first, last)], &text);
            // The first record with a wrong end, whatever is wrong with a later one.
            let list = [(1, 1, 1), (2, first, last), (3, 0, 1), (4, 5, 6)];
            prints_for((5, 2), &list, &text);
        }
    }
}

#[test]
fn the_first_refusal_is_given() {
    // From the last refusal of a file to the first: each input has all those of the inputs before.
    prints_for((5, 2), &[(3, 1, 1), (3, 2, 2)], "R 7 2 0\n");
    prints_for((5, 2), &[(3, 1, 1), (3, 2, 6)], "R 6 2 3\n");
    prints_for((5, 2), &[(3, 1, 1), (3, 2, 6), (0, 1, 1)], "R 5 3 0\n");
    prints_for((5, 41), &[(3, 1, 1), (3, 2, 6), (0, 1, 1)], "R 4 0 0\n");
    prints_for((5, 41, 3), &[(3, 1, 1), (3, 2, 6), (0, 1, 1)], "R 12 0 0\n");
    prints_for((0, 41, 3), &[(3, 1, 1), (3, 2, 6), (0, 1, 1)], "R 3 0 0\n");
    prints_for((0, 41, 3), &vec![(0, 2, 1); 2049], "R 2 0 0\n");
    assert_eq!(prints_sheet((0, 41, 3), &[0; 16_391]), "R 1 0 0\n");
}

#[test]
fn n_w_and_grid_are_told_apart() {
    prints_for((2, 5), &LISTING, "R 6 1 3\n");
    let list = [(1, 1, 2), (2, 1, 1), (3, 2, 2), (4, 1, 2)];
    let [five, two] = [(5, 2), (2, 5)].map(|line| prints_sheet(line, &encode(&list)));
    assert_ne!(five, two);
    prints_for((41, 40), &[], "T 0 0 0\n");
    prints_for((40, 41), &[], "R 4 0 0\n");
    prints_for((512, 1), &[], "T 0 0 0\n");
    prints_for((1, 512), &[], "R 4 0 0\n");
    prints_for((512, 80, 2), &[], "T 0 0 0\n");
    prints_for((2, 80, 512), &[], "R 12 0 0\n");
    prints_for((80, 512, 2), &[], "R 4 0 0\n");
}

#[test]
fn numbers_low_byte_first() {
    prints_for(
        (256, 1),
        &[(256, 256, 256)],
        "F 1 256 256 1\nC 256 1 1 192100\nT 1 1 1\n",
    );
    prints_for((1, 256), &[], "R 4 0 0\n");
    prints_for((513, 1), &[], "R 3 0 0\n");
    prints_for(
        (258, 1),
        &[(16_909_060, 258, 258)],
        "F 1 258 258 1\nC 16909060 1 1 192100\nT 1 1 1\n",
    );
    prints_for(
        (1, 1),
        &[(u32::MAX, 1, 1)],
        "F 1 1 1 1\nC 4294967295 1 1 192100\nT 1 1 1\n",
    );
}

#[test]
fn random_folders() {
    let mut planned = 0;
    for seed in 0..200 {
        let (line, circuits) = random_line(seed);
        let mut records = encode(&circuits);
        if seed % 20 == 0 {
            records.pop();
        }
        let text = prints_sheet(line, &records);
        planned += usize::from(!text.starts_with('R'));
    }
    println!("{planned} of 200 folders have a sheet");
    assert!((100..190).contains(&planned));
}
