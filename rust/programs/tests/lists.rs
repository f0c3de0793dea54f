//! Which lists `lists` keeps, and what it prints. How it replaces them is in `pairs.rs`.
use inputs::{encode, Circuit};
use programs::texts::LISTING;
use programs::{
    assert_same, lists_of, random_line, run, run_as_nobody, sheet_of, Entry, Folder, Line,
};
use std::fs;

/// What is printed where a file cannot be had.
const UNREAD: &str = "R 11 0 0\n";

/// The names of the lists.
const LISTS: [&str; 2] = ["fibres.rec", "assign.rec"];

/// The most bytes of the circuit file that are read.
const READ: usize = 16_392;

/// Folders with these files: no lists, and old ones.
fn folders(files: &[(&str, &[u8])]) -> [Folder; 2] {
    let [without, with] = [(); 2].map(|()| Folder::with(files));
    for name in LISTS {
        with.put(name, &[9; 24]);
    }
    [without, with]
}

/// The program prints what the sheet program does, and keeps the lists that the reference makes; none where it refuses.
#[track_caller]
fn keeps(line: impl Into<Line>, circuits: &[u8]) -> String {
    let (line, counted) = (line.into(), &circuits[..circuits.len().min(READ)]);
    let text = sheet_of(line, counted);
    for folder in folders(&[("line.rec", &line.bytes()), ("circuits.rec", circuits)]) {
        let mut entries = folder.entries();
        if let Some(lists) = lists_of(line, counted) {
            for (name, bytes) in LISTS.into_iter().zip(lists) {
                entries.insert(name.to_owned(), Entry::File(bytes));
            }
        }
        assert_same(&run("lists", &folder, b""), &text);
        assert!(folder.entries() == entries, "other files");
        assert_same(&run("sheet", &folder, b""), &text);
    }
    text
}

/// The program prints that a file cannot be had, and changes nothing.
#[track_caller]
fn unread(folder: &Folder) {
    let before = folder.entries();
    assert_eq!(run("lists", folder, b""), UNREAD);
    assert!(folder.entries() == before, "the folder has changed");
}

#[test]
fn the_listing() {
    let folder = Folder::with_records((5, 2), &encode(&LISTING));
    assert!(run("lists", &folder, b"").ends_with("T 2 9 6\n"));
    let [fibres, assigns] = LISTS.map(|name| fs::read(folder.at(name)).unwrap());
    assert_eq!(fibres, [1, 0, 1, 0, 5, 0, 2, 0, 2, 0, 2, 0, 5, 0, 2, 0]);
    let places = [(10, 1, 2), (20, 2, 1), (30, 1, 1), (40, 1, 2)];
    assert_eq!(assigns, encode(&places));
    keeps((5, 2, 2), &encode(&LISTING));
}

#[test]
fn no_circuits_have_empty_lists() {
    for line in [(1, 1, 1), (512, 40, 1), (512, 80, 2)] {
        assert_eq!(keeps(line, &[]), "T 0 0 0\n");
    }
}

#[test]
fn the_most_circuits() {
    for (w, grid, fibres) in [(1, 1, 2048), (40, 1, 52), (80, 2, 26)] {
        let list: Vec<Circuit> = (0..2048).map(|i| (u32::MAX - i, 1, 512)).collect();
        let text = keeps((512, w, grid), &encode(&list));
        assert!(text.contains(&format!("\nT {fibres} ")), "{fibres}");
    }
}

#[test]
fn a_refusal_keeps_no_list() {
    for (line, circuits, refusal) in [
        ((0, 2), &LISTING[..], "R 3 0 0\n"),
        ((5, 41), &LISTING, "R 4 0 0\n"),
        ((5, 2), &[(0, 1, 1)], "R 5 1 0\n"),
        ((4, 2), &LISTING, "R 6 2 3\n"),
        ((5, 2), &[(3, 1, 1), (3, 2, 2)], "R 7 2 0\n"),
    ] {
        assert_eq!(keeps(line, &encode(circuits)), refusal);
    }
    assert_eq!(keeps((5, 2, 3), &encode(&LISTING)), "R 12 0 0\n");
    assert_eq!(keeps((5, 2), &encode(&LISTING)[1..]), "R 1 0 0\n");
}

#[test]
fn the_length_of_the_circuit_file() {
    let list: Vec<Circuit> = (1..=2050).map(|number| (number, 1, 1)).collect();
    let bytes = encode(&list);
    for (length, start) in [
        (16_383, "R 1 0 0\n"),
        (16_384, "F 1 1 1 1\n"),
        (16_391, "R 1 0 0\n"),
        (16_392, "R 2 0 0\n"),
        (16_393, "R 2 0 0\n"),
        (16_400, "R 2 0 0\n"),
    ] {
        let text = keeps((1, 40), &bytes[..length]);
        assert!(text.starts_with(start), "{length}");
    }
}

#[test]
fn files_that_cannot_be_had() {
    let (line, circuits) = ([5, 0, 2, 0], encode(&LISTING));
    let files: [(&str, &[u8]); 2] = [("line.rec", &line), ("circuits.rec", &circuits)];
    for (missing, there) in [(0, 1), (1, 0)] {
        for folder in folders(&files[there..=there]) {
            unread(&folder);
            folder.put_folder(files[missing].0);
            unread(&folder);
        }
        for folder in folders(&files) {
            folder.allow(files[missing].0, 0);
            assert_eq!(run_as_nobody("lists", &folder, b""), UNREAD);
            folder.allow(files[missing].0, 0o666);
        }
    }
    for folder in folders(&[]) {
        unread(&folder);
    }
}

#[test]
fn a_line_file_of_another_length() {
    let bytes = [5, 0, 2, 0, 2, 0, 0, 0];
    for length in [0, 3, 5, 7, 8] {
        for folder in folders(&[
            ("line.rec", &bytes[..length]),
            ("circuits.rec", &encode(&LISTING)),
        ]) {
            unread(&folder);
        }
    }
}

#[test]
fn random_folders() {
    let mut planned = 0;
    for seed in 0..100 {
        let (line, circuits) = random_line(seed);
        planned += usize::from(!keeps(line, &encode(&circuits)).starts_with('R'));
    }
    println!("{planned} of 100 folders have lists");
    assert!((50..95).contains(&planned));
}
