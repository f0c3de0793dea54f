//! Which files `adds` keeps, and what it prints. How it replaces them is in `pairs.rs`.
use inputs::{encode, Circuit, Rng};
use programs::texts::{on_link_1, LISTING};
use programs::{
    assert_same, grown_of, lists_of, random_line, run, run_as_nobody, Entry, Files, Folder, Line,
};

/// What is printed where a file cannot be had.
const UNREAD: &str = "R 11 0 0\n";

/// The names of a plan's files.
const PLAN: [&str; 3] = ["circuits.rec", "fibres.rec", "assign.rec"];

/// The most bytes of a circuit file that are read.
const READ: usize = 16_392;

/// The plan of circuits, as its files.
fn plan_of(line: impl Into<Line>, circuits: &[Circuit]) -> Files {
    let records = encode(circuits);
    let [fibres, assigns] = lists_of(line, &records).unwrap();
    [records, fibres, assigns]
}

/// A folder with these files.
fn folder(line: Line, old: &Files, new: &[u8]) -> Folder {
    let folder = Folder::with(&[("line.rec", &line.bytes()), ("new.rec", new)]);
    for (name, bytes) in PLAN.into_iter().zip(old) {
        folder.put(name, bytes);
    }
    folder
}

/// What counts of a circuit file.
fn counted(bytes: &[u8]) -> &[u8] {
    &bytes[..bytes.len().min(READ)]
}

/// The program prints what the reference does and keeps its files, none where it refuses; and what is kept gets a yes, with the
/// length and the floor that were printed.
#[track_caller]
fn grows(line: impl Into<Line>, old: &Files, new: &[u8]) -> String {
    let line = line.into();
    let [circuits, fibres, assigns] = old;
    let read = [counted(circuits).to_vec(), fibres.clone(), assigns.clone()];
    let (text, files) = grown_of(line, &read, counted(new));
    let folder = folder(line, old, new);
    let mut entries = folder.entries();
    assert_same(&run("adds", &folder, b""), &text);
    if let Some(files) = files {
        for (name, bytes) in PLAN.into_iter().zip(files) {
            entries.insert(name.to_owned(), Entry::File(bytes));
        }
        let total = text.lines().last().unwrap();
        let mut numbers = total.split(' ').skip(2);
        let [length, floor] = [(); 2].map(|()| numbers.next().unwrap());
        assert_eq!(run("checks", &folder, b""), format!("Y {length} {floor}\n"));
    }
    assert!(folder.entries() == entries, "other files");
    text
}

/// The program prints that a file cannot be had, and changes nothing.
#[track_caller]
fn unread(folder: &Folder) {
    let before = folder.entries();
    assert_eq!(run("adds", folder, b""), UNREAD);
    assert!(folder.entries() == before, "the folder has changed");
}

#[test]
fn the_listing_with_two_more() {
    let old = plan_of((5, 2), &LISTING);
    let text = grows((5, 2), &old, &encode(&[(60, 1, 4), (50, 3, 5)]));
    assert!(text.starts_with("F 1 1 5 2\nF 2 2 5 2\nF 3 1 4 1\nC 10 1 2 192200\n"));
    assert!(text.ends_with("C 60 3 1 192100\nC 50 1 1 192100\nT 3 13 10\n"));
    // On another grid, and with more wavelengths than the plan was given.
    grows((5, 80, 2), &old, &encode(&[(60, 1, 4), (50, 3, 5)]));
}

#[test]
fn nothing_new_and_nothing_old() {
    let old = plan_of((5, 2), &LISTING);
    let folder = folder((5, 2).into(), &old, &[]);
    let before = folder.entries();
    assert!(run("adds", &folder, b"").ends_with("T 2 9 6\n"));
    assert!(folder.entries() == before);
    let none: Files = [vec![], vec![], vec![]];
    assert_eq!(grows((1, 1), &none, &[]), "T 0 0 0\n");
    let text = grows((5, 2), &none, &encode(&LISTING));
    assert!(text.ends_with("T 2 9 6\n"));
}

#[test]
fn a_second_run_is_refused() {
    let old = plan_of((5, 2), &LISTING);
    let folder = folder((5, 2).into(), &old, &encode(&[(60, 1, 4), (50, 3, 5)]));
    assert!(run("adds", &folder, b"").ends_with("T 3 13 10\n"));
    let before = folder.entries();
    assert_eq!(run("adds", &folder, b""), "R 14 7 0\n");
    assert!(folder.entries() == before);
    // With other circuits it goes on.
    folder.put("new.rec", &encode(&[(70, 1, 4)]));
    assert!(run("adds", &folder, b"").ends_with("C 70 3 2 192200\nT 3 13 13\n"));
}

#[test]
fn each_refusal() {
    let old = plan_of((5, 2), &LISTING);
    let new = [(60, 1, 4), (50, 3, 5)];
    for (line, new, refusal) in [
        ((0, 2), &new[..], "R 3 0 0\n"),
        ((5, 41), &new, "R 4 0 0\n"),
        ((5, 2), &[(60, 1, 1), (0, 1, 1)], "R 5 6 0\n"),
        ((5, 2), &[(60, 0, 1)], "R 6 5 1\n"),
        ((5, 2), &[(60, 3, 2)], "R 6 5 2\n"),
        ((5, 2), &[(60, 1, 6)], "R 6 5 3\n"),
        ((4, 2), &new, "R 6 2 3\n"),
        ((5, 2), &[(60, 1, 1), (60, 2, 2)], "R 7 6 0\n"),
        ((5, 1), &new, "R 13 0 0\n"),
        ((5, 2), &[(60, 1, 1), (30, 2, 2)], "R 14 6 0\n"),
    ] {
        assert_eq!(grows(line, &old, &encode(new)), refusal);
    }
    assert_eq!(grows((5, 2, 3), &old, &encode(&new)), "R 12 0 0\n");
    let [circuits, fibres, assigns] = old.clone();
    let short = [circuits[..31].to_vec(), fibres, assigns];
    assert_eq!(grows((5, 2), &short, &encode(&new)), "R 1 0 0\n");
    assert_eq!(grows((5, 2), &old, &encode(&new)[..9]), "R 1 0 0\n");
}

#[test]
fn lists_that_are_no_plan() {
    let [circuits, fibres, assigns] = plan_of((5, 2), &LISTING);
    let many = |list: &[u8], records: usize| -> Vec<u8> {
        list.iter().copied().cycle().take(8 * records).collect()
    };
    let mut unlike = assigns.clone();
    unlike[0] = 11;
    for (fibres, assigns) in [
        (fibres[..15].to_vec(), assigns.clone()),
        (fibres.clone(), assigns[..31].to_vec()),
        (fibres[..9].to_vec(), assigns[..3].to_vec()),
        (fibres.clone(), assigns[..24].to_vec()),
        (fibres.clone(), many(&assigns, 5)),
        (fibres[..8].to_vec(), assigns.clone()),
        (fibres.clone(), unlike),
        (many(&fibres, 2048), assigns.clone()),
        (many(&fibres, 2049), assigns.clone()),
        (many(&fibres, 4097), assigns.clone()),
        (fibres.clone(), many(&assigns, 2049)),
        (fibres.clone(), many(&assigns, 5000)),
        (many(&fibres, 2049)[..16_391].to_vec(), assigns.clone()),
        (many(&fibres, 2050)[..16_393].to_vec(), assigns.clone()),
    ] {
        let old = [circuits.clone(), fibres, assigns];
        let text = grows((5, 2), &old, &encode(&[(60, 1, 4)]));
        assert_eq!(text, "R 13 0 0\n");
        // Those of the circuits come first, that of the new numbers later.
        assert_eq!(grows((5, 2), &old, &encode(&[(0, 1, 4)])), "R 5 5 0\n");
        assert_eq!(grows((5, 2), &old, &encode(&[(10, 1, 4)])), text);
    }
}

#[test]
fn the_lengths_of_the_circuit_files() {
    let all = encode(&on_link_1(2050));
    let old = plan_of((1, 40), &on_link_1(2000));
    for (length, start) in [
        (383, "R 1 0 0\n"),
        (384, "F 1 1 1 1\n"),
        (392, "R 2 0 0\n"),
        (399, "R 1 0 0\n"),
    ] {
        let text = grows((1, 40), &old, &all[16_000..16_000 + length]);
        assert!(text.starts_with(start), "{length}");
    }
    let long = encode(&on_link_1(2060));
    for length in [16_392, 16_393, 16_401] {
        let [_, fibres, assigns] = old.clone();
        let longer = [long[..length].to_vec(), fibres, assigns];
        assert_eq!(grows((1, 40), &longer, &[]), "R 2 0 0\n");
        assert_eq!(grows((1, 40), &old, &long[..length]), "R 2 0 0\n");
    }
}

#[test]
fn the_most_circuits_and_fibres() {
    // 2,047 circuits and one more, each of which needs a fibre of its own.
    let all = on_link_1(2048);
    let text = grows(
        (1, 1),
        &plan_of((1, 1), &all[..2047]),
        &encode(&all[2047..]),
    );
    assert!(text.ends_with("T 2048 2048 2048\n"));
    let none: Files = [vec![], vec![], vec![]];
    let wide: Vec<Circuit> = (0..2048).map(|i| (u32::MAX - i, 1, 512)).collect();
    let text = grows((512, 1), &none, &encode(&wide));
    assert!(text.ends_with("T 2048 1048576 1048576\n"));
    // 2,048 dark fibres on link 1, and 2,048 new circuits on link 2: 4,096 fibres, the longest sheet.
    let dark = |number: u16| [number.to_le_bytes(), [1, 0], [1, 0], [1, 0]].concat();
    let dark: Vec<u8> = (1..=2048).flat_map(dark).collect();
    let on_2: Vec<Circuit> = (0..2048).map(|i| (u32::MAX - i, 2, 2)).collect();
    let text = grows((2, 1), &[vec![], dark, vec![]], &encode(&on_2));
    assert!(text.ends_with("T 4096 4096 2048\n"));
}

#[test]
fn files_that_cannot_be_had() {
    let old = plan_of((5, 2), &LISTING);
    for name in PLAN.into_iter().chain(["line.rec", "new.rec"]) {
        let folder = folder((5, 2).into(), &old, &encode(&[(60, 1, 4)]));
        folder.allow(name, 0);
        assert_eq!(run_as_nobody("adds", &folder, b""), UNREAD);
        folder.allow(name, 0o666);
        std::fs::remove_file(folder.at(name)).unwrap();
        unread(&folder);
        folder.put_folder(name);
        unread(&folder);
    }
    unread(&Folder::new());
}

#[test]
fn a_line_file_of_another_length() {
    let old = plan_of((5, 2), &LISTING);
    let bytes = [5, 0, 2, 0, 2, 0, 0, 0];
    for length in [0, 3, 5, 7, 8] {
        let folder = folder((5, 2).into(), &old, &encode(&[(60, 1, 4)]));
        folder.put("line.rec", &bytes[..length]);
        unread(&folder);
    }
}

#[test]
fn random_folders() {
    let mut planned = 0;
    for seed in 0..200 {
        let (line, circuits) = random_line(seed);
        let rng = &mut Rng::new(seed);
        let cut = rng.within(0, circuits.len());
        let (first, last) = circuits.split_at(cut);
        // Where the first circuits are refused there is no plan of them.
        let [fibres, assigns] = lists_of(line, &encode(first)).unwrap_or_default();
        let old = [encode(first), fibres, assigns];
        planned += usize::from(!grows(line, &old, &encode(last)).starts_with('R'));
    }
    println!("{planned} of 200 folders have grown");
    assert!((100..190).contains(&planned));
}
