//! What `enter` prints, and which files it makes. How it replaces them is in `pairs.rs`.
use inputs::{encode, Circuit};
use programs::texts::{right_texts, wrong_texts, LISTING};
use programs::{
    assert_same, run, run_without_input, sheet_of, text_of, Entry, Folder, Line, UNREAD_INPUT,
};
use std::collections::BTreeMap;
use std::fs;

/// Just the two files of these records.
fn files_of(line: impl Into<Line>, circuits: &[Circuit]) -> BTreeMap<String, Entry> {
    Folder::with_records(line, &encode(circuits)).entries()
}

/// A folder with other records.
fn with_old() -> Folder {
    Folder::with_records((9, 3), &encode(&[(77, 8, 9)]))
}

/// A part of a text that a message can name, for a failure.
fn start_of(text: &[u8]) -> String {
    String::from_utf8_lossy(&text[..text.len().min(60)]).into_owned()
}

#[test]
fn right_texts_give_the_bytes_of_both_files() {
    for (text, line, circuits) in right_texts() {
        for folder in [Folder::new(), with_old()] {
            let out = run("enter", &folder, &text);
            assert_eq!(
                out,
                format!("circuits: {}\n", circuits.len()),
                "{:?}",
                start_of(&text)
            );
            let right = folder.entries() == files_of(line, &circuits);
            assert!(right, "{:?} gives other files", start_of(&text));
        }
    }
}

#[test]
fn the_line_has_six_bytes_where_the_grid_is_named() {
    for (text, bytes) in [
        ("5 2\n", &[5, 0, 2, 0][..]),
        ("5 2 1\n", &[5, 0, 2, 0, 1, 0]),
        ("5 2 2\n", &[5, 0, 2, 0, 2, 0]),
        ("5 2 772", &[5, 0, 2, 0, 4, 3]),
    ] {
        for folder in [Folder::new(), with_old()] {
            assert_eq!(run("enter", &folder, text.as_bytes()), "circuits: 0\n");
            assert_eq!(fs::read(folder.at("line.rec")).unwrap(), bytes, "{text}");
        }
    }
}

#[test]
fn a_line_of_either_length_replaces_the_other() {
    let folder = Folder::new();
    for line in [Line::from((5, 2, 2)), (5, 2).into(), (5, 2, 1).into()] {
        let out = run("enter", &folder, text_of(line, &LISTING).as_bytes());
        assert_eq!(out, "circuits: 4\n");
        assert!(folder.entries() == files_of(line, &LISTING), "{line:?}");
    }
}

#[test]
fn wrong_texts_are_told_and_change_nothing() {
    for (text, told) in wrong_texts() {
        for folder in [Folder::new(), with_old()] {
            let before = folder.entries();
            assert_eq!(run("enter", &folder, &text), told, "{:?}", start_of(&text));
            assert!(
                folder.entries() == before,
                "{:?} changes files",
                start_of(&text)
            );
        }
    }
}

#[test]
fn the_planner_reads_what_was_entered() {
    for (text, line, circuits) in right_texts() {
        let folder = Folder::new();
        run("enter", &folder, &text);
        assert_same(
            &run("sheet", &folder, b""),
            &sheet_of(line, &encode(&circuits)),
        );
    }
}

#[test]
fn standard_input_that_cannot_be_read_changes_nothing() {
    for folder in [Folder::new(), with_old()] {
        let before = folder.entries();
        assert_eq!(run_without_input("enter", &folder), UNREAD_INPUT);
        assert!(folder.entries() == before);
    }
}
