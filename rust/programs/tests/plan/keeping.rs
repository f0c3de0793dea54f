//! What `plan --keep` prints and leaves.
use super::house;
use inputs::encode;
use programs::house::{printed, told, House};
use programs::texts::LISTING;
use programs::{as_nobody, assert_same, lists_of, run_command, text_of};
use std::fs;
use std::os::unix::fs::symlink;

/// The names of the lists.
const LISTS: [&str; 2] = ["fibres.rec", "assign.rec"];

/// The lists in a folder of the house.
fn lists_in(house: &House, folder: &str) -> [Option<Vec<u8>>; 2] {
    LISTS.map(|name| fs::read(house.folder.at(folder).join(name)).ok())
}

/// The lists of the listing.
fn lists_of_listing() -> [Option<Vec<u8>>; 2] {
    lists_of((5, 2), &encode(&LISTING)).unwrap().map(Some)
}

#[test]
fn the_sheet_is_printed_and_the_lists_are_kept() {
    let house = house();
    for name in [
        "records",
        "-",
        "--keep",
        "-h",
        "a b",
        "*",
        "line\nbreak",
        "-/-",
    ] {
        let sheet = house.listing(name);
        printed(house.run(&[&format!("./{name}")]), &sheet, 0);
        assert_eq!(lists_in(&house, name), [None, None]);
        for _ in 0..2 {
            printed(house.run(&["--keep", name]), &sheet, 0);
            assert_eq!(lists_in(&house, name), lists_of_listing(), "{name}");
        }
    }
    assert!(house.calls().is_empty());
}

#[test]
fn from_any_folder_and_by_links() {
    let house = house();
    let sheet = house.listing("a/b");
    house.folder.put_folder("elsewhere");
    symlink(house.folder.at("plan"), house.folder.at("elsewhere/plan")).unwrap();
    symlink(house.folder.at("a/b"), house.folder.at("elsewhere/records")).unwrap();
    for (folder, plan, path) in [
        ("a", "../plan", "b"),
        ("a/b", "../../plan", "."),
        ("elsewhere", "./plan", "records"),
        ("elsewhere", "./plan", "../a/b/"),
    ] {
        let mut command = house.command_by(plan);
        command.current_dir(house.folder.at(folder));
        printed(run_command(command.args(["--keep", path]), b""), &sheet, 0);
        assert_eq!(lists_in(&house, "a/b"), lists_of_listing());
        for name in LISTS {
            fs::remove_file(house.folder.at("a/b").join(name)).unwrap();
        }
    }
}

#[test]
fn a_refusal_keeps_what_was_there() {
    let house = house();
    house.listing("records");
    house.run(&["--keep", "records"]);
    house.folder.put("records/line.rec", &[4, 0, 2, 0]);
    printed(house.run(&["--keep", "records"]), "R 6 2 3\n", 1);
    assert_eq!(lists_in(&house, "records"), lists_of_listing());
    house.folder.put_folder("empty");
    printed(house.run(&["--keep", "empty"]), "R 11 0 0\n", 1);
    assert_eq!(lists_in(&house, "empty"), [None, None]);
}

#[test]
fn wrong_use() {
    let house = house();
    house.listing("records");
    let text = text_of((5, 2), &LISTING);
    house.folder.put("text", text.as_bytes());
    fs::remove_file(house.built("lists")).unwrap();
    for arguments in [
        &["--keep"][..],
        &["records", "--keep"],
        &["--keep", "records", "records"],
        &["--keep", "--keep", "records"],
        &["-k", "records"],
    ] {
        told(house.run(arguments), "usage: plan DIR", 2);
    }
    for path in ["", "nobody", "text", "-h", "--help", "/dev/null"] {
        let ran = house.run(&["--keep", path]);
        told(ran, &format!("'{path}' is not a folder"), 2);
    }
    house.folder.allow("records", 0o666);
    let mut command = house.command();
    as_nobody(&mut command);
    let ran = run_command(command.args(["--keep", "records"]), b"");
    told(ran, "the folder records cannot be entered", 2);
    house.folder.allow("records", 0o777);
    assert!(house.calls().is_empty());
}

#[test]
fn lists_that_cannot_be_kept() {
    let house = house();
    house.listing("records");
    house.folder.put_folder("records/fibres.rec/inner");
    let words = "plan: fibres.rec and assign.rec cannot be replaced\n";
    told(house.run(&["--keep", "records"]), words, 3);
    house.listing("full");
    house.folder.put_folder("full/assign.rec.new");
    let words = "plan: fibres.rec and assign.rec cannot be written\n";
    told(house.run(&["--keep", "full"]), words, 3);
    assert_eq!(lists_in(&house, "full"), [None, None]);
}

#[test]
fn an_answer_that_is_not_whole() {
    let house = house();
    house.listing("records");
    for text in [
        "",
        "T 2 9 6",
        "F 1 1 1 1\\n",
        "R 1",
        "fibres.rec and assign.rec cannot be",
    ] {
        house.script("target/bin/lists", &format!("printf '{text}'"));
        told(house.run(&["--keep", "records"]), "not whole", 3);
    }
}

#[test]
fn output_that_cannot_be_written() {
    let house = house();
    house.listing("records");
    for redirection in [">/dev/full", ">&-"] {
        let mut command = house.command_by("bash");
        command.args(["-c", &format!("./plan --keep records {redirection}")]);
        told(run_command(&mut command, b""), "could not be written", 3);
    }
}

#[test]
fn it_is_built_where_it_is_not_there() {
    let house = house();
    let sheet = house.listing("records");
    fs::remove_dir_all(house.folder.at("target")).unwrap();
    house.build_by_copy("");
    let ran = house.run(&["--keep", "records"]);
    assert_same(&ran.out, &sheet);
    assert_eq!((ran.err.as_str(), ran.status), ("proved\n", Some(0)));
    assert_eq!(house.calls(), ["run lists"]);
    printed(house.run(&["--keep", "records"]), &sheet, 0);
    assert!(house.calls().is_empty());
    house.age("crates.txt", 1);
    house.age("target/bin/lists", 500);
    house.script("tools/rt", "exit 1");
    told(house.run(&["--keep", "records"]), "could not be built", 3);
}
