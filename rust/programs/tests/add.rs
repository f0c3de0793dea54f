//! What `add` prints and leaves, with which status, and when it builds. What the program does is in `adds.rs`.
use inputs::encode;
use programs::house::{printed, told, House};
use programs::texts::LISTING;
use programs::{as_nobody, grown_of, lists_of, run_command, Files};
use std::fs;
use std::os::unix::fs::symlink;

/// A repository in small with the programs that keep a plan, add to it and check it.
fn house() -> House {
    House::new("add", &["lists", "adds", "checks"])
}

/// Runs another script of the house.
fn script(house: &House, name: &str, arguments: &[&str]) -> programs::Ran {
    run_command(house.command_by(house.folder.at(name)).args(arguments), b"")
}

/// A folder in it with the listing's plan and two new circuits; what is printed for it.
fn plan(house: &House, name: &str) -> String {
    house.listing(name);
    let records = encode(&LISTING);
    let [fibres, assigns] = lists_of((5, 2), &records).unwrap();
    let new = encode(&[(60, 1, 4), (50, 3, 5)]);
    for (file, bytes) in [
        ("fibres.rec", &fibres),
        ("assign.rec", &assigns),
        ("new.rec", &new),
    ] {
        house.folder.put(&format!("{name}/{file}"), bytes);
    }
    let old: Files = [records, fibres, assigns];
    grown_of((5, 2), &old, &new).0
}

#[test]
fn a_day() {
    let house = house();
    let sheet = house.listing("records");
    printed(script(&house, "plan", &["--keep", "records"]), &sheet, 0);
    printed(script(&house, "check", &["records"]), "Y 9 6\n", 0);
    printed(house.run(&["records"]), "R 11 0 0\n", 1);
    let grown = plan(&house, "records");
    printed(house.run(&["records"]), &grown, 0);
    printed(script(&house, "check", &["records"]), "Y 13 10\n", 0);
    printed(house.run(&["records"]), "R 14 7 0\n", 1);
    printed(script(&house, "check", &["records"]), "Y 13 10\n", 0);
    assert!(house.calls().is_empty());
}

#[test]
fn wrong_use() {
    let house = house();
    plan(&house, "records");
    house.folder.put("text", b"1 1\n");
    fs::remove_file(house.built("adds")).unwrap();
    for arguments in [&[][..], &["records", "records"], &["-h", "records"]] {
        told(house.run(arguments), "usage: add DIR", 2);
    }
    for path in ["", "nobody", "text", "-n", "--keep", "/dev/null"] {
        told(house.run(&[path]), &format!("'{path}' is not a folder"), 2);
    }
    house.folder.allow("records", 0o666);
    let mut command = house.command();
    as_nobody(&mut command);
    let ran = run_command(command.arg("records"), b"");
    told(ran, "the folder records cannot be entered", 2);
    house.folder.allow("records", 0o777);
    assert!(house.calls().is_empty());
}

#[test]
fn the_use() {
    let house = house();
    for word in ["-h", "--help"] {
        let ran = house.run(&[word]);
        assert!(ran.out.starts_with("usage: add DIR "), "{ran:?}");
        assert_eq!((ran.err.as_str(), ran.status), ("", Some(0)));
    }
}

#[test]
fn strange_paths_and_links() {
    let house = house();
    for name in ["-", "-x", "--", "a b", "*", "$HOME", "line\nbreak", "-/-"] {
        let sheet = plan(&house, name);
        printed(house.run(&[name]), &sheet, 0);
    }
    let sheet = plan(&house, "a b");
    house.folder.put_folder("elsewhere");
    symlink(house.folder.at("add"), house.folder.at("elsewhere/add")).unwrap();
    symlink("../a b", house.folder.at("elsewhere/records")).unwrap();
    let mut command = house.command_by("./add");
    command.current_dir(house.folder.at("elsewhere"));
    printed(run_command(command.arg("records"), b""), &sheet, 0);
    assert!(house.calls().is_empty());
}

#[test]
fn files_that_cannot_be_kept() {
    let house = house();
    plan(&house, "records");
    house.folder.put_folder("records/circuits.rec.new");
    let words = "circuits.rec, fibres.rec and assign.rec cannot be written";
    told(house.run(&["records"]), words, 3);
    fs::remove_dir(house.folder.at("records/circuits.rec.new")).unwrap();
    house.folder.put_folder("records/assign.rec.old/inner");
    let words = "circuits.rec, fibres.rec and assign.rec cannot be replaced";
    told(house.run(&["records"]), words, 3);
}

#[test]
fn a_sheet_that_is_not_whole() {
    let house = house();
    plan(&house, "records");
    for text in ["", "T 2 9 6", "R 11 0 0", "F 1 1 5 2\\n", "Y 9 6\\n", "\\n"] {
        house.script("target/bin/adds", &format!("printf '{text}'"));
        told(house.run(&["records"]), "not whole", 3);
    }
    // The status of a program says nothing.
    house.script("target/bin/adds", "echo T 0 0 0; exit 7");
    printed(house.run(&["records"]), "T 0 0 0\n", 0);
}

#[test]
fn output_that_cannot_be_written() {
    let house = house();
    for argument in ["records", "--help"] {
        for redirection in [">/dev/full", ">&-"] {
            plan(&house, "records");
            let mut command = house.command_by("bash");
            command.args(["-c", &format!("./add {argument} {redirection}")]);
            told(run_command(&mut command, b""), "could not be written", 3);
        }
    }
}

#[test]
fn it_is_built_where_it_is_not_there() {
    let house = house();
    let sheet = plan(&house, "records");
    fs::remove_dir_all(house.folder.at("target")).unwrap();
    house.build_by_copy("");
    let ran = house.run(&["records"]);
    let ended = (ran.out.as_str(), ran.err.as_str(), ran.status);
    assert_eq!(ended, (sheet.as_str(), "proved\n", Some(0)));
    assert_eq!(house.calls(), ["run adds"]);
    house.age("crates.txt", 1);
    house.age("target/bin/adds", 500);
    house.script("tools/rt", "exit 1");
    told(house.run(&["records"]), "could not be built", 3);
}
