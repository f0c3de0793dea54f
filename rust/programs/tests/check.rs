//! What `check` prints for the lists that `plan --keep` keeps and for damaged ones, with which status, and when it builds.
use inputs::{encode, Numbers, Rng, FAMILIES};
use programs::house::{printed, told, House};
use programs::texts::LISTING;
use programs::{as_nobody, random_line, run_command};
use std::fs;
use std::os::unix::fs::symlink;

/// A repository in small with the programs that keep lists and check them.
fn house() -> House {
    House::new("check", &["lists", "checks"])
}

/// Keeps the lists of the records in a folder of the house: the last line of the sheet.
fn keep(house: &House, folder: &str) -> String {
    let mut command = house.command_by(house.folder.at("plan"));
    let ran = run_command(command.args(["--keep", folder]), b"");
    ran.out.lines().last().unwrap_or_default().to_owned()
}

/// What is printed for a plan that has this last line.
fn yes_to(last: &str) -> String {
    let mut numbers = last.split(' ').skip(2);
    let [length, floor] = [(); 2].map(|()| numbers.next().unwrap());
    format!("Y {length} {floor}\n")
}

#[test]
fn the_listing() {
    let house = house();
    house.listing("records");
    printed(house.run(&["records"]), "R 11 0 0\n", 1);
    assert_eq!(keep(&house, "records"), "T 2 9 6");
    printed(house.run(&["records"]), "Y 9 6\n", 0);
}

#[test]
fn every_kept_plan_gets_a_yes() {
    let house = house();
    house.folder.put_folder("records");
    let mut planned = 0;
    for seed in 0..60 {
        let (line, circuits) = random_line(seed);
        house.folder.put("records/line.rec", &line.bytes());
        let bytes = encode(&circuits);
        house.folder.put("records/circuits.rec", &bytes);
        let last = keep(&house, "records");
        if last.starts_with("T ") {
            planned += 1;
            printed(house.run(&["records"]), &yes_to(&last), 0);
        } else {
            // The refusal of the circuits is the check's too, whatever lists there are.
            for name in ["fibres.rec", "assign.rec"] {
                house.folder.put(&format!("records/{name}"), b"");
            }
            printed(house.run(&["records"]), &format!("{last}\n"), 1);
        }
    }
    assert!((30..59).contains(&planned), "{planned}");
}

#[test]
fn plans_at_the_limits_get_a_yes() {
    let house = house();
    house.folder.put_folder("records");
    for (w, grid) in [(1, 1), (40, 1), (80, 2)] {
        let line = programs::Line::from((512, w, grid));
        house.folder.put("records/line.rec", &line.bytes());
        for family in FAMILIES {
            let rng = &mut Rng::new(w.into());
            let bytes = encode(&family.circuits(2048, 512, Numbers::Shuffled, rng));
            house.folder.put("records/circuits.rec", &bytes);
            let last = keep(&house, "records");
            printed(house.run(&["records"]), &yes_to(&last), 0);
        }
    }
}

/// Puts bytes at a place of a file of the house.
fn put_at(house: &House, name: &str, at: usize, bytes: &[u8]) {
    let mut file = fs::read(house.folder.at(name)).unwrap();
    file[at..at + bytes.len()].copy_from_slice(bytes);
    house.folder.put(name, &file);
}

#[test]
fn each_rule() {
    let house = house();
    for (file, at, bytes, told) in [
        // Fibre 2 has number 3; fibre 1 starts at 0, has its ends the wrong way round, ends past the line.
        ("fibres.rec", 8, &[3, 0][..], "N 1 2\n"),
        ("fibres.rec", 2, &[0, 0], "N 2 1\n"),
        ("fibres.rec", 2, &[5, 0, 4, 0], "N 2 1\n"),
        ("fibres.rec", 4, &[6, 0], "N 2 1\n"),
        // Assignment 2 is of circuit 21; on fibre 0 and 3; assignment 1 on fibre 2, which does not span [1, 3].
        ("assign.rec", 8, &[21, 0], "N 4 2\n"),
        ("assign.rec", 12, &[0, 0], "N 5 2\n"),
        ("assign.rec", 12, &[3, 0], "N 5 2\n"),
        ("assign.rec", 4, &[2, 0], "N 6 1\n"),
        ("assign.rec", 14, &[0, 0], "N 7 2\n"),
        ("assign.rec", 14, &[3, 0], "N 7 2\n"),
        // [1, 3] and [1, 2] on one fibre and wavelength: the later one is told.
        ("assign.rec", 6, &[1, 0], "N 8 3\n"),
        // The layer does not matter.
        ("fibres.rec", 6, &[9, 9], "Y 9 6\n"),
    ] {
        house.listing("records");
        keep(&house, "records");
        put_at(&house, &format!("records/{file}"), at, bytes);
        let status = i32::from(!told.starts_with('Y'));
        printed(house.run(&["records"]), told, status);
    }
}

#[test]
fn lists_of_another_length() {
    let house = house();
    house.listing("records");
    keep(&house, "records");
    let read = |name: &str| fs::read(house.folder.at(&format!("records/{name}"))).unwrap();
    let [fibres, assigns] = ["fibres.rec", "assign.rec"].map(read);
    let many = |list: &[u8], records: usize| {
        list.iter()
            .copied()
            .cycle()
            .take(8 * records)
            .collect::<Vec<u8>>()
    };
    for (fibres, assigns, told) in [
        (fibres[..15].to_vec(), assigns.clone(), "R 16 1 0\n"),
        (many(&fibres, 4097), assigns.clone(), "R 16 1 0\n"),
        (many(&fibres, 5000), assigns[..3].to_vec(), "R 16 1 0\n"),
        (fibres.clone(), assigns[..31].to_vec(), "R 16 2 0\n"),
        (fibres.clone(), many(&assigns, 2049), "R 16 2 0\n"),
        (fibres.clone(), many(&assigns, 3000), "R 16 2 0\n"),
        (fibres.clone(), assigns[..24].to_vec(), "N 3 0\n"),
        (fibres.clone(), many(&assigns, 5), "N 3 0\n"),
        (fibres.clone(), many(&assigns, 2048), "N 3 0\n"),
        (fibres[..8].to_vec(), assigns.clone(), "N 5 2\n"),
        (many(&fibres, 4096), assigns.clone(), "N 1 3\n"),
        (vec![], vec![], "N 3 0\n"),
    ] {
        house.folder.put("records/fibres.rec", &fibres);
        house.folder.put("records/assign.rec", &assigns);
        printed(house.run(&["records"]), told, 1);
    }
}

#[test]
fn a_file_that_is_missing() {
    let house = house();
    for name in ["line.rec", "circuits.rec", "fibres.rec", "assign.rec"] {
        house.listing("records");
        keep(&house, "records");
        let path = format!("records/{name}");
        fs::remove_file(house.folder.at(&path)).unwrap();
        printed(house.run(&["records"]), "R 11 0 0\n", 1);
        house.folder.put_folder(&path);
        printed(house.run(&["records"]), "R 11 0 0\n", 1);
        fs::remove_dir(house.folder.at(&path)).unwrap();
    }
}

#[test]
fn it_changes_nothing() {
    let house = house();
    house.listing("records");
    keep(&house, "records");
    let read = || {
        let found = fs::read_dir(house.folder.at("records")).unwrap();
        let mut files: Vec<_> = found.map(|file| file.unwrap().path()).collect();
        files.sort();
        files
            .into_iter()
            .map(|path| (fs::read(&path).unwrap(), path))
            .collect::<Vec<_>>()
    };
    let before = read();
    assert_eq!(before.len(), 4);
    printed(house.run(&["records"]), "Y 9 6\n", 0);
    assert!(read() == before);
}

#[test]
fn wrong_use() {
    let house = house();
    house.listing("records");
    house.folder.put("text", b"1 1\n");
    fs::remove_file(house.built("checks")).unwrap();
    for arguments in [&[][..], &["records", "records"], &["-h", "records"]] {
        told(house.run(arguments), "usage: check DIR", 2);
    }
    for path in ["", "nobody", "text", "-n", "--keep", "/dev/null"] {
        told(house.run(&[path]), &format!("'{path}' is not a folder"), 2);
    }
    house.folder.allow("records", 0o666);
    let mut command = house.command();
    as_nobody(&mut command);
    let ran = run_command(command.arg("records"), b"");
    told(ran, "the folder records cannot be entered", 2);
    house.folder.allow("records", 0o777);
    assert!(house.calls().is_empty());
}

#[test]
fn the_use() {
    let house = house();
    for word in ["-h", "--help"] {
        let ran = house.run(&[word]);
        assert!(ran.out.starts_with("usage: check DIR "), "{ran:?}");
        assert_eq!((ran.err.as_str(), ran.status), ("", Some(0)));
    }
}

#[test]
fn strange_paths_and_links() {
    let house = house();
    for name in ["-", "-x", "--", "a b", "*", "$HOME", "line\nbreak", "-/-"] {
        house.listing(name);
        keep(&house, name);
        printed(house.run(&[name]), "Y 9 6\n", 0);
        printed(house.run(&[&house.path(name)]), "Y 9 6\n", 0);
    }
    house.folder.put_folder("elsewhere");
    symlink(house.folder.at("check"), house.folder.at("elsewhere/check")).unwrap();
    symlink("../a b", house.folder.at("elsewhere/records")).unwrap();
    let mut command = house.command_by("./check");
    command.current_dir(house.folder.at("elsewhere"));
    printed(run_command(command.arg("records"), b""), "Y 9 6\n", 0);
    assert!(house.calls().is_empty());
}

#[test]
fn an_answer_that_is_not_whole() {
    let house = house();
    house.listing("records");
    for text in ["", "Y 9 6", "N 1 2", "R 11 0 0", "T 2 9 6\\n", "\\n"] {
        house.script("target/bin/checks", &format!("printf '{text}'"));
        told(house.run(&["records"]), "not whole", 3);
    }
    // The status of a program says nothing.
    house.script("target/bin/checks", "echo Y 0 0; exit 7");
    printed(house.run(&["records"]), "Y 0 0\n", 0);
}

#[test]
fn output_that_cannot_be_written() {
    let house = house();
    house.listing("records");
    for argument in ["records", "--help"] {
        for redirection in [">/dev/full", ">&-"] {
            let mut command = house.command_by("bash");
            command.args(["-c", &format!("./check {argument} {redirection}")]);
            told(run_command(&mut command, b""), "could not be written", 3);
        }
    }
}

#[test]
fn it_is_built_where_it_is_not_there() {
    let house = house();
    house.listing("records");
    keep(&house, "records");
    fs::remove_dir_all(house.folder.at("target")).unwrap();
    house.build_by_copy("");
    let ran = house.run(&["records"]);
    let ended = (ran.out.as_str(), ran.err.as_str(), ran.status);
    assert_eq!(ended, ("Y 9 6\n", "proved\n", Some(0)));
    assert_eq!(house.calls(), ["run checks"]);
    printed(house.run(&["records"]), "Y 9 6\n", 0);
    house.age("crates.txt", 1);
    house.age("target/bin/checks", 500);
    house.script("tools/rt", "exit 1");
    told(house.run(&["records"]), "could not be built", 3);
}

#[test]
fn lists_of_other_circuits() {
    let house = house();
    house.listing("records");
    house
        .folder
        .put("records/circuits.rec", &encode(&LISTING[..1]));
    keep(&house, "records");
    house.listing("records");
    printed(house.run(&["records"]), "N 3 0\n", 1);
    let mut turned = LISTING;
    turned.reverse();
    house.folder.put("records/circuits.rec", &encode(&turned));
    keep(&house, "records");
    house.listing("records");
    printed(house.run(&["records"]), "N 4 1\n", 1);
}
