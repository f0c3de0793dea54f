//! What `plan` prints, with which status, and when it builds.
mod keeping;

use inputs::{encode, Circuit};
use programs::house::{printed, told, House};
use programs::texts::LISTING;
use programs::{
    as_nobody, assert_same, program, repository, run_command, sheet_of, start, text_of,
    UNREAD_INPUT,
};
use std::fs;
use std::io::Read;
use std::os::unix::fs::symlink;
use std::process::Stdio;

/// The programs that it may call.
const PROGRAMS: [&str; 3] = ["sheet", "typed", "lists"];

/// A repository in small with all of them.
fn house() -> House {
    House::new("plan", &PROGRAMS)
}

#[test]
fn the_samples() {
    let house = house();
    for sample in ["samples/listing", "samples/coast"] {
        let folder = repository().join(sample);
        let line = fs::read(folder.join("line.rec")).unwrap();
        let [n, w] = [0, 2].map(|at| u16::from_le_bytes([line[at], line[at + 1]]));
        let sheet = sheet_of((n, w), &fs::read(folder.join("circuits.rec")).unwrap());
        printed(house.run(&[folder.to_str().unwrap()]), &sheet, 0);
        let text = folder.join("circuits.txt");
        printed(house.run(&[text.to_str().unwrap()]), &sheet, 0);
    }
    assert!(house.calls().is_empty());
}

#[test]
fn grid_2() {
    let house = house();
    let sheet = sheet_of((5, 2, 2), &encode(&LISTING));
    house.listing("records");
    house.folder.put("records/line.rec", &[5, 0, 2, 0, 2, 0]);
    house
        .folder
        .put("text", text_of((5, 2, 2), &LISTING).as_bytes());
    for path in ["records", "text"] {
        printed(house.run(&[path]), &sheet, 0);
    }
}

#[test]
fn a_refused_folder() {
    let house = house();
    house.folder.put_folder("empty");
    printed(house.run(&["empty"]), "R 11 0 0\n", 1);
    house.listing("bad");
    for (line, refusal) in [
        (&[5, 0, 41, 0][..], "R 4 0 0\n"),
        (&[5, 0, 81, 0, 2, 0], "R 4 0 0\n"),
        (&[5, 0, 2, 0, 3, 0], "R 12 0 0\n"),
        (&[5, 0, 2, 0, 2], "R 11 0 0\n"),
    ] {
        house.folder.put("bad/line.rec", line);
        printed(house.run(&["bad"]), refusal, 1);
    }
    house.folder.put("bad/line.rec", &[4, 0, 2, 0]);
    printed(house.run(&["bad"]), "R 6 2 3\n", 1);
}

#[test]
fn a_refused_text() {
    let house = house();
    for (text, refusal) in [
        ("5 41\n", "R 4 0 0\n"),
        ("5 2 3\n", "R 12 0 0\n"),
        ("5 2\n10 0 3\n", "R 6 1 1\n"),
        ("5 2\n10 3 1\n", "R 6 1 2\n"),
        ("5 2\n10 3 6\n", "R 6 1 3\n"),
    ] {
        house.folder.put("text", text.as_bytes());
        let ran = house.run(&["text"]);
        assert!(ran.out.starts_with(refusal), "{ran:?}");
        assert_eq!((ran.err.as_str(), ran.status), ("", Some(1)));
    }
}

#[test]
fn a_wrong_text() {
    let house = house();
    for text in ["", "5\n", "5 2 x\n", "5 2\n10 1\n"] {
        house.folder.put("text", text.as_bytes());
        let ran = house.run(&["text"]);
        assert!(
            ran.out.starts_with("line ") && ran.out.ends_with('\n'),
            "{ran:?}"
        );
        assert_eq!((ran.err.as_str(), ran.status), ("", Some(1)));
    }
    house.folder.put("text", &[b' '; 1_048_577]);
    let ran = house.run(&["text"]);
    assert!(
        ran.out.contains("1048576 bytes") && ran.status == Some(1),
        "{ran:?}"
    );
}

#[test]
fn wrong_use() {
    let house = house();
    house.listing("folder");
    // Nothing is built for a wrong use.
    fs::remove_file(house.built("sheet")).unwrap();
    told(house.run(&[]), "usage: plan DIR", 2);
    told(house.run(&["folder", "folder"]), "usage: plan DIR", 2);
    told(house.run(&["-h", "folder"]), "usage: plan DIR", 2);
    for path in ["", "nobody", "folder/nobody", "no body", "-n", "/dev/null"] {
        told(house.run(&[path]), &format!("'{path}' is neither"), 2);
    }
    symlink("nowhere", house.folder.at("dangling")).unwrap();
    told(house.run(&["dangling"]), "'dangling' is neither", 2);
    assert!(house.calls().is_empty());
}

#[test]
fn the_use() {
    let house = house();
    for word in ["-h", "--help"] {
        let ran = house.run(&[word]);
        assert!(ran.out.starts_with("usage: plan DIR "), "{ran:?}");
        assert_eq!((ran.err.as_str(), ran.status), ("", Some(0)));
    }
    assert!(house.calls().is_empty());
}

#[test]
fn strange_paths() {
    let house = house();
    for name in [
        "-",
        "-x",
        "--",
        "a b",
        " ",
        "*",
        "$HOME",
        "line\nbreak",
        "é",
        "-/-",
    ] {
        let sheet = house.listing(name);
        printed(house.run(&[name]), &sheet, 0);
        let text = format!("{name}/-t x t");
        house
            .folder
            .put(&text, text_of((5, 2), &LISTING).as_bytes());
        printed(house.run(&[&text]), &sheet, 0);
        printed(house.run(&[&house.path(&text)]), &sheet, 0);
    }
    for name in ["-e", "-n", "text with spaces"] {
        house.folder.put(name, b"1 1\n");
        printed(house.run(&[name]), "T 0 0 0\n", 0);
    }
}

#[test]
fn from_any_folder_and_by_links() {
    let house = house();
    let sheet = house.listing("a/b");
    house
        .folder
        .put("a/text", text_of((5, 2), &LISTING).as_bytes());
    house.folder.put_folder("elsewhere/deep");
    symlink(house.folder.at("plan"), house.folder.at("elsewhere/plan")).unwrap();
    symlink("../plan", house.folder.at("elsewhere/deep/again")).unwrap();
    symlink(house.folder.at("a/b"), house.folder.at("elsewhere/records")).unwrap();
    for (folder, plan, path) in [
        ("a", "../plan", "b"),
        ("a", "../plan", "text"),
        ("a/b", "../../plan", "."),
        ("a/b", "../../plan", "../text"),
        ("elsewhere", "./plan", "records"),
        ("elsewhere", "deep/again", "../a/text"),
        ("elsewhere/deep", "./again", "../../a/b"),
    ] {
        let mut command = house.command_by(plan);
        command.current_dir(house.folder.at(folder)).arg(path);
        printed(run_command(&mut command, b""), &sheet, 0);
    }
    // By the search path.
    let mut command = house.command_by("bash");
    command.args(["-c", "PATH=elsewhere:$PATH; plan a/b"]);
    printed(run_command(&mut command, b""), &sheet, 0);
    assert!(house.calls().is_empty());
}

#[test]
fn cdpath_does_not_matter() {
    let house = house();
    let sheet = house.listing("records");
    house.folder.put_folder("other/records");
    house.folder.put_folder("other/target");
    let mut command = house.command_by("./plan");
    command
        .env("CDPATH", house.folder.at("other"))
        .arg("records");
    printed(run_command(&mut command, b""), &sheet, 0);
    fs::remove_file(house.built("sheet")).unwrap();
    told(run_command(&mut command, b""), "there is no", 3);
    assert_eq!(house.calls(), ["run sheet"]);
}

#[test]
fn a_temporary_folder_by_a_relative_path() {
    let house = house();
    let sheet = house.listing("records");
    house
        .folder
        .put("text", text_of((5, 2), &LISTING).as_bytes());
    for path in ["records", "text"] {
        printed(
            run_command(house.command().env("TMPDIR", "room").arg(path), b""),
            &sheet,
            0,
        );
    }
    let ran = run_command(house.command().env("TMPDIR", "nowhere").arg("records"), b"");
    told(ran, "no room for a temporary file", 3);
}

#[test]
fn output_that_cannot_be_written() {
    let house = house();
    house.listing("records");
    house
        .folder
        .put("text", text_of((5, 2), &LISTING).as_bytes());
    house.folder.put("wrong", b"5\n");
    for path in ["records", "text", "wrong", "--help"] {
        for redirection in [">/dev/full", ">&-"] {
            let mut command = house.command_by("bash");
            command.args(["-c", &format!("./plan \"$1\" {redirection}"), "bash", path]);
            told(run_command(&mut command, b""), "could not be written", 3);
        }
    }
}

#[test]
fn a_closed_pipe() {
    let house = house();
    // A sheet that no pipe holds.
    let list: Vec<Circuit> = (0..2048).map(|i| (u32::MAX - i, 1, 512)).collect();
    house
        .folder
        .put("text", text_of((512, 1), &list).as_bytes());
    let mut command = house.command();
    command
        .arg("text")
        .stdout(Stdio::piped())
        .stderr(Stdio::null());
    let mut child = start(&mut command);
    let mut start = [0; 9];
    let mut pipe = child.stdout.take().unwrap();
    pipe.read_exact(&mut start).unwrap();
    drop(pipe);
    assert_eq!(
        (&start, child.wait().unwrap().code()),
        (b"F 1 1 512", Some(3))
    );
}

#[test]
fn a_sheet_that_is_not_whole() {
    let house = house();
    house.listing("records");
    for text in [
        "",
        "\\n",
        "T 2 9 6",
        "F 1 1 1 1\\n",
        "F 1 1 1 1\\nC 7 1 1 192100\\n",
        "F 1 1",
        "R 1",
        "R 11 0 0",
    ] {
        house.script("target/bin/sheet", &format!("printf '{text}'"));
        told(house.run(&["records"]), "not whole", 3);
    }
    house.script("target/bin/sheet", "printf 'F 1 1 1 1\\n'; kill -SEGV $$");
    told(house.run(&["records"]), "not whole", 3);
    // The status of a program says nothing.
    house.script("target/bin/sheet", "echo T 0 0 0; exit 7");
    printed(house.run(&["records"]), "T 0 0 0\n", 0);
}

#[test]
fn a_text_whose_answer_is_not_whole() {
    let house = house();
    house.folder.put("text", b"1 1\n0 1 1\n");
    for text in [
        "",
        "T 0 0 0",
        "F 1 1 1 1\\n",
        "R 5 1 0\\n",
        "R 5 1 0\\nline 2: circ",
        "line 2",
    ] {
        house.script("target/bin/typed", &format!("printf '{text}'"));
        told(house.run(&["text"]), "not whole", 3);
    }
}

#[test]
fn a_text_that_could_not_be_read() {
    let house = house();
    house.folder.put("text", b"1 1\n");
    house.script("target/bin/typed", &format!("printf '{UNREAD_INPUT}'"));
    told(house.run(&["text"]), "the file text could not be read", 3);
}

#[test]
fn a_temporary_folder_that_is_full() {
    let house = house();
    // The longest sheet, where no file may have more than 64 KB.
    let list: Vec<Circuit> = (0..2048).map(|i| (u32::MAX - i, 1, 512)).collect();
    house.folder.put_folder("records");
    house.folder.put("records/line.rec", &[0, 2, 1, 0]);
    house.folder.put("records/circuits.rec", &encode(&list));
    for trap in ["", "trap '' XFSZ;"] {
        let mut command = house.command_by("bash");
        command.args(["-c", &format!("{trap} ulimit -f 64; ./plan records")]);
        told(run_command(&mut command, b""), "not whole", 3);
    }
}

#[test]
fn what_is_missing_is_built() {
    let house = house();
    let sheet = house.listing("records");
    fs::remove_dir_all(house.folder.at("target")).unwrap();
    house.build_by_copy("");
    let ran = house.run(&["records"]);
    assert_same(&ran.out, &sheet);
    assert_eq!((ran.err.as_str(), ran.status), ("proved\n", Some(0)));
    assert_eq!(house.calls(), ["run sheet"]);
    printed(house.run(&["records"]), &sheet, 0);
    assert!(house.calls().is_empty());
}

#[test]
fn what_is_out_of_date_is_built_once() {
    let house = house();
    let sheet = house.listing("records");
    // What an earlier build made.
    house.folder.put_folder("crates/sheet/out");
    house
        .folder
        .put_copy("crates/sheet/out/sheet", &program("sheet"));
    for source in [
        "crates.txt",
        "crates/sheet/src/main.rt",
        "crates/sheet/src",
        "crates",
    ] {
        // A build that finds nothing to do leaves the program as it is.
        house.age("target/bin/sheet", 500);
        house.age(source, 1);
        let ran = house.run(&["records"]);
        assert_same(&ran.out, &sheet);
        assert_eq!(
            (house.calls(), ran.status),
            (vec!["run sheet".to_owned()], Some(0))
        );
        printed(house.run(&["records"]), &sheet, 0);
        assert!(house.calls().is_empty(), "{source}");
        house.age_sources();
    }
}

#[test]
fn an_edit_during_a_build_is_built_next() {
    let house = house();
    house.listing("records");
    fs::remove_file(house.built("sheet")).unwrap();
    house.build_by_copy(
        "sleep 0.05; echo >>crates/sheet/src/main.rt; sleep 0.05; touch crates/$2/out/$2",
    );
    for _ in 0..2 {
        assert_eq!(house.run(&["records"]).status, Some(0));
        assert_eq!(house.calls(), ["run sheet"]);
    }
}

#[test]
fn a_text_has_its_programs_built() {
    let house = house();
    house.folder.put("text", b"1 1\n");
    fs::remove_dir_all(house.folder.at("target")).unwrap();
    house.build_by_copy("");
    let ran = house.run(&["text"]);
    assert_eq!((ran.out.as_str(), ran.status), ("T 0 0 0\n", Some(0)));
    assert_eq!(house.calls(), ["run typed"]);
}

#[test]
fn a_build_that_fails() {
    let house = house();
    house.listing("records");
    house.folder.put("text", b"1 1\n");
    house.age("crates.txt", 1);
    for name in PROGRAMS {
        house.age(&format!("target/bin/{name}"), 500);
    }
    house.script("tools/rt", "echo 'sheet NOT PROVED'; exit 1");
    for path in ["records", "text"] {
        let ran = house.run(&[path]);
        assert!(ran.err.contains("sheet NOT PROVED\n"), "{ran:?}");
        told(ran, "could not be built", 3);
    }
    fs::remove_file(house.folder.at("tools/rt")).unwrap();
    let mut command = house.command_by("/bin/bash");
    command
        .env("PATH", "/usr/bin:/bin")
        .args(["./plan", "records"]);
    told(run_command(&mut command, b""), "could not be built", 3);
}

#[test]
fn what_may_not_be_read_is_told() {
    let house = house();
    house.listing("records");
    house.folder.put("text", b"1 1\n");
    house.folder.allow("records", 0o666);
    house.folder.allow("text", 0);
    for (path, words) in [
        ("records", "the folder records cannot be entered"),
        ("text", "the file text cannot be read"),
    ] {
        let mut command = house.command();
        as_nobody(&mut command);
        told(run_command(command.arg(path), b""), words, 2);
    }
    house.folder.allow("records", 0o777);
    house.folder.allow("records/circuits.rec", 0);
    let mut command = house.command();
    as_nobody(&mut command);
    printed(run_command(command.arg("records"), b""), "R 11 0 0\n", 1);
}
