//! How `enter`, `lists` and `adds` replace their files: whatever stands in their way, the folder has the old ones or the new.
use programs::{run_as_nobody, run_command, Folder, Pair, State};
use std::fs;
use std::os::unix::fs::symlink;
use std::path::Path;

/// The program runs in the folder, which then has the new files and nothing else besides what was read.
#[track_caller]
fn replaces(pair: &Pair, folder: &Folder, what: &str) {
    assert_eq!(pair.run(folder), pair.out, "{}, {what}", pair.program);
    let right = folder.entries() == pair.replaced();
    assert!(right, "{}, {what}: other files", pair.program);
}

/// A file elsewhere, which should stay as it is.
fn elsewhere() -> Folder {
    Folder::with(&[("kept", b"as it was")])
}

#[test]
fn the_files_are_made_or_replaced() {
    for pair in Pair::all().iter().chain(&Pair::large()) {
        for folder in pair.starts() {
            replaces(pair, &folder, "new or old");
            assert_eq!(pair.run(&folder), pair.from(State::New).0);
            assert!(folder.entries() == pair.replaced(), "again");
        }
    }
}

#[test]
fn one_of_the_files_alone() {
    for pair in Pair::listings() {
        for name in [pair.first(), pair.last()] {
            let folder = pair.with_old();
            fs::remove_file(folder.at(name)).unwrap();
            replaces(&pair, &folder, name);
        }
    }
}

#[test]
fn a_link_at_a_draft_is_not_followed() {
    for pair in Pair::all() {
        for draft in pair.drafts() {
            for there in [true, false] {
                let elsewhere = if there { elsewhere() } else { Folder::new() };
                let (folder, before) = (pair.with_old(), elsewhere.entries());
                symlink(elsewhere.at("kept"), folder.at(&draft)).unwrap();
                replaces(&pair, &folder, &draft);
                assert!(elsewhere.entries() == before, "{draft} was followed");
            }
        }
    }
}

#[test]
fn old_drafts_do_not_matter() {
    for pair in Pair::all() {
        let folder = pair.with_old();
        for draft in pair.drafts() {
            folder.put(&draft, &[7; 20_000]);
        }
        replaces(&pair, &folder, "old drafts");
    }
}

#[test]
fn a_link_in_place_of_a_file_is_replaced() {
    for pair in Pair::all() {
        for name in pair.names() {
            let (folder, elsewhere) = (pair.with_old(), pair.with_old());
            let before = elsewhere.entries();
            fs::remove_file(folder.at(name)).unwrap();
            symlink(elsewhere.at(name), folder.at(name)).unwrap();
            replaces(&pair, &folder, name);
            assert!(elsewhere.entries() == before, "{name} was followed");
        }
    }
}

/// Puts something at a path, given a file elsewhere.
type Puts = fn(&Path, &Path);

/// The path of the last file, by that of the old one.
fn last_of(old: &Path) -> std::path::PathBuf {
    old.with_extension("")
}

/// What may stand at the name of the old last file, other than a folder.
const AT_OLD_LAST: [(&str, Puts); 5] = [
    ("a file", |at, _| fs::write(at, [7; 20]).unwrap()),
    ("a hard link", |at, kept| fs::hard_link(kept, at).unwrap()),
    ("a link", |at, kept| symlink(kept, at).unwrap()),
    ("a link to nothing", |at, kept| {
        symlink(kept.with_file_name("nobody"), at).unwrap();
    }),
    ("a link to the last file", |at, _| {
        symlink(last_of(at).file_name().unwrap(), at).unwrap();
    }),
];

/// The same file as the last one.
const THE_LAST_ITSELF: (&str, Puts) = ("a hard link to the last file", |at, _| {
    fs::hard_link(last_of(at), at).unwrap();
});

#[test]
fn what_stands_at_the_name_of_the_old_last_file_goes() {
    for pair in Pair::all() {
        for (what, puts) in AT_OLD_LAST {
            for folder in pair.starts() {
                let elsewhere = elsewhere();
                let before = elsewhere.entries();
                puts(&folder.at(&pair.old_last()), &elsewhere.at("kept"));
                replaces(&pair, &folder, what);
                assert!(elsewhere.entries() == before, "{what} was followed");
            }
        }
        let folder = pair.with_old();
        let (what, puts) = THE_LAST_ITSELF;
        puts(&folder.at(&pair.old_last()), Path::new(""));
        replaces(&pair, &folder, what);
    }
}

#[test]
fn a_failure_brings_the_last_file_back_whatever_stood_at_the_name_of_the_old_one() {
    for pair in Pair::listings() {
        for (what, puts) in AT_OLD_LAST.into_iter().chain([THE_LAST_ITSELF]) {
            let (folder, elsewhere) = (pair.with_old_last(), elsewhere());
            folder.put_folder(pair.first());
            let before = [folder.entries(), elsewhere.entries()];
            puts(&folder.at(&pair.old_last()), &elsewhere.at("kept"));
            assert_eq!(pair.run(&folder), pair.not_replaced());
            let mut left = folder.entries();
            left.remove(&pair.old_last());
            assert!([left, elsewhere.entries()] == before, "{what}");
        }
    }
}

#[test]
fn a_folder_at_the_name_of_the_old_last_file() {
    for pair in Pair::all() {
        for inner in ["", "/inner"] {
            let folder = pair.with_old();
            folder.put_folder(&format!("{}{inner}", pair.old_last()));
            let before = folder.entries();
            let out = pair.run(&folder);
            if out == pair.out {
                assert!(folder.entries() == pair.replaced());
            } else {
                assert_eq!(out, pair.not_replaced());
                let refused = pair.state(&folder) == Some(State::Refused);
                assert!(refused || folder.entries() == before);
            }
        }
    }
}

#[test]
fn a_folder_in_place_of_the_first_file() {
    for pair in Pair::listings() {
        for folder in [pair.without(), pair.with_old_last()] {
            folder.put_folder(&format!("{}/inner", pair.first()));
            let before = folder.entries();
            assert_eq!(pair.run(&folder), pair.not_replaced());
            assert!(folder.entries() == before);
        }
    }
}

#[test]
fn a_folder_in_place_of_a_draft() {
    for pair in Pair::all() {
        for draft in pair.drafts() {
            let folder = pair.with_old();
            folder.put_folder(&draft);
            let before = folder.entries();
            assert_eq!(pair.run(&folder), pair.not_written());
            assert!(folder.entries() == before, "{draft}");
        }
    }
}

#[test]
fn a_folder_that_may_not_be_written() {
    for pair in Pair::all() {
        for folder in pair.starts() {
            folder.allow("", 0o555);
            let before = folder.entries();
            let out = run_as_nobody(pair.program, &folder, &pair.input);
            assert_eq!(out, pair.not_written());
            assert!(folder.entries() == before);
        }
    }
}

#[test]
fn a_disk_that_is_full() {
    for pair in Pair::large() {
        for folder in pair.starts() {
            let before = folder.entries();
            let mut command = pair.with_little_room("trap '' XFSZ;", &folder);
            let out = run_command(&mut command, &pair.input).out;
            assert_eq!(out, pair.not_written());
            assert!(folder.entries() == before);
        }
    }
}

#[test]
fn an_end_in_the_middle_leaves_the_old_files() {
    for pair in Pair::large() {
        let folder = pair.with_old();
        let before = folder.entries();
        let mut command = pair.with_little_room("", &folder);
        assert_eq!(run_command(&mut command, &pair.input).out, "");
        for (name, entry) in before {
            assert!(folder.entries()[&name] == entry, "{name} has changed");
        }
        replaces(&pair, &folder, "after that");
    }
}
