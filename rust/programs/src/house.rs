//! A repository in small, in which `plan`, `check` and `add` run.
use crate::texts::LISTING;
use crate::{assert_same, program, repository, run_command, sheet_of, Folder, Ran};
use inputs::encode;
use std::ffi::OsStr;
use std::fs::{self, File};
use std::path::PathBuf;
use std::process::Command;
use std::thread::panicking;
use std::time::{Duration, SystemTime};

/// What the scripts share.
const SHARED: &str = "scripts/common.sh";

/// A repository in small: the scripts, a source, built programs, and an `rt` that notes each call.
pub struct House {
    /// Where it stands.
    pub folder: Folder,
    /// The script that is run.
    script: &'static str,
}

impl House {
    /// A repository in which these programs are built, to run a script.
    pub fn new(script: &'static str, programs: &[&str]) -> Self {
        let folder = Folder::new();
        let house = Self { folder, script };
        for folder in ["crates/sheet/src", "target/bin", "tools", "room", "scripts"] {
            house.folder.put_folder(folder);
        }
        for program in ["lists", "adds", "checks", "typed"] {
            house.folder.put_folder(&format!("crates/{program}"));
        }
        house.folder.allow("room", 0o777);
        house.folder.put("crates.txt", b"");
        house.folder.put("crates/sheet/src/main.rt", b"");
        house.script(
            "tools/rt",
            &format!("echo \"$*\" >>'{}'", house.path("calls")),
        );
        for name in ["plan", "check", "add", SHARED] {
            house.folder.put_copy(name, &repository().join(name));
        }
        for name in programs {
            let built = format!("target/bin/{name}");
            house.folder.put_copy(&built, &program(name));
        }
        house.age_sources();
        house
    }

    /// The path of a name in it.
    pub fn path(&self, name: &str) -> String {
        self.folder.at(name).to_str().unwrap().to_owned()
    }

    /// Where a program stands.
    pub fn built(&self, name: &str) -> PathBuf {
        self.folder.at("target/bin").join(name)
    }

    /// Makes a shell script.
    pub fn script(&self, name: &str, text: &str) {
        self.folder
            .put(name, format!("#!/bin/sh\n{text}\n").as_bytes());
        self.folder.allow(name, 0o755);
    }

    /// Makes a source as old as this, in seconds.
    pub fn age(&self, name: &str, seconds: u64) {
        let time = SystemTime::now() - Duration::from_secs(seconds);
        File::open(self.folder.at(name))
            .unwrap()
            .set_modified(time)
            .unwrap();
    }

    /// Makes every source older than the programs.
    pub fn age_sources(&self) {
        let folders = ["crates", "crates/sheet", "crates/sheet/src"];
        for name in ["crates.txt", "crates/sheet/src/main.rt"]
            .into_iter()
            .chain(folders)
        {
            self.age(name, 1000);
        }
    }

    /// A command that runs a script by this path, with the house's own `rt` and temporary folder.
    pub fn command_by(&self, path: impl AsRef<OsStr>) -> Command {
        let mut command = Command::new(path);
        let search = format!("{}:{}", self.path("tools"), std::env::var("PATH").unwrap());
        command.env("PATH", search);
        command.env("TMPDIR", self.folder.at("room"));
        command.current_dir(self.folder.path());
        command
    }

    /// A command that runs the script.
    pub fn command(&self) -> Command {
        self.command_by(self.folder.at(self.script))
    }

    /// Runs the script with these arguments.
    pub fn run(&self, arguments: &[&str]) -> Ran {
        run_command(self.command().args(arguments), b"")
    }

    /// What `rt` was asked for since this was asked last.
    pub fn calls(&self) -> Vec<String> {
        let calls = fs::read_to_string(self.folder.at("calls")).unwrap_or_default();
        let _ = fs::remove_file(self.folder.at("calls"));
        calls.lines().map(str::to_owned).collect()
    }

    /// An `rt` that notes its call, says something, and makes the program that it is asked for.
    pub fn build_by_copy(&self, then: &str) {
        let text = format!(
            "echo \"$*\" >>'{}'; echo proved >&2; mkdir -p out; cp '{}/'$2 out/$2; cd ../..; {then}",
            self.path("calls"),
            program("sheet").parent().unwrap().display()
        );
        self.script("tools/rt", &text);
    }

    /// A folder in it with the records of the listing, and what is printed for them.
    pub fn listing(&self, name: &str) -> String {
        self.folder.put_folder(name);
        self.folder.put(&format!("{name}/line.rec"), &[5, 0, 2, 0]);
        self.folder
            .put(&format!("{name}/circuits.rec"), &encode(&LISTING));
        sheet_of((5, 2), &encode(&LISTING))
    }
}

impl Drop for House {
    fn drop(&mut self) {
        let left = fs::read_dir(self.folder.at("room")).unwrap().count();
        assert!(left == 0 || panicking(), "temporary files are left");
    }
}

/// A run printed this and nothing else, with this status.
///
/// # Panics
///
/// Where it did not.
#[track_caller]
pub fn printed(ran: Ran, out: &str, status: i32) {
    assert_same(&ran.out, out);
    assert_eq!((ran.err.as_str(), ran.status), ("", Some(status)));
}

/// A run printed nothing and told this, with this status.
///
/// # Panics
///
/// Where it did not.
#[track_caller]
pub fn told(ran: Ran, words: &str, status: i32) {
    assert!(ran.err.contains(words), "{ran:?} does not tell {words:?}");
    assert_eq!(
        (ran.out.as_str(), ran.status),
        ("", Some(status)),
        "{ran:?}"
    );
}
