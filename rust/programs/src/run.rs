//! Runs of programs.
use crate::folder::{alone, Folder};
use crate::repository;
use std::env;
use std::fs::{self, File};
use std::io::{ErrorKind, Write};
use std::os::unix::fs::MetadataExt;
use std::os::unix::process::CommandExt;
use std::path::PathBuf;
use std::process::{Child, Command, Output, Stdio};
use std::thread;

/// The user who owns nothing.
const NOBODY: u32 = 65534;

/// What a program that takes a text prints where standard input cannot be read.
pub const UNREAD_INPUT: &str = "standard input cannot be read\n";

/// What a run printed, and its status; none if a signal ended it.
#[derive(Debug, PartialEq, Eq)]
pub struct Ran {
    /// What stood on standard output.
    pub out: String,
    /// What stood on standard error.
    pub err: String,
    /// The exit status.
    pub status: Option<i32>,
}

impl Ran {
    /// What is known of a process that has ended.
    fn of(ended: Output) -> Self {
        Self {
            out: String::from_utf8(ended.stdout).unwrap(),
            err: String::from_utf8(ended.stderr).unwrap(),
            status: ended.status.code(),
        }
    }

    /// What a program printed that no signal ended and that said nothing on standard error.
    fn printed(self, name: &str) -> String {
        assert!(self.status.is_some(), "a signal ended {name}");
        assert_eq!(self.err, "", "{name}");
        self.out
    }
}

/// The path of a built program, which must be there.
pub fn program(name: &str) -> PathBuf {
    let folder = env::var_os("FIBRE_PLAN_BIN_DIR")
        .map_or_else(|| repository().join("target/bin"), PathBuf::from);
    let path = folder.join(name);
    assert!(
        path.is_file(),
        "no {}: run `scripts/build {name}` in the repository, or set FIBRE_PLAN_BIN_DIR to the folder of the programs",
        path.display()
    );
    path
}

/// Starts a command.
pub fn start(command: &mut Command) -> Child {
    let _alone = alone();
    command.spawn().unwrap()
}

/// Runs a command with some bytes on standard input.
pub fn run_command(command: &mut Command, input: &[u8]) -> Ran {
    command.stdin(Stdio::piped());
    command.stdout(Stdio::piped()).stderr(Stdio::piped());
    let mut child = start(command);
    let mut stdin = child.stdin.take().unwrap();
    Ran::of(thread::scope(|scope| {
        scope.spawn(move || {
            // A program need not read all of its input.
            let written = stdin.write_all(input);
            assert!(written.map_or_else(|e| e.kind() == ErrorKind::BrokenPipe, |()| true));
        });
        child.wait_with_output().unwrap()
    }))
}

/// What a built program prints that runs in a folder with some bytes on standard input.
pub fn run(name: &str, folder: &Folder, input: &[u8]) -> String {
    let mut command = Command::new(program(name));
    run_command(command.current_dir(folder.path()), input).printed(name)
}

/// The same, as a user who may do only what everybody may.
pub fn run_as_nobody(name: &str, folder: &Folder, input: &[u8]) -> String {
    let copy = Folder::new();
    copy.put_copy(name, &program(name));
    let mut command = Command::new(copy.at(name));
    as_nobody(command.current_dir(folder.path()));
    run_command(&mut command, input).printed(name)
}

/// What a built program prints that runs in a folder, with that folder as standard input: it cannot be read.
pub fn run_without_input(name: &str, folder: &Folder) -> String {
    let mut command = Command::new(program(name));
    command.current_dir(folder.path());
    command.stdin(File::open(folder.path()).unwrap());
    command.stdout(Stdio::piped()).stderr(Stdio::piped());
    Ran::of(start(&mut command).wait_with_output().unwrap()).printed(name)
}

/// Makes a command run as a user who may do only what everybody may.
pub fn as_nobody(command: &mut Command) {
    // Only root can become somebody else, and only root has to.
    if fs::metadata("/proc/self").unwrap().uid() == 0 {
        command.uid(NOBODY).gid(NOBODY);
    }
}
