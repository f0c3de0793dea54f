//! `enter`, `lists` and `adds` are ended at each of their calls of the system: the folder then has the old files, the new ones, or
//! no last file, without which the others are refused.
//!
//! Where no process can be traced it fails, unless `FIBRE_PLAN_NO_TRACE` is set: then it says that it was not tried.
use programs::{program, start, Folder, Pair, State};
use std::env;
use std::ffi::{c_int, c_long, c_void};
use std::fs::{self, File};
use std::io::{self, Write};
use std::os::unix::process::CommandExt;
use std::process::{Command, Stdio};
use std::ptr::null_mut;

/// Requests of `ptrace`.
const TRACE_ME: c_int = 0;
const GO_TO_CALL: c_int = 24;

/// The signal that cannot be caught.
const KILL: c_int = 9;

extern "C" {
    fn ptrace(request: c_int, pid: c_int, address: *mut c_void, data: *mut c_void) -> c_long;
    fn waitpid(pid: c_int, status: *mut c_int, options: c_int) -> c_int;
    fn kill(pid: c_int, signal: c_int) -> c_int;
}

/// Waits until a process stops or ends; whether it has stopped.
fn stops(pid: c_int) -> bool {
    let mut status = 0;
    // SAFETY: the status is written to a local; the process is a child that nobody else waits for.
    assert_eq!(unsafe { waitpid(pid, &mut status, 0) }, pid);
    status & 0xff == 0x7f
}

/// Runs a program and ends it before its system call of this number, counted from 0, takes effect; whether it came so far.
fn run_until(calls: usize, pair: &Pair, folder: &Folder) -> bool {
    let input = Folder::with(&[("text", &pair.input)]);
    let mut command = Command::new(program(pair.program));
    command.current_dir(folder.path()).stdout(Stdio::null());
    command.stdin(File::open(input.at("text")).unwrap());
    // Fewer calls before the program's own.
    command.env_remove("LD_LIBRARY_PATH");
    // SAFETY: between fork and exec only `ptrace` is called, which allocates nothing.
    unsafe {
        command.pre_exec(|| {
            ptrace(TRACE_ME, 0, null_mut(), null_mut());
            Ok(())
        });
    }
    let pid = start(&mut command).id() as c_int;
    // It stops as it becomes the program; then at the start and at the end of each call.
    let mut stopped = stops(pid);
    for _ in 0..2 * calls + 1 {
        if !stopped {
            return false;
        }
        // SAFETY: the child has stopped; neither request reads or writes memory of ours.
        assert_eq!(
            unsafe { ptrace(GO_TO_CALL, pid, null_mut(), null_mut()) },
            0
        );
        stopped = stops(pid);
    }
    if stopped {
        // SAFETY: the child is ours and has not been waited for.
        assert_eq!(unsafe { kill(pid, KILL) }, 0);
        assert!(!stops(pid));
    }
    stopped
}

/// Whether no process should be traced; this is told, past what a test run keeps to itself.
fn not_tried() -> bool {
    let told = env::var_os("FIBRE_PLAN_NO_TRACE").is_some();
    if told {
        let words = b"FIBRE_PLAN_NO_TRACE is set: an end at each system call was not tried\n";
        io::stderr().write_all(words).unwrap();
    }
    told
}

/// From a folder with old files, which is then made ready, a program is ended at each of its calls: what is then in the
/// folder is the old files, from some call on no last file, and from some call on the new ones.
fn ended_at_each_call(pair: &Pair, ready: impl Fn(&Folder)) {
    if not_tried() {
        return;
    }
    let name = pair.program;
    // What a folder has, from the first call to the last.
    let mut met = Vec::new();
    for calls in 0.. {
        let folder = pair.with_old();
        ready(&folder);
        let ended = run_until(calls, pair, &folder);
        let state = pair.state(&folder);
        let state = state.unwrap_or_else(|| panic!("{name}, ended at call {calls}: mixed files"));
        met.push(state);
        if !ended {
            break;
        }
        // What was left does not matter to the next run, but for a program that reads the files.
        let (out, then) = pair.from(state);
        assert_eq!(pair.run(&folder), out, "{name}, ended at call {calls}");
        assert_eq!(pair.state(&folder), Some(then));
        let replaced = folder.entries() == pair.replaced();
        assert!(replaced || out != pair.out, "{name}, ended at call {calls}");
        // Where there is no last file, the drafts are whole: under their names they are the new files.
        pair.finish(&folder);
        assert!(state != State::Refused || pair.state(&folder) == Some(State::New));
    }
    assert!(
        met.len() > 1,
        "no process can be traced here; set FIBRE_PLAN_NO_TRACE to go without this test"
    );
    let states = [State::Old, State::Refused, State::New];
    let many = states.map(|state| met.iter().filter(|&&which| which == state).count());
    println!("{name}, ended at each call: old, none and new {many:?} times");
    assert!(met.is_sorted() && many.iter().all(|&times| times > 0));
}

#[test]
fn at_every_moment_the_old_files_or_the_new_or_none() {
    for pair in Pair::all() {
        ended_at_each_call(&pair, |_| ());
    }
}

#[test]
fn the_same_with_a_hard_link_to_the_last_file_at_the_name_of_the_old_one() {
    for pair in Pair::all() {
        ended_at_each_call(&pair, |folder| {
            fs::hard_link(folder.at(pair.last()), folder.at(&pair.old_last())).unwrap();
        });
    }
}
