//! Runs the built programs and the scripts in folders of their own, for tests of what they print and leave.
//!
//! The programs stand in the folder that `FIBRE_PLAN_BIN_DIR` names, or where the repository's own
//! build puts them.
#![deny(missing_docs)]

mod draws;
mod folder;
pub mod house;
mod line;
mod pair;
mod run;
mod sheet;
pub mod texts;

pub use draws::random_line;
pub use folder::{Entry, Folder};
pub use line::Line;
pub use pair::{Pair, State};
pub use run::{
    as_nobody, program, run, run_as_nobody, run_command, run_without_input, start, Ran,
    UNREAD_INPUT,
};
pub use sheet::{assert_same, grown_of, lists_of, sheet_of, text_of, Files};

use std::env;
use std::path::{Path, PathBuf};

/// The repository.
pub fn repository() -> PathBuf {
    // Asked for when it runs: a build folder may be shared by two copies of the repository.
    let here = env::var_os("CARGO_MANIFEST_DIR").expect("cargo names the folder of the crate");
    Path::new(&here).join("../..").canonicalize().unwrap()
}
