//! Folders for one case each.
use crate::Line;
use std::collections::BTreeMap;
use std::fs;
use std::os::unix::fs::PermissionsExt;
use std::path::{Path, PathBuf};
use std::process;
use std::sync::atomic::{AtomicUsize, Ordering};
use std::sync::{Mutex, MutexGuard, PoisonError};
use std::thread::panicking;

/// Held while a file is written and while a process is started: one that has not yet become its program has all
/// files open that are open here, and a program that somebody has open for writing cannot be run.
pub(crate) fn alone() -> MutexGuard<'static, ()> {
    static ALONE: Mutex<()> = Mutex::new(());
    ALONE.lock().unwrap_or_else(PoisonError::into_inner)
}

/// What stands under a name.
#[derive(Clone, Debug, PartialEq, Eq)]
pub enum Entry {
    /// A file, with its bytes.
    File(Vec<u8>),
    /// A folder.
    Folder,
    /// A symbolic link, with where it points.
    Link(PathBuf),
}

/// A folder under the temporary one, which goes away with this value.
pub struct Folder(PathBuf);

impl Folder {
    /// An empty folder, which anybody may write to.
    #[allow(clippy::new_without_default)]
    pub fn new() -> Self {
        static MADE: AtomicUsize = AtomicUsize::new(0);
        let count = MADE.fetch_add(1, Ordering::Relaxed);
        let name = format!("programs-{}-{count}", process::id());
        let path = std::env::temp_dir().join(name);
        fs::create_dir(&path).unwrap();
        let folder = Self(path.canonicalize().unwrap());
        folder.allow("", 0o777);
        folder
    }

    /// A folder with these files.
    pub fn with(files: &[(&str, &[u8])]) -> Self {
        let folder = Self::new();
        for (name, bytes) in files {
            folder.put(name, bytes);
        }
        folder
    }

    /// A folder with the records of a line: `line.rec` and the circuit file.
    pub fn with_records(line: impl Into<Line>, circuits: &[u8]) -> Self {
        let line = line.into().bytes();
        Self::with(&[("line.rec", &line), ("circuits.rec", circuits)])
    }

    /// Its path.
    pub fn path(&self) -> &Path {
        &self.0
    }

    /// The path of a name in it.
    pub fn at(&self, name: &str) -> PathBuf {
        self.0.join(name)
    }

    /// Writes a file.
    pub fn put(&self, name: &str, bytes: &[u8]) {
        let _alone = alone();
        fs::write(self.at(name), bytes).unwrap();
    }

    /// Copies a file to a name in it.
    pub fn put_copy(&self, name: &str, from: &Path) {
        let _alone = alone();
        fs::copy(from, self.at(name)).unwrap();
    }

    /// Makes a folder in it, and those on the way.
    pub fn put_folder(&self, name: &str) {
        fs::create_dir_all(self.at(name)).unwrap();
    }

    /// Sets what may be done with a name in it.
    pub fn allow(&self, name: &str, mode: u32) {
        fs::set_permissions(self.at(name), fs::Permissions::from_mode(mode)).unwrap();
    }

    /// What stands in it.
    pub fn entries(&self) -> BTreeMap<String, Entry> {
        let entry = |found: fs::DirEntry| {
            let (path, kind) = (found.path(), found.file_type().unwrap());
            let entry = if kind.is_symlink() {
                Entry::Link(fs::read_link(path).unwrap())
            } else if kind.is_dir() {
                Entry::Folder
            } else {
                Entry::File(fs::read(path).unwrap())
            };
            (found.file_name().into_string().unwrap(), entry)
        };
        let found = fs::read_dir(&self.0).unwrap();
        found.map(|found| entry(found.unwrap())).collect()
    }
}

impl Drop for Folder {
    fn drop(&mut self) {
        self.allow("", 0o777);
        let removed = fs::remove_dir_all(&self.0);
        assert!(removed.is_ok() || panicking(), "{removed:?}");
    }
}
