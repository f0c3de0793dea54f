//! The planner of another archive, to be measured beside the one that is linked.
use crate::baseline::Answer;
use std::ffi::{c_char, c_int, c_void, CString, OsStr};
use std::os::unix::ffi::OsStrExt;
use std::path::{Path, PathBuf};
use std::process::Command;
use std::{env, fs, mem, process};

/// What the function of an archive answers.
#[repr(C)]
struct PlanAnswer {
    refusal: u32,
    place: u32,
    end: u32,
    fibres: usize,
    total: usize,
    floor: usize,
}

/// The function of an archive.
type Planner = unsafe extern "C" fn(
    links: usize,
    wavelengths: usize,
    grid: usize,
    circuits: *const u8,
    circuits_len: usize,
    fibres: *mut u8,
    fibres_len: usize,
    assignments: *mut u8,
    assignments_len: usize,
    work: *mut u8,
    work_len: usize,
) -> PlanAnswer;

/// To bind all of a library's symbols as it is loaded, and to let nobody else have them.
const NOW_AND_LOCAL: c_int = 2;

extern "C" {
    fn dlopen(path: *const c_char, flags: c_int) -> *mut c_void;
    fn dlsym(library: *mut c_void, name: *const c_char) -> *mut c_void;
}

/// Makes a shared library of an archive, since two archives with the same names cannot both be linked.
fn shared(archive: &OsStr) -> PathBuf {
    let library = env::temp_dir().join(format!("fibre-plan-before-{}.so", process::id()));
    let mut cc = Command::new("cc");
    cc.args(["-shared", "-Wl,--whole-archive"]).arg(archive);
    cc.args(["-Wl,--no-whole-archive", "-o"]).arg(&library);
    let made = cc.status().is_ok_and(|status| status.success());
    assert!(made, "cc makes no shared library of {}", archive.display());
    library
}

/// The function of a shared library, which stays loaded.
fn load(library: &Path) -> Planner {
    let path = CString::new(library.as_os_str().as_bytes()).expect("a path has no zero byte");
    // SAFETY: both strings end with a zero byte, and an archive's library has no code that runs as it is loaded.
    let found = unsafe {
        let library = dlopen(path.as_ptr(), NOW_AND_LOCAL);
        assert!(!library.is_null(), "no library was loaded");
        dlsym(library, c"fibre_plan".as_ptr())
    };
    assert!(!found.is_null(), "the library has no fibre_plan");
    // SAFETY: a function of this name has this type.
    unsafe { mem::transmute::<*mut c_void, Planner>(found) }
}

/// The planner of another archive.
pub struct Before(Planner);

impl Before {
    /// That of the archive that `FIBRE_PLAN_BEFORE` names, if it is set.
    pub fn named() -> Option<Self> {
        let library = shared(&env::var_os("FIBRE_PLAN_BEFORE")?);
        let planner = load(&library);
        fs::remove_file(library).expect("the library can be removed");
        Some(Self(planner))
    }

    /// Plans the circuit records on lent areas.
    pub fn plan(
        &self,
        [links, wavelengths, grid]: [usize; 3],
        circuits: &[u8],
        [fibres, assignments, work]: [&mut [u8]; 3],
    ) -> Answer {
        // SAFETY: as in the crate `fibre-plan`: the function takes every input; each pointer and length are those of
        // a slice that is borrowed for the call, and the three that are written overlap nothing.
        let answer = unsafe {
            (self.0)(
                links,
                wavelengths,
                grid,
                circuits.as_ptr(),
                circuits.len(),
                fibres.as_mut_ptr(),
                fibres.len(),
                assignments.as_mut_ptr(),
                assignments.len(),
                work.as_mut_ptr(),
                work.len(),
            )
        };
        match answer.refusal {
            0 => Ok([answer.fibres, answer.total, answer.floor]),
            number => Err((number, answer.place as usize, answer.end)),
        }
    }
}
