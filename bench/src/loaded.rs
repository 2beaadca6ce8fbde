//! The check of a static library that is loaded, so that those of two commits can be timed in one process: both in the
//! same way, as the time of some loops depends on where they lie.

use std::ffi::{c_char, c_int, c_void, CString};
use std::path::{Path, PathBuf};
use std::process::Command;
use std::sync::atomic::{AtomicUsize, Ordering};

extern "C" {
    fn dlopen(file: *const c_char, flags: c_int) -> *mut c_void;
    fn dlsym(library: *mut c_void, name: *const c_char) -> *mut c_void;
}

/// All symbols are bound when the library is loaded.
const RTLD_NOW: c_int = 2;

type Check = unsafe extern "C" fn(*const u8, usize) -> u64;

/// The library of this commit.
pub fn current() -> PathBuf {
    Path::new(env!("CARGO_MANIFEST_DIR")).join("../target/staticlib/libdocket.a")
}

/// Makes a shared object of the archive, which it needs only until it is loaded, and hands back its `docket_check`.
pub fn check_of(archive: &Path) -> impl Fn(&[u8]) -> u64 {
    let object = shared_object(archive);
    let file = CString::new(object.as_os_str().as_encoded_bytes()).expect("a path without zero bytes");
    // The file is a library of the functions of docket.h, and it is never unloaded.
    let library = unsafe { dlopen(file.as_ptr(), RTLD_NOW) };
    std::fs::remove_file(&object).expect("the shared object can be removed");
    assert!(!library.is_null(), "{} cannot be loaded", archive.display());
    let check = unsafe { dlsym(library, c"docket_check".as_ptr()) };
    assert!(!check.is_null(), "{} has no docket_check", archive.display());
    // The prototype is that of docket.h, in every version of it.
    let check: Check = unsafe { std::mem::transmute(check) };
    move |docket| unsafe { check(docket.as_ptr(), docket.len()) }
}

fn shared_object(archive: &Path) -> PathBuf {
    static MADE: AtomicUsize = AtomicUsize::new(0);
    let name = format!(
        "docket-{}-{}.so",
        std::process::id(),
        MADE.fetch_add(1, Ordering::Relaxed)
    );
    let object = std::env::temp_dir().join(name);
    let done = Command::new("cc")
        .args(["-shared", "-Wl,-Bsymbolic", "-Wl,--whole-archive"])
        .arg(archive)
        .args(["-Wl,--no-whole-archive", "-o"])
        .arg(&object)
        .status();
    assert!(
        done.is_ok_and(|status| status.success()),
        "cc makes no shared object of {}",
        archive.display()
    );
    object
}

#[cfg(test)]
mod test {
    use super::*;
    use tests::{calls, make};

    #[test]
    fn a_library_that_is_loaded_answers() {
        let check = check_of(&current());
        let whole = make::broadcast().bytes();
        for docket in [&whole[..], &whole[..98], &[]] {
            assert_eq!(check(docket), calls::check_code(docket));
        }
    }
}
