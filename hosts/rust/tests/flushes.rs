//! What a save asks of the system, in its order, and what it makes of failures: the test's own fsync and rename stand before the system's.

mod common;

use common::{folder, memory};
use region_store::Store;
use std::cell::{Cell, RefCell};
use std::ffi::{c_char, c_int, c_long, CStr, OsStr};
use std::fs::{self, File};
use std::mem::ManuallyDrop;
use std::os::fd::FromRawFd;
use std::os::unix::ffi::OsStrExt;
use std::os::unix::fs::MetadataExt;

// The numbers of Linux, on x86-64.
const FSYNC: c_long = 74;
const RENAME: c_long = 82;
const EIO: c_int = 5;
const EINVAL: c_int = 22;

extern "C" {
    fn syscall(number: c_long, ...) -> c_long;
    fn __errno_location() -> *mut c_int;
}

#[derive(Clone, Copy, Debug, PartialEq)]
enum Step {
    File,
    Rename,
    Folder,
}

thread_local! {
    /// The steps made, each with the number of the file that it was made on.
    static STEPS: RefCell<Vec<(Step, u64)>> = const { RefCell::new(Vec::new()) };
    /// The step that fails, and by which number.
    static FAILING: Cell<Option<(Step, c_int)>> = const { Cell::new(None) };
}

/// Notes a step; gives whether it fails, with the system's number set.
fn fails(step: Step, file: u64) -> bool {
    STEPS.with_borrow_mut(|steps| steps.push((step, file)));
    match FAILING.get() {
        Some((failing, number)) if failing == step => {
            unsafe { *__errno_location() = number };
            true
        }
        _ => false,
    }
}

#[no_mangle]
extern "C" fn fsync(file: c_int) -> c_int {
    let about = ManuallyDrop::new(unsafe { File::from_raw_fd(file) });
    let about = about.metadata().unwrap();
    let step = if about.is_dir() {
        Step::Folder
    } else {
        Step::File
    };
    if fails(step, about.ino()) {
        return -1;
    }
    unsafe { syscall(FSYNC, file) as c_int }
}

/// # Safety
///
/// Both are texts of C.
#[no_mangle]
unsafe extern "C" fn rename(from: *const c_char, to: *const c_char) -> c_int {
    let path = OsStr::from_bytes(unsafe { CStr::from_ptr(from) }.to_bytes());
    if fails(Step::Rename, fs::metadata(path).unwrap().ino()) {
        return -1;
    }
    unsafe { syscall(RENAME, from, to) as c_int }
}

#[test]
fn the_file_is_flushed_before_the_rename_and_the_folder_after_it() {
    let folder = folder("order");
    let path = folder.join("store");
    Store::new(1).unwrap().save(&path).unwrap();
    let file = fs::metadata(&path).unwrap().ino();
    let above = fs::metadata(&folder).unwrap().ino();
    let steps = [
        (Step::File, file),
        (Step::Rename, file),
        (Step::Folder, above),
    ];
    assert_eq!(STEPS.take(), steps);
}

#[test]
fn a_step_that_fails() {
    let folder = folder("failing");
    let path = folder.join("store");
    let old = Store::new(1).unwrap();
    old.save(&path).unwrap();
    let new = Store::new(2).unwrap();
    // Only of a folder it is no failure that it cannot be flushed.
    for (step, number, saved, stands) in [
        (Step::File, EIO, false, &old),
        (Step::File, EINVAL, false, &old),
        (Step::Rename, EIO, false, &old),
        (Step::Folder, EIO, false, &new),
        (Step::Folder, EINVAL, true, &new),
    ] {
        old.save(&path).unwrap();
        FAILING.set(Some((step, number)));
        let answer = new.save(&path);
        FAILING.set(None);
        assert_eq!(answer.is_ok(), saved, "{step:?} {number}");
        assert_eq!(memory(&Store::from_file(&path).unwrap()), memory(stands));
        assert_eq!(fs::read_dir(&folder).unwrap().count(), 1);
    }
}
