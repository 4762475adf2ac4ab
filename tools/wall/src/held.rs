//! Two calls of the C library that the standard library has no names for: signals are held back while a file takes its
//! place, and a file without a name is given one. As x86-64 Linux has them, which the proved library is built for.
#![allow(unsafe_code)]
use std::ffi::{c_char, c_int, CString};
use std::fs::File;
use std::io::{Error, Result};
use std::os::fd::AsRawFd;
use std::os::unix::ffi::OsStrExt;
use std::path::Path;

/// A set of signals: 1,024 bits.
#[repr(C)]
#[derive(Clone, Copy)]
struct Signals([u64; 16]);

extern "C" {
    fn sigfillset(set: *mut Signals) -> c_int;
    fn pthread_sigmask(how: c_int, set: *const Signals, old: *mut Signals) -> c_int;
    fn linkat(from: c_int, name: *const c_char, to: c_int, new: *const c_char, flags: c_int) -> c_int;
}

const SIG_SETMASK: c_int = 2;
const AT_FDCWD: c_int = -100;
const AT_SYMLINK_FOLLOW: c_int = 0x400;

/// The flags of `open` for a file without a name in a folder (O_TMPFILE, which holds O_DIRECTORY).
pub const NAMELESS: c_int = 0o20200000;

/// As long as this lives, no signal that can be held back ends the process.
pub struct Held(Signals);

impl Held {
    pub fn new() -> Self {
        let (mut all, mut before) = (Signals([0; 16]), Signals([0; 16]));
        // SAFETY: both sets are as long as sigset_t, and live through the calls, which only write to the two.
        unsafe {
            sigfillset(&mut all);
            pthread_sigmask(SIG_SETMASK, &all, &mut before);
        }
        Held(before)
    }
}

impl Drop for Held {
    fn drop(&mut self) {
        // SAFETY: the set was filled by the call that holds signals back; a null pointer asks for no old set.
        unsafe {
            pthread_sigmask(SIG_SETMASK, &self.0, std::ptr::null_mut());
        }
    }
}

/// Gives a file that was opened without a name this one, which no file has.
pub fn named(file: &File, path: &Path) -> Result<()> {
    let open = CString::new(format!("/proc/self/fd/{}", file.as_raw_fd()))?;
    let name = CString::new(path.as_os_str().as_bytes())?;
    // SAFETY: both names end in a zero byte and live through the call, which only reads them.
    let answer = unsafe { linkat(AT_FDCWD, open.as_ptr(), AT_FDCWD, name.as_ptr(), AT_SYMLINK_FOLLOW) };
    if answer == 0 {
        Ok(())
    } else {
        Err(Error::last_os_error())
    }
}
