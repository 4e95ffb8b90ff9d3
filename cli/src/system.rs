//! The few functions of the system's C library that std has none for (or has
//! only in a newer Rust), each behind a safe one. All unsafe code is here.
#![allow(unsafe_code)]

use std::ffi::{c_char, c_int, c_uint, c_void, CStr, CString};
use std::fs::File;
use std::io;
use std::os::fd::AsRawFd;
use std::sync::atomic::{AtomicBool, Ordering};

// The constants are Linux's for x86-64, the one machine that the library is for.
pub const O_NONBLOCK: i32 = 0o4000;
pub const O_NOFOLLOW: i32 = 0o400000;
pub const ENODATA: i32 = 61;
const F_GETFD: c_int = 1;
const LOCK_EX: c_int = 2;
const LOCK_NB: c_int = 4;
const ERANGE: i32 = 34;
const ENOLCK: i32 = 37;
const ENOSYS: i32 = 38;
const EOPNOTSUPP: i32 = 95;

extern "C" {
    fn fcntl(file: c_int, command: c_int, ...) -> c_int;
    fn flock(file: c_int, operation: c_int) -> c_int;
    fn getrandom(bytes: *mut c_void, count: usize, flags: c_uint) -> isize;
    fn flistxattr(file: c_int, names: *mut c_char, size: usize) -> isize;
    fn fgetxattr(file: c_int, name: *const c_char, value: *mut c_void, size: usize) -> isize;
    fn fsetxattr(
        file: c_int,
        name: *const c_char,
        value: *const c_void,
        size: usize,
        flags: c_int,
    ) -> c_int;
    fn fremovexattr(file: c_int, name: *const c_char) -> c_int;
}

// ---- Standard input and output that were closed ----

/// Whether file descriptors 0 and 1 were closed when the program began.
static CLOSED: [AtomicBool; 2] = [AtomicBool::new(false), AtomicBool::new(false)];

/// Run before `main`: std's start puts /dev/null in the place of a descriptor
/// that is closed, and from then on lost output looks like written output.
#[used]
#[link_section = ".init_array"]
static NOTE_CLOSED: extern "C" fn() = note_closed;

extern "C" fn note_closed() {
    for (file, closed) in (0..).zip(&CLOSED) {
        // SAFETY: F_GETFD takes no third argument and touches no memory.
        let answer = unsafe { fcntl(file, F_GETFD) };
        closed.store(answer == -1, Ordering::Relaxed);
    }
}

pub fn standard_input_was_closed() -> bool {
    CLOSED[0].load(Ordering::Relaxed)
}

pub fn standard_output_was_closed() -> bool {
    CLOSED[1].load(Ordering::Relaxed)
}

// ---- Locks ----

/// What came of trying to lock a file.
pub enum Lock {
    Taken,
    /// Another holds it.
    Held,
    /// The file's system has no locks.
    Unknown(io::Error),
}

/// Locks a file if nobody holds its lock. (`File::try_lock` is of Rust 1.89.)
pub fn try_lock(file: &File) -> io::Result<Lock> {
    lock_by(file, LOCK_EX | LOCK_NB)
}

/// Waits for a file's lock.
pub fn wait_for_lock(file: &File) -> io::Result<Lock> {
    lock_by(file, LOCK_EX)
}

fn lock_by(file: &File, operation: c_int) -> io::Result<Lock> {
    loop {
        // SAFETY: the descriptor is open, and no memory is touched.
        if unsafe { flock(file.as_raw_fd(), operation) } == 0 {
            return Ok(Lock::Taken);
        }
        let error = io::Error::last_os_error();
        match (error.kind(), error.raw_os_error()) {
            (io::ErrorKind::Interrupted, _) => continue,
            (io::ErrorKind::WouldBlock, _) => return Ok(Lock::Held),
            (_, Some(ENOLCK | ENOSYS | EOPNOTSUPP)) => return Ok(Lock::Unknown(error)),
            _ => return Err(error),
        }
    }
}

// ---- Random bytes ----

/// Fills the bytes from the system's random source, once that has its seed.
pub fn fill_random(bytes: &mut [u8]) -> io::Result<()> {
    let mut filled = 0;
    while let Some(rest) = bytes.get_mut(filled..).filter(|rest| !rest.is_empty()) {
        // SAFETY: `rest` is valid for writes of its length.
        let answer = unsafe { getrandom(rest.as_mut_ptr().cast(), rest.len(), 0) };
        match usize::try_from(answer) {
            Ok(count) => filled += count,
            Err(_) => {
                let error = io::Error::last_os_error();
                if error.kind() != io::ErrorKind::Interrupted {
                    return Err(error);
                }
            }
        }
    }
    Ok(())
}

// ---- Extended attributes, access control lists among them ----

/// The names of a file's attributes; none where its system has no attributes.
pub fn attributes(file: &File) -> io::Result<Vec<CString>> {
    // SAFETY: `buffer` is valid for writes of its length.
    let list = sized(|buffer| unsafe {
        flistxattr(file.as_raw_fd(), buffer.as_mut_ptr().cast(), buffer.len())
    });
    match list {
        Err(error) if error.raw_os_error() == Some(EOPNOTSUPP) => Ok(Vec::new()),
        Err(error) => Err(error),
        // Each name ends with a zero byte, the last one too.
        Ok(list) => list
            .split_inclusive(|byte| *byte == 0)
            .map(|name| CStr::from_bytes_with_nul(name).map(CStr::to_owned))
            .collect::<Result<_, _>>()
            .map_err(io::Error::other),
    }
}

/// The value of an attribute.
pub fn attribute(file: &File, name: &CStr) -> io::Result<Vec<u8>> {
    // SAFETY: `name` ends with a zero byte; `buffer` is valid for writes of its
    // length.
    sized(|buffer| unsafe {
        let value = buffer.as_mut_ptr().cast();
        fgetxattr(file.as_raw_fd(), name.as_ptr(), value, buffer.len())
    })
}

/// Gives a file an attribute, in place of one that it has.
pub fn set_attribute(file: &File, name: &CStr, value: &[u8]) -> io::Result<()> {
    // SAFETY: `name` ends with a zero byte; `value` is valid for reads of its
    // length.
    done(unsafe {
        let (start, size) = (value.as_ptr().cast(), value.len());
        fsetxattr(file.as_raw_fd(), name.as_ptr(), start, size, 0)
    })
}

pub fn remove_attribute(file: &File, name: &CStr) -> io::Result<()> {
    // SAFETY: `name` ends with a zero byte.
    done(unsafe { fremovexattr(file.as_raw_fd(), name.as_ptr()) })
}

fn done(answer: c_int) -> io::Result<()> {
    match answer {
        0 => Ok(()),
        _ => Err(io::Error::last_os_error()),
    }
}

/// What a function puts into a buffer that is made as large as it asks. What
/// grows between the question and the answer is asked for again.
fn sized(put: impl Fn(&mut [u8]) -> isize) -> io::Result<Vec<u8>> {
    loop {
        let Ok(size) = usize::try_from(put(&mut [])) else {
            return Err(io::Error::last_os_error());
        };
        let mut buffer = vec![0; size];
        if size == 0 {
            return Ok(buffer);
        }
        match usize::try_from(put(&mut buffer)) {
            Ok(size) => {
                buffer.truncate(size);
                return Ok(buffer);
            }
            Err(_) => {
                let error = io::Error::last_os_error();
                if error.raw_os_error() != Some(ERANGE) {
                    return Err(error);
                }
            }
        }
    }
}
