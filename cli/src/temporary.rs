//! The temporary files in which new sheets are made, and what killed commands
//! left of them.
//!
//! Every temporary file has a name of its own, so that no command ever writes
//! to or renames another's, with the folder's lock or without it. The name also
//! tells which running system made it, and its maker holds a lock on it. So a
//! file that this system made and nobody holds was left behind, and is removed
//! at once. Of another machine's, whose locks may not be seen from here, one is
//! removed when it is a day old; a command that took so long finds its file gone
//! and fails, and the sheet stays as it was.

use crate::system::{self, Lock};
use std::ffi::OsStr;
use std::fs::{self, File, OpenOptions};
use std::io::{self, ErrorKind};
use std::os::unix::ffi::OsStrExt;
use std::os::unix::fs::{MetadataExt, OpenOptionsExt};
use std::path::{Path, PathBuf};
use std::time::{Duration, SystemTime};

const PREFIX: &str = ".captions-new-";
/// The name of every temporary file in an earlier version.
const EARLIER: &str = ".captions-new";
/// Hex digits for the running system, and as many that are random.
const DIGITS: usize = 16;
const A_DAY: Duration = Duration::from_secs(24 * 60 * 60);
/// More names than ever are taken by chance, or lost to a removal.
const MOST_TRIES: usize = 16;

/// A new file, which is removed when this is dropped unless it was renamed.
pub struct Temporary {
    pub file: File,
    pub path: PathBuf,
    is_there: bool,
}

impl Temporary {
    /// A file that only its owner can use, locked.
    pub fn new(folder: &Path, mode: u32) -> io::Result<Temporary> {
        let system = running_system().unwrap_or_default();
        for _ in 0..MOST_TRIES {
            let path = folder.join(format!("{PREFIX}{system:016x}{:016x}", random()?));
            let mut options = OpenOptions::new();
            match options.write(true).create_new(true).mode(mode).open(&path) {
                Err(error) if error.kind() == ErrorKind::AlreadyExists => continue,
                file => {
                    let (file, is_there) = (file?, true);
                    let temporary = Temporary {
                        file,
                        path,
                        is_there,
                    };
                    if temporary.is_held()? {
                        return Ok(temporary);
                    }
                }
            }
        }
        Err(io::Error::other("no temporary name is to be had"))
    }

    /// Puts the file in the place of another.
    pub fn rename(mut self, to: &Path) -> io::Result<()> {
        let renamed = fs::rename(&self.path, to);
        self.is_there = renamed.is_err();
        renamed
    }

    /// Locks the file. Without the folder's lock another command may have taken
    /// it for a leftover before that.
    fn is_held(&self) -> io::Result<bool> {
        match system::try_lock(&self.file) {
            Ok(Lock::Held) => Ok(false),
            // Where there are no locks, nobody removes it for want of one.
            Ok(Lock::Unknown(_)) | Err(_) => Ok(true),
            Ok(Lock::Taken) => Ok(self.file.metadata()?.nlink() > 0),
        }
    }
}

impl Drop for Temporary {
    fn drop(&mut self) {
        // Where it can't be removed, it is what a killed command would leave.
        if self.is_there {
            let _ = fs::remove_file(&self.path);
        }
    }
}

/// Whether a name is a temporary file's.
pub fn is_temporary(name: &OsStr) -> bool {
    name == EARLIER || system_in(name).is_some()
}

/// The running system that a temporary file's name tells.
fn system_in(name: &OsStr) -> Option<u64> {
    let digits = name.to_str()?.strip_prefix(PREFIX)?;
    let is_hex = |byte: u8| byte.is_ascii_digit() || (b'a'..=b'f').contains(&byte);
    if digits.len() != 2 * DIGITS || !digits.bytes().all(is_hex) {
        return None;
    }
    u64::from_str_radix(&digits[..DIGITS], 16).ok()
}

/// Removes what killed commands left in a folder. What can't be removed, such
/// as another user's in a sticky folder, is in nobody's way.
pub fn remove_leftovers(folder: &Path) {
    let Ok(entries) = fs::read_dir(folder) else {
        return;
    };
    let system = running_system();
    for entry in entries.flatten() {
        let (name, path) = (entry.file_name(), entry.path());
        if is_temporary(&name) && entry.file_type().is_ok_and(|kind| kind.is_file()) {
            let ours = system.is_some() && system_in(&name) == system;
            remove_leftover(&path, ours);
        }
    }
}

fn remove_leftover(path: &Path, ours: bool) {
    // For writing too, without which some network folders give no lock. If
    // something else stands there by now, it is neither followed nor waited for.
    let flags = system::O_NOFOLLOW | system::O_NONBLOCK;
    let mut options = OpenOptions::new();
    options.read(true).write(true).custom_flags(flags);
    let Ok(file) = options.open(path) else {
        return;
    };
    let unused = ours && matches!(system::try_lock(&file), Ok(Lock::Taken));
    if unused || is_a_day_old(&file) {
        // The file is open and so locked until after this.
        let _ = fs::remove_file(path);
    }
}

fn is_a_day_old(file: &File) -> bool {
    let modified = file.metadata().and_then(|metadata| metadata.modified());
    let age = modified.map(|then| SystemTime::now().duration_since(then));
    matches!(age, Ok(Ok(age)) if age > A_DAY)
}

/// A number for this run of this machine's system, by whose locks all commands
/// under it see each other; none where the system gives none.
fn running_system() -> Option<u64> {
    let text = fs::read("/proc/sys/kernel/random/boot_id").ok()?;
    let digits: Vec<u8> = text.into_iter().filter(u8::is_ascii_hexdigit).collect();
    let digits = OsStr::from_bytes(digits.get(..DIGITS)?).to_str()?;
    u64::from_str_radix(digits, 16).ok()
}

fn random() -> io::Result<u64> {
    let mut bytes = [0; 8];
    system::fill_random(&mut bytes)?;
    Ok(u64::from_be_bytes(bytes))
}
