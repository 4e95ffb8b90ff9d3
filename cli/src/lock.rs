//! A folder's lock, and the wait for it.

use crate::failure::Failure;
use crate::shown::shown;
use crate::system::{self, Lock};
use crate::terminal::warn;
use std::fs::File;
use std::io;
use std::path::Path;
use std::sync::mpsc::{self, RecvTimeoutError};
use std::time::{Duration, Instant};

/// How long a command waits before it says that it does.
const IN_SILENCE: Duration = Duration::from_secs(1);

/// Locks an open folder, if it can be had in time.
pub fn lock(handle: File, folder: &Path, until: Option<Instant>) -> Result<File, Failure> {
    let of_folder = |error| {
        let message = format!("the folder can't be locked: {error}");
        Failure::of_file(folder, message)
    };
    let lock = system::try_lock(&handle).map_err(of_folder)?;
    let (handle, lock) = match lock {
        Lock::Held => waited(handle, folder, until)?,
        other => (handle, Ok(other)),
    };
    if let Lock::Unknown(error) = lock.map_err(of_folder)? {
        let folder = shown(folder);
        warn(&format!(
            "{folder}: the folder has no lock ({error}): of two changes at once one can be lost"
        ));
    }
    Ok(handle)
}

type Waited = (File, io::Result<Lock>);

/// Waits for a folder's lock in a thread of its own, so that there is an end to
/// it. A thread that still waits at the end of the command ends with it.
fn waited(handle: File, folder: &Path, until: Option<Instant>) -> Result<Waited, Failure> {
    let still_locked = || {
        let folder = shown(folder);
        Failure::Locked(format!(
            "{folder}: the folder is locked by another, and nothing was changed; \
             --wait SECONDS waits longer"
        ))
    };
    let left = || match until {
        Some(until) => until.saturating_duration_since(Instant::now()),
        None => Duration::MAX,
    };
    let (sender, receiver) = mpsc::channel();
    std::thread::Builder::new()
        .spawn(move || {
            let lock = system::wait_for_lock(&handle);
            // Nobody hears it when the time is over.
            let _ = sender.send((handle, lock));
        })
        .map_err(|error| Failure::of_file(folder, error))?;
    let mut answer = receiver.recv_timeout(left().min(IN_SILENCE));
    if answer.is_err() && !left().is_zero() {
        let folder = shown(folder);
        warn(&format!(
            "{folder}: waiting for another to unlock the folder"
        ));
        answer = receiver.recv_timeout(left());
    }
    answer.map_err(|error| match error {
        RecvTimeoutError::Timeout => still_locked(),
        RecvTimeoutError::Disconnected => Failure::of_file(folder, "the wait for its lock ended"),
    })
}
