//! The place of a file: its folder, locked, and the one step by which a new file
//! comes to stand there.

use crate::attributes;
use crate::failure::Failure;
use crate::input::missing;
use crate::lock::lock;
use crate::shown::shown;
use crate::temporary::{self, Temporary};
use std::fs::{self, File, Metadata, OpenOptions, Permissions};
use std::io::{self, ErrorKind, Write};
use std::os::unix::ffi::OsStrExt;
use std::os::unix::fs::{MetadataExt, PermissionsExt};
use std::path::{Path, PathBuf};
use std::time::{Duration, Instant};

/// A file's place, its folder locked until this is dropped.
pub struct Place {
    file: PathBuf,
    folder: PathBuf,
    handle: File,
}

/// A file that is there already.
pub struct Existing {
    pub file: File,
    metadata: Metadata,
}

/// Where a path leads, with every symbolic link followed, or why it doesn't.
type Resolve = fn(&Path) -> Result<PathBuf, Failure>;

impl Place {
    /// Waits for the lock of the folder that a path leads to. A link that is
    /// turned elsewhere meanwhile, or a folder that is moved, is followed again:
    /// the lock is to be that of the folder where the change happens.
    pub fn locked(path: &Path, resolve: Resolve, wait: Duration) -> Result<Place, Failure> {
        let until = Instant::now().checked_add(wait);
        loop {
            let place = Place::locked_at(resolve(path)?, until)?;
            if place.is_where(&resolve(path)?) {
                temporary::remove_leftovers(&place.folder);
                return Ok(place);
            }
            if until.is_some_and(|until| Instant::now() >= until) {
                let name = shown(path);
                let message = format!("{name}: it is turned elsewhere again and again");
                return Err(Failure::Locked(message));
            }
        }
    }

    /// The place of a file that has no symbolic link in its path.
    fn locked_at(file: PathBuf, until: Option<Instant>) -> Result<Place, Failure> {
        if file.file_name().is_some_and(temporary::is_temporary) {
            return Err(Failure::no_output(&file, "a temporary file's name"));
        }
        let folder = file.parent().unwrap_or(&file).to_path_buf();
        let handle = File::open(&folder).map_err(|error| {
            let message = format!("the folder can't be opened: {error}");
            Failure::no_output(&folder, message)
        })?;
        let handle = lock(handle, &folder, until)?;
        Ok(Place {
            file,
            folder,
            handle,
        })
    }

    /// Whether a path is this place's still, and its folder the one locked.
    fn is_where(&self, file: &Path) -> bool {
        let identity = |metadata: Metadata| (metadata.dev(), metadata.ino());
        let there = fs::metadata(&self.folder).map(identity);
        let locked = self.handle.metadata().map(identity);
        file == self.file && matches!((there, locked), (Ok(there), Ok(locked)) if there == locked)
    }

    /// Whether nothing is there, not even a link to nothing.
    pub fn is_vacant(&self) -> io::Result<bool> {
        match fs::symlink_metadata(&self.file) {
            Err(error) if error.kind() == ErrorKind::NotFound => Ok(true),
            there => there.map(|_| false),
        }
    }

    /// The file that is there, if it is one that may be changed: a regular one,
    /// which a rename can stand in for, and not write-protected, which a rename
    /// would pass over.
    pub fn existing(&self) -> io::Result<Existing> {
        // Before it is opened, by which a device may do something, and after,
        // since another may have its name by then.
        regular(fs::metadata(&self.file)?)?;
        let file = OpenOptions::new().read(true).write(true).open(&self.file)?;
        let metadata = regular(file.metadata()?)?;
        Ok(Existing { file, metadata })
    }

    /// Puts the bytes in the place of a file, all of them or none.
    pub fn replace(&self, bytes: &[u8], old: &Existing) -> Result<(), Failure> {
        // Closed to others until it has what the old file has.
        let temporary = self.filled(bytes, 0o600, |new| {
            attributes::keep(new, &old.file, &old.metadata)
        })?;
        let renamed = temporary.rename(&self.file);
        renamed.map_err(|error| self.not_named(error))?;
        self.flush()
    }

    /// Puts the bytes into a new file, all of them or none. What is there by
    /// now, put by a command that this one's lock doesn't reach, stays.
    pub fn make(&self, bytes: &[u8], private: bool) -> Result<(), Failure> {
        let mode = if private { 0o600 } else { 0o666 };
        let temporary = self.filled(bytes, mode, |new| match private {
            true => new.set_permissions(Permissions::from_mode(mode)),
            false => Ok(()),
        })?;
        let linked = match fs::hard_link(&temporary.path, &self.file) {
            Err(error) if has_no_links(&error) => temporary.rename(&self.file),
            linked => {
                drop(temporary);
                linked
            }
        };
        linked.map_err(|error| self.not_named(error))?;
        self.flush()
    }

    /// A flushed temporary file with these bytes.
    fn filled(
        &self,
        bytes: &[u8],
        mode: u32,
        keep: impl FnOnce(&File) -> io::Result<()>,
    ) -> Result<Temporary, Failure> {
        let mut temporary = Temporary::new(&self.folder, mode).map_err(|error| {
            let message = format!("no file can be made in this folder: {error}");
            Failure::no_output(&self.folder, message)
        })?;
        let message = |error: io::Error| format!("the new file can't be made: {error}");
        let failed = |error| Failure::of_file(&self.file, message(error));
        let file = &mut temporary.file;
        file.write_all(bytes).map_err(failed)?;
        keep(file).map_err(|error| Failure::no_output(&self.file, message(error)))?;
        file.sync_all().map_err(failed)?;
        Ok(temporary)
    }

    fn not_named(&self, error: io::Error) -> Failure {
        let message = format!("the new file can't be put there: {error}");
        Failure::no_output(&self.file, message)
    }

    /// Flushes the folder, by which the new name outlasts a power cut.
    fn flush(&self) -> Result<(), Failure> {
        self.handle.sync_all().map_err(|error| {
            let (file, folder) = (shown(&self.file), shown(&self.folder));
            Failure::NotFlushed(format!(
                "{file}: done, the new file is in place; but its folder {folder} can't be \
                 flushed, so it may not outlast a power cut: {error}"
            ))
        })
    }
}

fn regular(metadata: Metadata) -> io::Result<Metadata> {
    match metadata.is_file() {
        true => Ok(metadata),
        false => Err(io::Error::new(
            ErrorKind::InvalidInput,
            "not a regular file",
        )),
    }
}

/// Whether a system of files has no hard links, as its error tells; all have a
/// rename.
fn has_no_links(error: &io::Error) -> bool {
    use ErrorKind::{PermissionDenied, TooManyLinks, Unsupported};
    matches!(error.kind(), PermissionDenied | TooManyLinks | Unsupported)
}

/// Where a file that is there is.
pub fn of_existing(path: &Path) -> Result<PathBuf, Failure> {
    fs::canonicalize(path).map_err(|error| Failure::no_input(path, missing(path, error)))
}

/// Where a file is or would be.
pub fn of_new(path: &Path) -> Result<PathBuf, Failure> {
    new_path(path).map_err(|error| Failure::no_output(path, missing(path, error)))
}

/// A link to nothing is an error: it may not be the place that its maker meant.
fn new_path(path: &Path) -> io::Result<PathBuf> {
    match (fs::canonicalize(path), path.file_name()) {
        (Err(error), Some(name))
            if error.kind() == ErrorKind::NotFound && fs::symlink_metadata(path).is_err() =>
        {
            // A path's parts don't show it, but such a name is a folder's.
            let bytes = path.as_os_str().as_bytes();
            if bytes.ends_with(b"/") || bytes.ends_with(b"/.") {
                let message = "a folder's name, not a file's";
                return Err(io::Error::new(ErrorKind::InvalidInput, message));
            }
            // `join` gives a bare name the folder ".".
            let folder = path.parent().unwrap_or(Path::new(""));
            let folder = fs::canonicalize(Path::new(".").join(folder))
                .map_err(|error| io::Error::new(error.kind(), format!("its folder: {error}")))?;
            Ok(folder.join(name))
        }
        (place, _) => place,
    }
}
