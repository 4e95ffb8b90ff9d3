//! What a file that takes another's place keeps of it: owner, group, mode,
//! access control list and extended attributes.

use crate::system;
use std::ffi::CStr;
use std::fs::{File, Metadata, Permissions};
use std::io;
use std::os::unix::fs::{fchown, MetadataExt, PermissionsExt};

/// The access control list of POSIX, an attribute to the system.
const ACCESS_LIST: &CStr = c"system.posix_acl_access";

/// What the kernel itself says about a file's bytes, which are others now.
const OF_THE_BYTES: [&CStr; 2] = [c"security.ima", c"security.evm"];

/// Gives a new file, so far closed to others, what the old one has.
///
/// The list comes before the mode: with a list, the mode's group bits are the
/// most that the list may give, and without it they are the group's own.
pub fn keep(new: &File, old: &File, old_metadata: &Metadata) -> io::Result<()> {
    let has_group = keep_owner(new, old_metadata)?;
    keep_attributes(new, old, has_group)?;
    let bits = old_metadata.mode() & 0o7777;
    let bits = match has_group {
        true => bits,
        false => bits_for_another_group(bits),
    };
    new.set_permissions(Permissions::from_mode(bits))
}

/// The bits by which another group may do no more than all others could.
fn bits_for_another_group(bits: u32) -> u32 {
    const GROUP: u32 = 0o070;
    const SET_GROUP: u32 = 0o2000;
    (bits & !GROUP & !SET_GROUP) | (bits & GROUP & (bits << 3))
}

/// Gives a file the old one's owner and group, as far as this user may: two
/// curators who share a folder can each change the other's sheet. Tells whether
/// the group is the old one's.
fn keep_owner(file: &File, old: &Metadata) -> io::Result<bool> {
    let new = file.metadata()?;
    if (new.uid(), new.gid()) == (old.uid(), old.gid()) {
        return Ok(true);
    }
    if fchown(file, Some(old.uid()), Some(old.gid())).is_err() {
        let _ = fchown(file, None, Some(old.gid()));
    }
    Ok(file.metadata()?.gid() == old.gid())
}

/// Makes the new file's attributes the old one's. One that can't be kept is an
/// error: without it the file could be open to more people, or lack what its
/// owner put there.
fn keep_attributes(new: &File, old: &File, has_group: bool) -> io::Result<()> {
    let names = system::attributes(old)?;
    let has_list = names.iter().any(|name| name.as_c_str() == ACCESS_LIST);
    if has_list && !has_group {
        let error = io::Error::other("it is about a group that can't be kept");
        return Err(not_kept(ACCESS_LIST, error));
    }
    for name in &names {
        if !OF_THE_BYTES.contains(&name.as_c_str()) {
            keep_attribute(new, old, name).map_err(|error| not_kept(name, error))?;
        }
    }
    // The folder may have given the new file a list that the old one hasn't.
    let mut inherited = system::attributes(new)?.into_iter();
    if !has_list && inherited.any(|name| name.as_c_str() == ACCESS_LIST) {
        system::remove_attribute(new, ACCESS_LIST).map_err(|error| not_kept(ACCESS_LIST, error))?;
    }
    Ok(())
}

fn keep_attribute(new: &File, old: &File, name: &CStr) -> io::Result<()> {
    let value = match system::attribute(old, name) {
        // It went away since the names were asked for.
        Err(error) if error.raw_os_error() == Some(system::ENODATA) => return Ok(()),
        value => value?,
    };
    // Some may not be set by everybody but are the same from the start.
    if system::attribute(new, name).is_ok_and(|same| same == value) {
        return Ok(());
    }
    system::set_attribute(new, name, &value)
}

fn not_kept(name: &CStr, error: io::Error) -> io::Error {
    let name = name.to_string_lossy().escape_debug().to_string();
    let message = format!("the old file's attribute {name} can't be kept: {error}");
    io::Error::new(error.kind(), message)
}
