//! The copying program: a file of tickets goes to a second file, with zeros in
//! the fields that the tickets' kinds do not use. Unknown kinds and a short end
//! are copied as they are.

use crate::paper::*;
use std::fs::{self, File};
use std::io::{self, Read, Write};
use std::os::unix::fs::MetadataExt;
use std::path::{Path, PathBuf};

#[derive(Clone, Debug, PartialEq, Eq)]
pub struct Copied {
    pub bytes: Vec<u8>,
    /// How many tickets have another byte than before.
    pub changed: u64,
}

/// What becomes of a file's bytes.
pub fn copied(old: &[u8]) -> Copied {
    let (mut bytes, mut changed) = (old.to_vec(), 0);
    for (new, old) in bytes
        .chunks_exact_mut(TICKET_BYTES)
        .zip(old.chunks(TICKET_BYTES))
    {
        clean(new);
        changed += u64::from(new != old);
    }
    Copied { bytes, changed }
}

fn clean(ticket: &mut [u8]) {
    let Some(uses) = uses(ticket[0]) else {
        return;
    };
    let (key, value) = ticket[1..].split_at_mut(4);
    if !uses.key {
        key.fill(0);
    }
    if !uses.value {
        value.fill(0);
    }
}

/// The program: how many tickets of OLD were changed in NEW, or why there is
/// no copy. NEW is as it was then.
pub fn copy_file(old: &Path, new: &Path) -> Result<u64, String> {
    let bytes = read(old, new).map_err(|error| format!("{}: {error}", old.display()))?;
    let Copied { bytes, changed } = copied(&bytes);
    let result = replace(new, &bytes);
    result.map_err(|error| format!("{}: {error}", new.display()))?;
    Ok(changed)
}

/// The bytes of OLD, if NEW is not the same file.
fn read(old: &Path, new: &Path) -> io::Result<Vec<u8>> {
    let mut file = File::open(old)?;
    let identity = |data: fs::Metadata| (data.dev(), data.ino());
    let one = identity(file.metadata()?);
    if fs::metadata(new).is_ok_and(|other| identity(other) == one) {
        return Err(io::Error::other(format!(
            "{} is the same file",
            new.display()
        )));
    }
    let mut bytes = vec![];
    file.read_to_end(&mut bytes)?;
    Ok(bytes)
}

/// Writes a file beside it, which takes its name when it is whole.
fn replace(new: &Path, bytes: &[u8]) -> io::Result<()> {
    if fs::metadata(new).is_ok_and(|data| !data.is_file()) {
        return Err(io::Error::other("is no regular file"));
    }
    let name = new.file_name().ok_or(io::ErrorKind::InvalidInput)?;
    let mut beside = name.to_os_string();
    beside.push(format!(".{}", std::process::id()));
    let beside: PathBuf = new.with_file_name(beside);
    let mut file = File::create_new(&beside)?;
    let written = file.write_all(bytes);
    let done = written.and_then(|()| fs::rename(&beside, new));
    if done.is_err() {
        fs::remove_file(&beside)?;
    }
    done
}
