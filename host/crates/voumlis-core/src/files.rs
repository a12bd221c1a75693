//! Files that have to survive a crash, and that their owner alone may read.

use std::fs::{self, File};
use std::io::{Error, ErrorKind, Seek, SeekFrom, Write};
use std::os::unix::fs::OpenOptionsExt;
use std::path::Path;

/// The bytes of a file, or none where there is no such file.
///
/// # Errors
///
/// Those of reading it.
pub fn read_or_empty(path: &Path) -> Result<Vec<u8>, Error> {
    match fs::read(path) {
        Err(error) if error.kind() == ErrorKind::NotFound => Ok(Vec::new()),
        other => other,
    }
}

/// The mode of files that are made: what an application ordered is nobody else's.
const MODE: u32 = 0o600;

/// A long file is synced piece by piece: short syncs of other files, as that of a vote, would wait for all that was written before.
const PIECE: usize = 4 << 20;

/// Opens a file behind so many bytes of it, made where there is none; what stands behind is cut, and the folder is synced.
///
/// # Errors
///
/// Those of the file and its folder.
pub fn open_to_append(path: &Path, length: u64) -> Result<File, Error> {
    let mut file = File::options()
        .read(true)
        .write(true)
        .create(true)
        .truncate(false)
        .mode(MODE)
        .open(path)?;
    if file.metadata()?.len() > length {
        file.set_len(length)?;
        file.sync_all()?;
    }
    file.seek(SeekFrom::Start(length))?;
    sync_folder(path)?;
    Ok(file)
}

/// Puts another file, of these parts, in the place of this one: behind a crash there is the old one or the whole new one.
///
/// # Errors
///
/// Those of the files and their folder.
pub fn replace(path: &Path, parts: &[&[u8]]) -> Result<(), Error> {
    let beside = path.with_extension("new");
    let mut options = File::options();
    let mut file = options
        .write(true)
        .create(true)
        .truncate(true)
        .mode(MODE)
        .open(&beside)?;
    for piece in parts.iter().flat_map(|part| part.chunks(PIECE)) {
        file.write_all(piece)?;
        if piece.len() == PIECE {
            file.sync_data()?;
        }
    }
    file.sync_all()?;
    fs::rename(&beside, path)?;
    sync_folder(path)
}

/// Makes sure that the names in the folder of this file survive a crash.
fn sync_folder(path: &Path) -> Result<(), Error> {
    let folder = match path.parent() {
        Some(folder) if !folder.as_os_str().is_empty() => folder,
        _ => Path::new("."),
    };
    File::open(folder)?.sync_all()
}
