//! The files of a record, each locked against every other node.

use crate::requests::{Half, Request, carry_out};
use std::fs::{self, File, OpenOptions, TryLockError};
use std::io::{Error, ErrorKind, Read};
use std::os::unix::fs::FileExt;
use std::path::{Path, PathBuf};

/// The path of the second file of a record that stands in two, as the program `simplex node` has it: that of the first, and `.2` behind
/// it.
pub fn second_path(record: &Path) -> PathBuf {
    let mut path = record.as_os_str().to_owned();
    path.push(".2");
    path.into()
}

/// The files of a record: one, or two that belong together for good.
#[derive(Debug)]
pub(crate) struct Files {
    first: File,
    second: Second,
}

#[derive(Debug)]
enum Second {
    /// The record stands in one file.
    Never,
    /// There is none yet at this path: until the first is known to be a record, none is made beside it.
    Missing(PathBuf),
    There(File),
}

/// The file at this path, locked, and there after a crash.
fn locked(options: &mut OpenOptions, path: &Path) -> Result<File, Error> {
    let file = options.read(true).write(true).open(path)?;
    file.try_lock().map_err(|error| match error {
        TryLockError::Error(error) => error,
        TryLockError::WouldBlock => ErrorKind::WouldBlock.into(),
    })?;
    let folder = match path.parent() {
        Some(folder) if !folder.as_os_str().is_empty() => folder,
        _ => Path::new("."),
    };
    File::open(folder)?.sync_all()?;
    Ok(file)
}

/// The same, made where there is none.
fn made(path: &Path) -> Result<File, Error> {
    locked(File::options().create(true).truncate(false), path)
}

fn stored(mut file: &File) -> Result<Vec<u8>, Error> {
    let mut bytes = Vec::new();
    file.read_to_end(&mut bytes)?;
    Ok(bytes)
}

impl Files {
    /// The file of the record at this path, made where there is none. A file beside which the second of two holds something is refused:
    /// votes may stand in that one, and the bytes of the first don't tell.
    pub(crate) fn one(record: &Path) -> Result<Files, Error> {
        let path = second_path(record);
        match fs::metadata(&path) {
            Ok(beside) if beside.len() > 0 => {
                let said = format!("the record stands in {} too", path.display());
                return Err(Error::new(ErrorKind::AlreadyExists, said));
            }
            Err(error) if error.kind() != ErrorKind::NotFound => return Err(error),
            _ => {}
        }
        let (first, second) = (made(record)?, Second::Never);
        Ok(Files { first, second })
    }

    /// The two files of the record at this path. Where there is no second one, [`Files::complete`] makes it.
    pub(crate) fn two(record: &Path) -> Result<Files, Error> {
        let (first, path) = (made(record)?, second_path(record));
        let second = match locked(&mut File::options(), &path) {
            Ok(file) => Second::There(file),
            Err(error) if error.kind() == ErrorKind::NotFound => Second::Missing(path),
            Err(error) => return Err(error),
        };
        Ok(Files { first, second })
    }

    /// What they hold; of the second nothing where it isn't there yet, and `None` where there is to be none.
    pub(crate) fn stored(&self) -> Result<(Vec<u8>, Option<Vec<u8>>), Error> {
        let second = match &self.second {
            Second::Never => None,
            Second::Missing(_) => Some(Vec::new()),
            Second::There(file) => Some(stored(file)?),
        };
        Ok((stored(&self.first)?, second))
    }

    /// Makes the second file where it is missing.
    pub(crate) fn complete(&mut self) -> Result<(), Error> {
        if let Second::Missing(path) = &self.second {
            self.second = Second::There(made(path)?);
        }
        Ok(())
    }

    /// Does what was asked, in this order.
    pub(crate) fn carry_out(&self, requests: &[u8]) -> Result<(), Error> {
        carry_out(requests, |half, request| {
            let file = match (half, &self.second) {
                (Half::First, _) => &self.first,
                (Half::Second, Second::There(file)) => file,
                (Half::Second, _) => return Err(ErrorKind::InvalidData.into()),
            };
            match request {
                Request::Write { place, bytes } => file.write_all_at(bytes, place),
                Request::Cut(length) => file.set_len(length),
                Request::Sync => file.sync_all(),
            }
        })
    }
}
