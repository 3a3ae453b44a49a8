//! One writer at a time. The lock is the system's (flock): it goes with the process that holds it, however that ends.

use crate::{
    failure::{trouble, Failure},
    note::note,
};
use std::{
    fs::{File, OpenOptions, TryLockError},
    path::Path,
};

pub const FILE: &str = "lock";

/// Waits for another writer, and says so.
pub fn take(folder: &Path) -> Result<File, Failure> {
    let path = folder.join(FILE);
    let file = OpenOptions::new().create(true).append(true).open(&path).map_err(trouble(&path))?;
    match file.try_lock() {
        Ok(()) => Ok(file),
        Err(TryLockError::WouldBlock) => {
            note(&format!("{}: waiting for another writer", folder.display()));
            file.lock().map_err(trouble(&path))?;
            Ok(file)
        }
        Err(TryLockError::Error(error)) => Err(trouble(&path)(error)),
    }
}
