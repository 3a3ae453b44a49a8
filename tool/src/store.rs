//! A shelf on disk: a folder. `current` names the shelf's file by its SHA-256 and says how much of `words` belongs to it; `titles` stands beside.
//! What is read is compared with those hashes and checked by the core before anything is done with it.

mod commit;
mod current;
mod hash;
mod lock;

use crate::{
    failure::{refused, trouble, Failure},
    fields::MAX_SHELF,
    titles::Titles,
    words::Words,
};
pub use commit::Writer;
use current::Current;
pub use hash::Hash;
use std::{
    fs::File,
    io::{self, Read},
    path::{Path, PathBuf},
};

/// A folder as it was read.
pub struct Store {
    folder: PathBuf,
    pub shelf: Vec<u8>,
    pub words: Words,
    pub titles: Titles,
    /// What the folder holds now; nothing in a new one.
    current: Option<Current>,
}

impl Store {
    /// For reading. No lock is needed: a shelf's file never changes, and the one before stays until the next commit.
    pub fn open(folder: &Path) -> Result<Store, Failure> {
        let (current, shelf) = read_shelf(folder)?;
        let words = read_words(folder, &current)?;
        let titles = read_titles(folder)?;
        Ok(Store { folder: folder.to_path_buf(), shelf, words, titles, current: Some(current) })
    }

    /// The hash of the shelf that was read.
    pub fn hash(&self) -> Hash {
        Hash::of(&self.shelf)
    }
}

/// The shelf that `current` names, if it is the one that was written, and sound.
fn read_shelf(folder: &Path) -> Result<(Current, Vec<u8>), Failure> {
    let (current, shelf) = read_named(folder)?;
    let path = folder.join(current.shelf_file());
    if Hash::of(&shelf) != current.shelf {
        return Err(Failure::Wrong(format!(
            "{}: damaged: its bytes do not have the SHA-256 of its name",
            path.display()
        )));
    }
    proved::check(&shelf).map_err(refused(format!("{}: not sound", path.display())))?;
    Ok((current, shelf))
}

/// The bytes of the file that `current` names. Two commits while it is read may have taken the file away; then `current` names another.
fn read_named(folder: &Path) -> Result<(Current, Vec<u8>), Failure> {
    let mut current = Current::read(folder)?;
    loop {
        let path = folder.join(current.shelf_file());
        match read_at_most(&path, MAX_SHELF as u64 + 1) {
            Ok(shelf) => return Ok((current, shelf)),
            Err(error) => {
                let again = Current::read(folder)?;
                if error.kind() != io::ErrorKind::NotFound || again == current {
                    let named =
                        format!("{}, which {} names: {error}", path.display(), folder.join(current::FILE).display());
                    return Err(Failure::Trouble(named));
                }
                current = again;
            }
        }
    }
}

/// The words that belong to the shelf: a stretch at the front of the file. What stands behind was added for a shelf that was never committed.
fn read_words(folder: &Path, current: &Current) -> Result<Words, Failure> {
    let path = folder.join("words");
    let bytes = read_at_most(&path, current.words_length).map_err(trouble(&path))?;
    if bytes.len() as u64 != current.words_length || Hash::of(&bytes) != current.words {
        let message = "damaged: its first bytes do not have the SHA-256 that current says";
        return Err(Failure::Wrong(format!("{}: {message}", path.display())));
    }
    Words::parse(&bytes).map_err(|what| Failure::Wrong(format!("{}: {what}", path.display())))
}

/// A folder without the file has no titles.
fn read_titles(folder: &Path) -> Result<Titles, Failure> {
    let path = folder.join("titles");
    match std::fs::read(&path) {
        Ok(bytes) => Titles::parse(&bytes).map_err(|what| Failure::Wrong(format!("{}: {what}", path.display()))),
        Err(error) if error.kind() == io::ErrorKind::NotFound => Ok(Titles::default()),
        Err(error) => Err(trouble(&path)(error)),
    }
}

/// A file's bytes, not more than `limit`, however long it has become.
fn read_at_most(path: &Path, limit: u64) -> io::Result<Vec<u8>> {
    let mut bytes = Vec::new();
    File::open(path)?.take(limit).read_to_end(&mut bytes)?;
    Ok(bytes)
}
