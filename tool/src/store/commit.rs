//! Writing a folder. Whatever is cut short here leaves what `current` names as it was; the rename of `current` is the one step that commits.

use super::{current, current::Current, lock, Hash, Store};
use crate::{
    failure::{refused, trouble, Failure},
    note::note,
    titles::Titles,
    words::Words,
};
use std::{
    ffi::OsStr,
    fs::{self, File, OpenOptions},
    io::{self, Seek, SeekFrom, Write},
    path::{Path, PathBuf},
};

/// A folder that only this process writes. `store.words` and `store.titles` may be added to; `commit` writes them with a new shelf.
pub struct Writer {
    pub store: Store,
    /// Titles as they stand on disk; unknown in a new folder, where an unfinished build may have left some.
    titles_on_disk: Option<Titles>,
    /// Held until the writer goes.
    _lock: File,
}

impl Writer {
    /// For an edit: the lock is taken first, so that the edit is made of the newest shelf.
    pub fn open(folder: &Path) -> Result<Writer, Failure> {
        Current::read(folder)?; // no lock file is made in a folder that is no shelf's
        let lock = lock::take(folder)?;
        let store = Store::open(folder)?;
        Ok(Writer { titles_on_disk: Some(store.titles.clone()), store, _lock: lock })
    }

    /// A new folder, or one that a build left unfinished. One that has a shelf already, or files of others, is left alone.
    pub fn create(folder: &Path, words: Words, titles: Titles) -> Result<Writer, Failure> {
        match fs::create_dir(folder) {
            Ok(()) => sync_folder(&parent(folder))?,
            Err(error) if error.kind() == io::ErrorKind::AlreadyExists => only_ours(folder)?,
            Err(error) => return Err(trouble(folder)(error)),
        }
        let lock = lock::take(folder)?;
        if folder.join(current::FILE).exists() {
            return Err(Failure::Wrong(format!("{}: there is a shelf already", folder.display())));
        }
        let store = Store { folder: folder.to_path_buf(), shelf: Vec::new(), words, titles, current: None };
        Ok(Writer { store, titles_on_disk: None, _lock: lock })
    }

    /// Makes a new shelf the folder's, with the words and titles of `store`, if the core's checker accepts it. A writer commits once.
    pub fn commit(self, shelf: &[u8]) -> Result<Hash, Failure> {
        proved::check(shelf).map_err(refused("the new shelf is not sound"))?;
        let words = self.store.words.bytes();
        let new = Current::of(shelf, &words);
        if self.titles_on_disk.as_ref() != Some(&self.store.titles) {
            self.replace("titles", "titles.new", &self.store.titles.bytes())?;
        }
        if self.store.current.as_ref() != Some(&new) {
            self.write_words(&words)?;
            self.replace(&new.shelf_file(), "shelf.new", shelf)?;
            self.replace(current::FILE, "current.new", new.text().as_bytes())?;
            self.remove_old(&new);
        }
        Ok(new.shelf)
    }

    /// Adds the words that are new, and syncs. What stands behind the words of the current shelf was left by a commit that was cut short; it goes.
    fn write_words(&self, words: &[u8]) -> Result<(), Failure> {
        let path = self.store.folder.join("words");
        let kept = self.store.current.as_ref().map_or(0, |current| current.words_length);
        let new = usize::try_from(kept).ok().and_then(|kept| words.get(kept..)).unwrap_or_default();
        let write = || {
            let mut file = OpenOptions::new().create(true).write(true).truncate(false).open(&path)?;
            file.set_len(kept)?;
            file.seek(SeekFrom::Start(kept))?;
            file.write_all(new)?;
            file.sync_all()
        };
        write().map_err(trouble(&path))
    }

    /// Puts a whole new file in the place of `name`: written beside, synced, renamed, the folder synced.
    fn replace(&self, name: &str, beside: &str, bytes: &[u8]) -> Result<(), Failure> {
        let (path, beside) = (self.store.folder.join(name), self.store.folder.join(beside));
        let write = || {
            let mut file = File::create(&beside)?;
            file.write_all(bytes)?;
            file.sync_all()
        };
        write().map_err(trouble(&beside))?;
        fs::rename(&beside, &path).map_err(trouble(&path))?;
        sync_folder(&self.store.folder)
    }

    /// Removes shelf files but the new one and the one before, which someone may be reading. The commit stands whether or not this can be done.
    fn remove_old(&self, new: &Current) {
        let kept = [Some(new.shelf_file()), self.store.current.as_ref().map(Current::shelf_file)];
        let is_old =
            |name: &OsStr| name.to_str().is_some_and(|name| is_shelf(name) && !kept.contains(&Some(name.to_string())));
        let remove = || -> io::Result<()> {
            for entry in fs::read_dir(&self.store.folder)? {
                let entry = entry?;
                if is_old(&entry.file_name()) {
                    fs::remove_file(entry.path())?;
                }
            }
            Ok(())
        };
        if let Err(error) = remove() {
            note(&format!("{}: an old shelf could not be removed: {error}", self.store.folder.display()));
        }
    }
}

/// Whether a file's name is a hash and `.shelf`.
fn is_shelf(name: &str) -> bool {
    name.strip_suffix(".shelf").and_then(Hash::parse).is_some()
}

/// Refuses a folder that holds what a build does not write.
fn only_ours(folder: &Path) -> Result<(), Failure> {
    let ours = ["current", "current.new", "lock", "shelf.new", "titles", "titles.new", "words"];
    for entry in fs::read_dir(folder).map_err(trouble(folder))? {
        let name = entry.map_err(trouble(folder))?.file_name();
        if !name.to_str().is_some_and(|name| ours.contains(&name) || is_shelf(name)) {
            let message = format!("{}: the folder holds something else: {name:?}", folder.display());
            return Err(Failure::Trouble(message));
        }
    }
    Ok(())
}

/// A name made or changed in a folder is on disk once the folder is synced.
fn sync_folder(folder: &Path) -> Result<(), Failure> {
    File::open(folder).and_then(|opened| opened.sync_all()).map_err(trouble(folder))
}

fn parent(folder: &Path) -> PathBuf {
    match folder.parent() {
        Some(parent) if parent != Path::new("") => parent.to_path_buf(),
        _ => PathBuf::from("."),
    }
}
