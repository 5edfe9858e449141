//! Stores in files: read whole, and replaced whole.
//!
//! A writer holds the file's lock from before it reads until its end; readers
//! share it. What a writer makes goes to a file beside the store, is synced,
//! takes the store's place by a rename, and the folder is synced: whenever the
//! program or the machine stops, the file is the old store or the new one.

use std::fs::{self, File, OpenOptions};
use std::io::{self, Read, Write};
use std::os::unix::fs::{fchown, MetadataExt, OpenOptionsExt};
use std::path::{Path, PathBuf};

use crate::fault::{told, Fault};
use crate::progress;

/// No store is longer, in any edition: 4,096 pages of 512 bytes.
const LONGEST: u64 = 4096 * 512;

/// A file that this program alone may write, until it is dropped.
pub struct Held {
    /// The file itself, behind links to it.
    path: PathBuf,
    file: File,
}

/// The bytes of a store, for a reader.
pub fn read(path: &Path) -> Result<Vec<u8>, Fault> {
    let file = opened(path, OpenOptions::new().read(true))?;
    file.lock_shared()
        .map_err(|error| Fault::io(path, &error))?;
    bytes_of(path, &file)
}

/// The bytes of a store, for a writer, and what it holds meanwhile.
pub fn take(path: &Path) -> Result<(Held, Vec<u8>), Fault> {
    let path = fs::canonicalize(path).map_err(|error| missing(path, &error))?;
    loop {
        let file = opened(&path, OpenOptions::new().read(true).write(true))?;
        lock(&path, &file)?;
        // another writer may have put a new file here while this one waited
        if same(&file, &path).map_err(|error| Fault::io(&path, &error))? {
            let bytes = bytes_of(&path, &file)?;
            return Ok((Held { path, file }, bytes));
        }
    }
}

/// Makes a file that was not there.
pub fn make(path: &Path, bytes: &[u8]) -> Result<(), Fault> {
    if path.symlink_metadata().is_ok() {
        return Err(Fault::file(path, "is there already, and is left as it is"));
    }
    let (beside, file) = beside(path, 0o666)?;
    let linked = written(&file, bytes)
        .and_then(|()| file.sync_all())
        .map_err(|error| Fault::io(path, &error))
        .and_then(|()| link(&beside, path));
    let removed = fs::remove_file(&beside).map_err(|error| Fault::io(&beside, &error));
    linked.and(removed)?;
    sync_folder(path)
}

/// Writes a text to a file, whatever was in it, but for the store that it is about.
pub fn tell(about: &Path, out: &Path, text: &str) -> Result<(), Fault> {
    match (fs::metadata(about), fs::metadata(out)) {
        (Ok(here), Ok(there)) if one(&here, &there) => Err(Fault::file(
            out,
            "is the store itself, and is left as it is",
        )),
        _ => fs::write(out, text).map_err(|error| Fault::io(out, &error)),
    }
}

impl Held {
    /// Puts these bytes in the file's place.
    pub fn replace(self, bytes: &[u8]) -> Result<(), Fault> {
        let (beside, file) = beside(&self.path, 0o600)?;
        let done = alike(&self.file, &file)
            .and_then(|()| written(&file, bytes))
            .and_then(|()| file.sync_all())
            .and_then(|()| fs::rename(&beside, &self.path));
        if let Err(error) = done {
            let _ = fs::remove_file(&beside);
            return Err(Fault::io(&self.path, &error));
        }
        sync_folder(&self.path)
    }
}

fn missing(path: &Path, error: &io::Error) -> Fault {
    Fault::no_input(path, told(error))
}

fn opened(path: &Path, how: &OpenOptions) -> Result<File, Fault> {
    let about = fs::metadata(path).map_err(|error| missing(path, &error))?;
    if about.is_dir() {
        return Err(Fault::no_input(path, "is a folder"));
    }
    if !about.is_file() {
        return Err(Fault::no_input(path, "is no plain file"));
    }
    how.open(path).map_err(|error| match error.kind() {
        io::ErrorKind::NotFound => missing(path, &error),
        _ => Fault::io(path, &error),
    })
}

/// Waits for the lock of a writer. A file that nobody may write is not taken,
/// though a rename could replace it.
fn lock(path: &Path, file: &File) -> Result<(), Fault> {
    let failed = |error: io::Error| Fault::io(path, &error);
    if file.metadata().map_err(failed)?.permissions().readonly() {
        return Err(Fault::file(path, "is read-only"));
    }
    match file.try_lock() {
        Ok(()) => Ok(()),
        Err(fs::TryLockError::WouldBlock) => {
            progress::say(&format!(
                "{}: another program has it; waiting",
                path.display()
            ));
            file.lock().map_err(failed)
        }
        Err(fs::TryLockError::Error(error)) => Err(failed(error)),
    }
}

fn same(file: &File, path: &Path) -> io::Result<bool> {
    let (held, there) = (file.metadata()?, fs::metadata(path));
    Ok(there.is_ok_and(|there| one(&there, &held)))
}

fn one(here: &fs::Metadata, there: &fs::Metadata) -> bool {
    (here.dev(), here.ino()) == (there.dev(), there.ino())
}

/// All bytes, or so many that no store has as many.
fn bytes_of(path: &Path, file: &File) -> Result<Vec<u8>, Fault> {
    let mut bytes = Vec::new();
    let read = file.take(LONGEST + 1).read_to_end(&mut bytes);
    read.map_err(|error| Fault::io(path, &error))?;
    Ok(bytes)
}

/// The file beside a store that a writer fills, empty, locked by this program.
/// Its name is always the same: what a killed program left is used again. A link of
/// that name is nobody's leftover, and what it leads to is not this program's.
fn beside(path: &Path, mode: u32) -> Result<(PathBuf, File), Fault> {
    let mut name = path.as_os_str().to_owned();
    name.push(".rcst-new");
    let beside = PathBuf::from(name);
    let failed = |error: io::Error| Fault::io(&beside, &error);
    if beside.is_symlink() {
        return Err(Fault::file(&beside, "is a link, and is left as it is"));
    }
    loop {
        let mut how = OpenOptions::new();
        let how = how.write(true).create(true).truncate(false).mode(mode);
        let file = how.open(&beside).map_err(failed)?;
        file.lock().map_err(failed)?;
        if same(&file, &beside).map_err(failed)? {
            file.set_len(0).map_err(failed)?;
            return Ok((beside, file));
        }
    }
}

fn written(mut file: &File, bytes: &[u8]) -> io::Result<()> {
    file.write_all(bytes)
}

/// Whoever might use the old file may use the new one. The owner is kept where
/// the system lets this program give files away.
fn alike(old: &File, new: &File) -> io::Result<()> {
    let about = old.metadata()?;
    let _ = fchown(new, Some(about.uid()), Some(about.gid()));
    new.set_permissions(about.permissions())
}

/// A second name for a file that is whole: it fails where the name is taken, so
/// of two programs that make one file only one does.
fn link(beside: &Path, path: &Path) -> Result<(), Fault> {
    fs::hard_link(beside, path).map_err(|error| match error.kind() {
        io::ErrorKind::AlreadyExists => Fault::file(path, "is there already, and is left as it is"),
        _ => Fault::io(path, &error),
    })
}

fn sync_folder(path: &Path) -> Result<(), Fault> {
    let folder = match path.parent() {
        Some(folder) if folder != Path::new("") => folder,
        _ => Path::new("."),
    };
    let synced = File::open(folder).and_then(|folder| folder.sync_all());
    synced.map_err(|error| Fault::io(folder, &error))
}
