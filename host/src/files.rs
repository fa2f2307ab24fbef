//! File calls: log files found, folders locked, a file put in another's place.

use crate::{error::Error, queues::Found, sys};
use std::{
    fs::{self, File, OpenOptions},
    io::{self, Read, Write},
    os::unix::{ffi::OsStrExt, fs::MetadataExt},
    path::{Path, PathBuf},
};

/// A log file as it was found: what [`Queues::open`](crate::Queues::open) looks at, and its path.
#[derive(Clone, Debug)]
pub struct LogFile {
    path: PathBuf,
    name: Vec<u8>,
    length: u64,
    head: Vec<u8>,
}

impl LogFile {
    /// Looks at a file. Its bytes from a position on count as the file: its first record begins there.
    pub fn at(path: impl AsRef<Path>, position: u64) -> Result<LogFile, Error> {
        let path = path.as_ref();
        LogFile::read(path, position).map_err(Error::file("read", path))
    }

    fn read(path: &Path, position: u64) -> io::Result<LogFile> {
        // Before it is opened: a pipe without a writer would never open.
        let length = regular(&fs::metadata(path)?)?.len();
        let mut head = Vec::new();
        if position < length {
            let mut file = File::open(path)?;
            io::Seek::seek(&mut file, io::SeekFrom::Start(position))?;
            file.take(9).read_to_end(&mut head)?;
        }
        let name = path.file_name().unwrap_or_default().as_bytes().to_vec();
        Ok(LogFile { path: path.to_path_buf(), name, length: length.saturating_sub(position), head })
    }

    /// The files of a folder whose names begin as a log's do; links and folders are passed over.
    pub fn all_in(folder: impl AsRef<Path>) -> Result<Vec<LogFile>, Error> {
        let folder = folder.as_ref();
        let mut found = Vec::new();
        for entry in fs::read_dir(folder).map_err(Error::file("list", folder))? {
            let entry = entry.map_err(Error::file("list", folder))?;
            let is_file = entry.file_type().map_err(Error::file("look at", entry.path()))?.is_file();
            if is_file && entry.file_name().as_bytes().starts_with(b"log") {
                found.push(LogFile::at(entry.path(), 0)?);
            }
        }
        Ok(found)
    }

    /// The same file under another name, by which `open` is to take it.
    pub fn named(mut self, name: impl Into<Vec<u8>>) -> LogFile {
        self.name = name.into();
        self
    }

    /// Its path.
    pub fn path(&self) -> &Path {
        &self.path
    }

    /// How many bytes it has, from the position on at which it was looked at.
    pub fn length(&self) -> u64 {
        self.length
    }

    /// As `open` takes it.
    pub fn found(&self) -> Found<'_> {
        Found { name: &self.name, length: self.length, head: &self.head }
    }
}

fn regular(file: &fs::Metadata) -> io::Result<&fs::Metadata> {
    match file.is_file() {
        true => Ok(file),
        false => Err(io::Error::new(io::ErrorKind::InvalidInput, "not a regular file")),
    }
}

/// A log's folder, held against every other process that would have it open.
#[derive(Debug)]
pub struct FolderLock {
    /// Held for the lock.
    _file: File,
}

impl FolderLock {
    /// Takes the lock of a folder, whose file `lock` is made if it is missing.
    pub(crate) fn new(folder: &Path) -> Result<FolderLock, Error> {
        FolderLock::by(folder, OpenOptions::new().create(true).truncate(false).write(true))
    }

    /// Takes the lock of a folder that is only to be read; none where no log was ever opened there.
    pub fn of(folder: impl AsRef<Path>) -> Result<Option<FolderLock>, Error> {
        match FolderLock::by(folder.as_ref(), OpenOptions::new().read(true)) {
            Err(error) if error.io().is_some_and(|io| io.kind() == io::ErrorKind::NotFound) => Ok(None),
            taken => taken.map(Some),
        }
    }

    fn by(folder: &Path, options: &OpenOptions) -> Result<FolderLock, Error> {
        let path = folder.join("lock");
        let file = options.open(&path).map_err(Error::file("open", &path))?;
        sys::lock(&file).map_err(Error::file("lock", &path))?;
        Ok(FolderLock { _file: file })
    }
}

/// A file that is to be put in another's place, which may be missing: it is made beside it, under its name and `.new`,
/// and held against every other writer of the same place. What a killed process leaves there is taken over.
///
/// ```
/// use hongsathep::Replacement;
/// # let path = std::env::temp_dir().join(format!("hongsathep-replaced-{}", std::process::id()));
/// let replacement = Replacement::begin(&path)?;
/// assert!(Replacement::begin(&path).is_err()); // one at a time
/// replacement.finish(b"all of it")?;
/// assert_eq!(std::fs::read(&path).unwrap(), b"all of it");
/// # std::fs::remove_file(&path).unwrap();
/// # Ok::<(), hongsathep::Error>(())
/// ```
#[derive(Debug)]
pub struct Replacement {
    path: PathBuf,
    new: PathBuf,
    file: File,
    is_in_place: bool,
}

impl Replacement {
    /// Makes the file beside a path's, or fails at once if another writer has it. Of a link the file behind it is
    /// replaced, and the link stays.
    pub fn begin(path: impl AsRef<Path>) -> Result<Replacement, Error> {
        let path = fs::canonicalize(path.as_ref()).unwrap_or_else(|_| path.as_ref().to_path_buf());
        let new = Replacement::place_beside(&path);
        loop {
            if let Ok(there) = fs::symlink_metadata(&new) {
                regular(&there).map_err(Error::file("replace", &new))?;
            }
            let file = OpenOptions::new().create(true).truncate(false).write(true).open(&new);
            let file = file.map_err(Error::file("open", &new))?;
            sys::lock(&file).map_err(Error::file("lock", &new))?;
            // Another writer may have put it in its place, or removed it, before the lock was had.
            if is_at(&file, &new).map_err(Error::file("look at", &new))? {
                return Ok(Replacement { path, new, file, is_in_place: false });
            }
        }
    }

    /// Where the file for a path is made.
    pub fn place_beside(path: &Path) -> PathBuf {
        let mut new = path.as_os_str().to_owned();
        new.push(".new");
        PathBuf::from(new)
    }

    /// Writes the file whole, brings it to its device, puts it in its place, and brings the folder's names to theirs. A
    /// failure before that leaves the old file as it was.
    pub fn finish(mut self, bytes: &[u8]) -> Result<(), Error> {
        self.put(bytes)?;
        self.sync_folder()
    }

    /// The same but for the folder's names, which [`sync_folder`](Replacement::sync_folder) is for.
    pub fn put(&mut self, bytes: &[u8]) -> Result<(), Error> {
        self.write(bytes).map_err(Error::file("write", &self.new))?;
        fs::rename(&self.new, &self.path).map_err(Error::file("replace", &self.path))?;
        self.is_in_place = true;
        Ok(())
    }

    fn write(&mut self, bytes: &[u8]) -> io::Result<()> {
        self.file.set_len(0)?;
        self.file.write_all(bytes)?;
        if let Ok(old) = fs::metadata(&self.path) {
            self.file.set_permissions(old.permissions())?;
        }
        self.file.sync_all()
    }

    /// Brings the folder's names to their device: that the file is in its place outlives the machine from now on.
    pub fn sync_folder(&self) -> Result<(), Error> {
        match self.path.parent() {
            Some(folder) if folder != Path::new("") => sync_folder(folder),
            _ => sync_folder(Path::new(".")),
        }
    }
}

impl Drop for Replacement {
    fn drop(&mut self) {
        if !self.is_in_place {
            // Where it can't be removed the next writer takes it over.
            let _ = fs::remove_file(&self.new);
        }
    }
}

/// Whether an open file is the one that a path leads to.
fn is_at(file: &File, path: &Path) -> io::Result<bool> {
    let open = file.metadata()?;
    match fs::symlink_metadata(path) {
        Ok(there) => Ok((there.dev(), there.ino()) == (open.dev(), open.ino())),
        Err(error) if error.kind() == io::ErrorKind::NotFound => Ok(false),
        Err(error) => Err(error),
    }
}

/// Brings a folder's names to its device.
pub(crate) fn sync_folder(folder: &Path) -> Result<(), Error> {
    File::open(folder).and_then(|folder| folder.sync_all()).map_err(Error::file("sync", folder))
}

/// Removes a file; that there is none is no fault.
pub(crate) fn remove(path: &Path) -> Result<(), Error> {
    match fs::remove_file(path) {
        Err(error) if error.kind() != io::ErrorKind::NotFound => Err(Error::file("remove", path)(error)),
        _ => Ok(()),
    }
}
