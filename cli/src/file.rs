//! Tables in files. A file is only ever replaced whole: a save writes a new file beside it and renames that over it. So a
//! reader, a kill or a power cut finds the table from before a save or from after it, and never one between.

#[cfg(test)]
mod tests;

use std::ffi::OsString;
use std::fmt;
use std::fs::{self, File, Metadata, TryLockError};
use std::io::{self, ErrorKind, Read, Write};
use std::os::unix::ffi::OsStrExt;
use std::os::unix::fs::{fchown, MetadataExt, OpenOptionsExt};
use std::path::{Path, PathBuf};

/// What the name of an unfinished save ends with. No table's file has such a name, so that none is taken for a leftover.
const UNFINISHED: &str = ".contacts-new";

const OUT_OF_ORDER: &str = "is a table of an earlier version, whose rows aren't in key order; \
                            README.md says under \"Rows in key order\" how its owner moves it";

/// Why a table's file can't be used, as one line for people.
#[derive(Debug, PartialEq, Eq)]
pub struct Refusal(pub String);

impl Refusal {
    fn of(path: &Path, words: &str) -> Refusal {
        Refusal(format!("{}: {words}", path.to_string_lossy().escape_debug()))
    }

    fn failed(path: &Path, what: &str, error: &io::Error) -> Refusal {
        Refusal::of(path, &format!("can't be {what}: {error}"))
    }
}

impl fmt::Display for Refusal {
    fn fmt(&self, f: &mut fmt::Formatter<'_>) -> fmt::Result {
        f.write_str(&self.0)
    }
}

/// Makes a new file with this table, durably. Refused if the file is there. Killed within, it may leave a file with a part of
/// the table, which every other call refuses.
pub fn create(path: &Path, table: &[u8]) -> Result<(), Refusal> {
    refuse_unfinished(path)?;
    let mut file = File::create_new(path).map_err(|error| match error.kind() {
        ErrorKind::AlreadyExists => Refusal::of(path, "there is such a file already"),
        _ => Refusal::failed(path, "made", &error),
    })?;
    let put = file.write_all(table).and_then(|()| file.sync_all()).and_then(|()| sync_folder(path));
    put.map_err(|error| {
        let _ = fs::remove_file(path);
        Refusal::failed(path, "made", &error)
    })
}

/// A sound table's bytes as the file has them now. Takes no lock: a file is only ever replaced whole.
pub fn read(path: &Path) -> Result<Vec<u8>, Refusal> {
    look(path)?;
    let file = File::open(path).map_err(|error| Refusal::failed(path, "read", &error))?;
    sound_table(path, &file)
}

/// A table's file, held by this process alone for as long as this lives.
pub struct TableFile {
    held: Held,
    table: Vec<u8>,
}

impl TableFile {
    /// Takes the file and reads its table. Refused if another process holds it, or if it isn't a sound table; it is then left
    /// as it is.
    pub fn open(path: &Path) -> Result<TableFile, Refusal> {
        look(path)?;
        let held = Held::open(path)?;
        let table = sound_table(path, &held.file)?;
        held.remove_leftover().map_err(|error| Refusal::failed(&held.new_path(), "removed", &error))?;
        Ok(TableFile { held, table })
    }

    pub fn table(&mut self) -> &mut Vec<u8> {
        &mut self.table
    }

    /// Puts the table on disk, in place of the one there. Once it returns, a power cut doesn't take it back.
    pub fn save(&mut self) -> Result<(), Refusal> {
        self.held.save(&self.table)
    }

    /// The file and its table apart, for those who change the one while the other is being saved.
    pub fn into_parts(self) -> (Held, Vec<u8>) {
        (self.held, self.table)
    }
}

/// A file that this process alone saves to, for as long as this lives.
pub struct Held {
    /// No link: what a link names is replaced, and the link stays.
    path: PathBuf,
    /// Open for its lock, which ends with it.
    file: File,
}

impl Held {
    fn open(path: &Path) -> Result<Held, Refusal> {
        let real = fs::canonicalize(path).map_err(|error| Refusal::failed(path, "read", &error))?;
        refuse_unfinished(&real)?;
        loop {
            let file = File::options().read(true).write(true).open(&real);
            let file = file.map_err(|error| Refusal::failed(path, "opened", &error))?;
            file.try_lock().map_err(|error| match error {
                TryLockError::WouldBlock => Refusal::of(path, "another process has it in use"),
                TryLockError::Error(error) => Refusal::failed(path, "locked", &error),
            })?;
            let held = Held { path: real.clone(), file };
            // A save may have come between opening and locking: then this is the file from before it.
            if held.is_in_place().map_err(|error| Refusal::failed(path, "read", &error))? {
                return Ok(held);
            }
        }
    }

    /// Puts this table on disk, in place of the one there. A damaged one is refused, so that none is ever in the file.
    pub fn save(&mut self, table: &[u8]) -> Result<(), Refusal> {
        if !contacts::sound(table) {
            return Err(Refusal::of(&self.path, "isn't saved, since the table in memory is damaged"));
        }
        self.replace(table).map_err(|error| {
            let _ = self.remove_leftover();
            Refusal::failed(&self.path, "saved", &error)
        })
    }

    fn replace(&mut self, table: &[u8]) -> io::Result<()> {
        self.remove_leftover()?;
        let new = self.new_path();
        let mut file = File::options().write(true).create_new(true).mode(0o600).open(&new)?;
        // The lock is the file's and not the path's. Locked before it is renamed, the path never names a file without it.
        file.try_lock()?;
        keep_access(&self.file.metadata()?, &file)?;
        file.write_all(table)?;
        file.sync_all()?;
        if !self.is_in_place()? {
            return Err(io::Error::other("another file has taken its place"));
        }
        fs::rename(&new, &self.path)?;
        self.file = file;
        sync_folder(&self.path)
    }

    /// Whether the path still names this file.
    fn is_in_place(&self) -> io::Result<bool> {
        let (own, named) = (self.file.metadata()?, fs::metadata(&self.path)?);
        Ok((own.dev(), own.ino()) == (named.dev(), named.ino()))
    }

    /// Where a save is written before it is in place. The name is this file's alone, and only its holder writes there: what is
    /// found is what a killed one left.
    fn new_path(&self) -> PathBuf {
        let mut name = OsString::from(".");
        name.push(self.path.file_name().unwrap_or_default());
        name.push(UNFINISHED);
        self.path.with_file_name(name)
    }

    fn remove_leftover(&self) -> io::Result<()> {
        match fs::remove_file(self.new_path()) {
            Err(error) if error.kind() != ErrorKind::NotFound => Err(error),
            _ => Ok(()),
        }
    }
}

/// Refuses what isn't a plain file before it is opened: opening a pipe would wait for its other end.
fn look(path: &Path) -> Result<(), Refusal> {
    let metadata = fs::metadata(path).map_err(|error| match error.kind() {
        ErrorKind::NotFound => Refusal::of(path, "there is no such file"),
        _ => Refusal::failed(path, "read", &error),
    })?;
    match metadata.is_file() {
        true => Ok(()),
        false if metadata.is_dir() => Err(Refusal::of(path, "is a directory and no table's file")),
        false => Err(Refusal::of(path, "is no plain file")),
    }
}

fn refuse_unfinished(path: &Path) -> Result<(), Refusal> {
    match path.as_os_str().as_bytes().ends_with(UNFINISHED.as_bytes()) {
        true => Err(Refusal::of(path, &format!("a name that ends in {UNFINISHED} is for unfinished saves"))),
        false => Ok(()),
    }
}

fn sound_table(path: &Path, file: &File) -> Result<Vec<u8>, Refusal> {
    let most = contacts::size(contacts::ROWS_MAX).expect("a table may have so many rows");
    let mut table = Vec::new();
    let read = file.take(most as u64 + 1).read_to_end(&mut table);
    read.map_err(|error| Refusal::failed(path, "read", &error))?;
    let is_size = |rows| contacts::size(rows) == Some(table.len());
    match () {
        () if contacts::sound(&table) => Ok(table),
        () if contacts::plain::sound(&table) => Err(Refusal::of(path, OUT_OF_ORDER)),
        () if (1..=contacts::ROWS_MAX).any(is_size) => Err(Refusal::of(path, "is damaged, or no table")),
        () => Err(Refusal::of(path, "is no table, which would have another size")),
    }
}

/// Gives a new file the permissions and the group of the old one, and its owner where the system allows that.
fn keep_access(old: &Metadata, new: &File) -> io::Result<()> {
    let made = new.metadata()?;
    if made.gid() != old.gid() {
        fchown(new, None, Some(old.gid()))?;
    }
    if made.uid() != old.uid() {
        let _ = fchown(new, Some(old.uid()), None);
    }
    new.set_permissions(old.permissions())
}

/// Puts a folder's names on disk: until then a power cut takes back that a file is new or renamed.
fn sync_folder(path: &Path) -> io::Result<()> {
    let folder = path.parent().filter(|folder| !folder.as_os_str().is_empty());
    File::open(folder.unwrap_or(Path::new(".")))?.sync_all()
}
