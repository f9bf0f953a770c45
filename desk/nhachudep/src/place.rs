//! The name a form is put under. A file is written anew beside its name and
//! then renamed, so that it is there either as before or whole.

use std::ffi::OsString;
use std::fs::{self, File, Metadata, OpenOptions};
use std::io::{self, ErrorKind, Write};
use std::os::unix::fs::{fchown, MetadataExt, OpenOptionsExt};
use std::path::{Path, PathBuf};

use crate::input::read_limited;
use crate::system::{copy_access_list, Calm};

/// Names tried for the new file.
const TRIES: usize = 100;

/// Files taken for one that another run has replaced meanwhile.
const TURNS: usize = 10_000;

/// Modes a new file begins with: for its owner alone until it has the rights
/// of the file that it replaces; as the system would have it if there is none.
const PRIVATE: u32 = 0o600;
const USUAL: u32 = 0o666;

const OWNER_WRITES: u32 = 0o200;

/// What stands under a name.
pub enum Place {
    Free(PathBuf),
    File(Box<Held>),
    /// Devices and pipes are written to, never replaced.
    Device(PathBuf),
}

impl Place {
    /// A file is held from here on, until the place is gone.
    pub fn find(name: &Path) -> io::Result<Place> {
        // A link goes on leading to the file behind it.
        let path = name.canonicalize().unwrap_or(name.to_path_buf());
        match fs::metadata(&path) {
            Ok(found) if found.is_file() => {
                Held::take(path).map(|held| Place::File(Box::new(held)))
            }
            Ok(_) => Ok(Place::Device(path)),
            Err(error) if error.kind() == ErrorKind::NotFound => Ok(Place::Free(path)),
            Err(error) => Err(error),
        }
    }

    /// What stands there; from now on it has to stay so.
    pub fn read(&mut self) -> io::Result<Vec<u8>> {
        match self {
            Place::Free(path) | Place::Device(path) => File::open(path).and_then(read_limited),
            Place::File(held) => held.read(),
        }
    }

    pub fn put(self, bytes: &[u8]) -> io::Result<()> {
        match self {
            Place::Device(path) => OpenOptions::new().write(true).open(path)?.write_all(bytes),
            Place::Free(path) => create(&path, bytes),
            Place::File(held) => held.replace(bytes),
        }
    }
}

/// A file that is locked, so that of all runs of this tool only one replaces
/// it at a time.
pub struct Held {
    path: PathBuf,
    file: File,
    found: Metadata,
    content: Option<Vec<u8>>,
}

impl Held {
    /// Waits for the lock. Whoever had it may have replaced the file, and then
    /// another one stands under the name, with a lock of its own.
    fn take(path: PathBuf) -> io::Result<Held> {
        for _ in 0..TURNS {
            expect_writable(&fs::metadata(&path)?)?;
            let file = OpenOptions::new().read(true).write(true).open(&path)?;
            file.lock()?;
            let found = file.metadata()?;
            if is_as_found(&found, &fs::metadata(&path)?) {
                return Ok(Held {
                    path,
                    file,
                    found,
                    content: None,
                });
            }
        }
        Err(io::Error::other(
            "is another file whenever it is looked at; nothing is written",
        ))
    }

    fn read(&mut self) -> io::Result<Vec<u8>> {
        let content = read_limited(&self.file)?;
        self.content = Some(content.clone());
        Ok(content)
    }

    fn replace(&self, bytes: &[u8]) -> io::Result<()> {
        let calm = Calm::begin();
        let mut new = NewFile::create_beside(&self.path, PRIVATE)?;
        new.file.write_all(bytes)?;
        new.take_rights_of(self)?;
        new.file.sync_all()?;
        self.expect_unchanged()?;
        new.rename(&self.path)?;
        drop(calm);
        sync_folder(&self.path)
    }

    /// Programs that know nothing of the lock may have been at the file.
    fn expect_unchanged(&self) -> io::Result<()> {
        let Some(content) = &self.content else {
            return Ok(());
        };
        let file = File::open(&self.path)?;
        let is_same = is_as_found(&self.found, &file.metadata()?);
        match is_same && read_limited(&file)? == *content {
            true => Ok(()),
            false => Err(io::Error::other(
                "changed by another program since it was read; nothing is written",
            )),
        }
    }
}

fn expect_writable(found: &Metadata) -> io::Result<()> {
    match found.mode() & OWNER_WRITES {
        0 => Err(io::Error::other("is read-only; nothing is written")),
        _ => Ok(()),
    }
}

/// The same file with the same rights.
fn is_as_found(one: &Metadata, other: &Metadata) -> bool {
    let parts = |file: &Metadata| (file.dev(), file.ino(), file.mode(), file.uid(), file.gid());
    parts(one) == parts(other)
}

fn create(path: &Path, bytes: &[u8]) -> io::Result<()> {
    let calm = Calm::begin();
    let mut new = NewFile::create_beside(path, USUAL)?;
    new.file.write_all(bytes)?;
    new.file.sync_all()?;
    new.rename(path)?;
    drop(calm);
    sync_folder(path)
}

/// A file under a name of its own, which goes unless it is renamed. Signals
/// have to wait as long as it is there.
struct NewFile {
    path: PathBuf,
    file: File,
    is_renamed: bool,
}

impl NewFile {
    /// A file that was not there before, in the folder of this one.
    fn create_beside(path: &Path, mode: u32) -> io::Result<NewFile> {
        let name = path
            .file_name()
            .ok_or(io::Error::from(ErrorKind::IsADirectory))?;
        let mut taken = io::Error::from(ErrorKind::AlreadyExists);
        for attempt in 0..TRIES {
            let mut beside = OsString::from(".");
            beside.push(name);
            beside.push(format!(".new-{}-{attempt}", std::process::id()));
            let path = path.with_file_name(beside);
            let mut options = OpenOptions::new();
            match options.write(true).create_new(true).mode(mode).open(&path) {
                Ok(file) => {
                    return Ok(NewFile {
                        path,
                        file,
                        is_renamed: false,
                    })
                }
                Err(error) if error.kind() == ErrorKind::AlreadyExists => taken = error,
                Err(error) => return Err(error),
            }
        }
        Err(taken)
    }

    /// The mode last: giving a file away and its access list may change it.
    fn take_rights_of(&self, held: &Held) -> io::Result<()> {
        let found = &held.found;
        let (user, group) = (found.uid(), found.gid());
        let own = self.file.metadata()?;
        if (own.uid(), own.gid()) != (user, group) {
            fchown(&self.file, Some(user), Some(group)).map_err(|error| {
                io::Error::other(format!(
                    "belongs to user {user} and group {group}, and a new file cannot be given to \
                     them ({error}); nothing is written"
                ))
            })?;
        }
        copy_access_list(&held.file, &self.file)?;
        self.file.set_permissions(found.permissions())
    }

    fn rename(mut self, path: &Path) -> io::Result<()> {
        fs::rename(&self.path, path)?;
        self.is_renamed = true;
        Ok(())
    }
}

impl Drop for NewFile {
    fn drop(&mut self) {
        if !self.is_renamed {
            let _ = fs::remove_file(&self.path);
        }
    }
}

/// The new name itself lasts only when its folder is on the disk.
fn sync_folder(path: &Path) -> io::Result<()> {
    let folder = match path.parent() {
        Some(folder) if folder != Path::new("") => folder,
        _ => Path::new("."),
    };
    let synced = File::open(folder).and_then(|folder| folder.sync_all());
    match synced {
        // A folder that may be written to and not read, and a file system that
        // syncs no folders: there is no way.
        Err(error)
            if matches!(
                error.kind(),
                ErrorKind::PermissionDenied | ErrorKind::InvalidInput
            ) =>
        {
            Ok(())
        }
        Err(error) => Err(io::Error::other(format!(
            "is written, but its folder was not synced: {error}"
        ))),
        Ok(()) => Ok(()),
    }
}
