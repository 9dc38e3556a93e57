//! The operations on files that change something, one by one. A disk can be told
//! to fail, or to stop, at its k-th operation: the tests ask for that.

use std::cell::Cell;
use std::fs::{self, File, Metadata, OpenOptions, Permissions};
use std::io::{self, ErrorKind, Read, Write};
use std::os::unix::fs::{fchown, MetadataExt, OpenOptionsExt, PermissionsExt};
use std::path::Path;

/// The bytes that are read of a file: one more than a 3d file may have, so that
/// the library sees that it is too long.
pub const READ_LIMIT: u64 = 16_777_217;

/// What goes wrong.
#[derive(Clone, Copy)]
pub enum Fault {
    Nothing,
    /// The operation of this number fails.
    At(usize),
    /// That one and all after it.
    From(usize),
}

/// What a new file may be read and written by.
#[derive(Clone, Copy)]
pub enum Like<'m> {
    /// Nothing is in its place: this mode, less what the umask takes.
    Mode(u32),
    /// The owner, group and mode of the file whose place it takes, or whose copy it
    /// is; before it has them nobody else can read it.
    File(&'m Metadata),
}

/// A disk, and how many operations it has done.
pub struct Disk {
    fault: Fault,
    done: Cell<usize>,
}

impl Disk {
    pub fn new(fault: Fault) -> Disk {
        Disk { fault, done: Cell::new(0) }
    }

    /// How many operations were asked for.
    pub fn operations(&self) -> usize {
        self.done.get()
    }

    fn work<T>(&self, call: impl FnOnce() -> io::Result<T>) -> io::Result<T> {
        let number = self.done.replace(self.done.get() + 1);
        match self.fault {
            Fault::At(bad) if bad == number => Err(io::Error::other("the disk failed")),
            Fault::From(bad) if bad <= number => Err(io::Error::other("the disk stopped")),
            _ => call(),
        }
    }

    /// The bytes of a file, up to the limit.
    pub fn read(&self, path: &Path) -> io::Result<Vec<u8>> {
        self.work(|| steady(&mut File::open(path)?, |file| read(file)))
    }

    /// All bytes of a file that was written here.
    pub fn read_back(&self, path: &Path) -> io::Result<Vec<u8>> {
        self.work(|| fs::read(path))
    }

    /// A new file with these bytes, synced. Half of them may be there where it
    /// fails.
    pub fn write_new(&self, path: &Path, bytes: &[u8], like: Like) -> io::Result<()> {
        let (front, back) = bytes.split_at(bytes.len() / 2);
        let mode = if let Like::Mode(mode) = like { mode } else { 0o600 };
        let mut options = OpenOptions::new();
        options.write(true).create_new(true).mode(mode);
        let mut file = self.work(|| options.open(path))?;
        self.work(|| file.write_all(front))?;
        self.work(|| file.write_all(back))?;
        if let Like::File(old) = like {
            self.work(|| take_over(&file, old))?;
        }
        self.work(|| file.sync_all())
    }

    pub fn rename(&self, from: &Path, to: &Path) -> io::Result<()> {
        self.work(|| fs::rename(from, to))
    }

    /// A second name; never over a file that is there.
    pub fn link(&self, from: &Path, to: &Path) -> io::Result<()> {
        self.work(|| fs::hard_link(from, to))
    }

    pub fn remove(&self, path: &Path) -> io::Result<()> {
        self.work(|| fs::remove_file(path))
    }

    /// Makes the names of a folder last, where the file system can do that.
    pub fn sync_folder(&self, path: &Path) -> io::Result<()> {
        self.work(|| match File::open(path)?.sync_all() {
            Err(error)
                if matches!(error.kind(), ErrorKind::InvalidInput | ErrorKind::Unsupported) =>
            {
                Ok(())
            }
            synced => synced,
        })
    }
}

/// Gives the file the owner, the group and the mode of an old one, as far as this
/// user may. Where the group cannot be kept, it may do what all others may.
fn take_over(file: &File, old: &Metadata) -> io::Result<()> {
    let (new, mut mode) = (file.metadata()?, old.mode() & 0o777);
    if new.gid() != old.gid() && fchown(file, None, Some(old.gid())).is_err() {
        mode = mode & !0o070 | (mode & 0o007) << 3;
    }
    if new.uid() != old.uid() {
        // Only root may give a file away.
        let _ = fchown(file, Some(old.uid()), None);
    }
    match new.mode() & 0o777 == mode {
        true => Ok(()),
        false => file.set_permissions(Permissions::from_mode(mode)),
    }
}

/// What is read of a file that does not change meanwhile.
pub fn steady<T>(file: &mut File, call: impl FnOnce(&mut File) -> io::Result<T>) -> io::Result<T> {
    let state = |file: &File| {
        file.metadata().map(|now| (now.len(), now.mtime(), now.mtime_nsec(), now.is_file()))
    };
    let before = state(file)?;
    let read = call(file)?;
    match before.3 && state(file)? != before {
        true => Err(io::Error::other("it changed while it was read")),
        false => Ok(read),
    }
}

/// All bytes, up to the limit.
pub fn read(from: impl Read) -> io::Result<Vec<u8>> {
    let mut bytes = Vec::new();
    from.take(READ_LIMIT).read_to_end(&mut bytes)?;
    Ok(bytes)
}
