//! The 3d files of a folder, in the order of their names.

use crate::desk::{Desk, Status};
use crate::text::{reason, shown};
use std::fs;
use std::os::unix::ffi::OsStrExt;
use std::path::{Path, PathBuf};

/// What is under a folder.
#[derive(Default)]
pub struct Walked {
    /// The files whose names end in `.3d`.
    pub files: Vec<PathBuf>,
    /// Folders and files that cannot be looked at: each was told.
    pub unread: Vec<PathBuf>,
}

/// Whether the name ends in `.3d`.
fn named(path: &Path) -> bool {
    let name = path.as_os_str().as_bytes();
    name.len() > 3 && name[name.len() - 3..].eq_ignore_ascii_case(b".3d")
}

/// The files under a folder whose names end in `.3d`. What cannot be looked at is
/// told, and is trouble.
pub fn files(folder: &Path, desk: &mut Desk) -> (Vec<PathBuf>, Status) {
    let walked = walk(folder, desk);
    let status = if walked.unread.is_empty() { Status::Good } else { Status::Trouble };
    (walked.files, status)
}

/// Links to folders are not gone into. What is no plain file (a pipe would never
/// end) and links to nothing are not looked at.
pub fn walk(folder: &Path, desk: &mut Desk) -> Walked {
    let (mut walked, mut folders) = (Walked::default(), vec![folder.to_path_buf()]);
    while let Some(folder) = folders.pop() {
        let entries = match fs::read_dir(&folder).and_then(Iterator::collect::<Result<Vec<_>, _>>) {
            Ok(mut entries) => {
                entries.sort_by_key(|entry| entry.file_name());
                entries
            }
            Err(error) => {
                walked.untold(folder, &reason(&error), desk);
                continue;
            }
        };
        for entry in entries {
            let path = entry.path();
            match (entry.file_type(), fs::metadata(&path)) {
                (Ok(kind), _) if kind.is_dir() => folders.push(path),
                _ if !named(&path) => {}
                (_, Ok(there)) if there.is_dir() => {}
                (_, Ok(there)) if there.is_file() => walked.files.push(path),
                (_, Ok(_)) => walked.untold(path, "it is no plain file", desk),
                (_, Err(error)) => walked.untold(path, &reason(&error), desk),
            }
        }
    }
    walked.files.sort();
    walked
}

impl Walked {
    fn untold(&mut self, path: PathBuf, words: &str, desk: &mut Desk) {
        desk.error(&format!("{}: {words}", shown(&path)));
        self.unread.push(path);
    }
}
