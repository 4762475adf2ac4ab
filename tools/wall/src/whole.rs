//! Files that take their places whole: each has no name until it is written, then all are named and moved.
use crate::held::{named, Held, NAMELESS};
use std::fs::{self, File, Metadata, OpenOptions};
use std::io::{self, Write};
use std::os::unix::fs::{fchown, MetadataExt, OpenOptionsExt, PermissionsExt};
use std::path::{Path, PathBuf};

/// How many symbolic links are followed, as the system has it.
const LINKS: usize = 40;

/// A file that is written, where it goes, and the name that it has on the way.
struct One {
    path: PathBuf,
    beside: PathBuf,
    /// None where it has its name already.
    nameless: Option<File>,
}

/// Files that are written and wait for their places. Those that don't get there are taken away.
#[derive(Default)]
pub struct Ready {
    list: Vec<One>,
    held: Option<Held>,
}

/// The file that a name leads to over symbolic links; the last may lead to one that isn't there yet.
pub fn followed(path: &Path) -> io::Result<PathBuf> {
    let mut path = path.to_path_buf();
    for _ in 0..LINKS {
        match fs::read_link(&path) {
            Ok(target) => path = folder(&path).join(target),
            Err(_) => return Ok(path),
        }
    }
    Err(io::Error::other("too many symbolic links"))
}

fn folder(path: &Path) -> &Path {
    path.parent().filter(|folder| !folder.as_os_str().is_empty()).unwrap_or(Path::new("."))
}

impl Ready {
    /// Writes a file for a place. Some file systems know no files without a name: there it has one from the start, and
    /// signals are held back from then on.
    pub fn add(&mut self, path: PathBuf, bytes: &[u8]) -> io::Result<()> {
        let beside = folder(&path).join(format!(".wall.{}.{}.part", std::process::id(), self.list.len()));
        let old = fs::metadata(&path).ok();
        let opened = OpenOptions::new().write(true).mode(0o666).custom_flags(NAMELESS).open(folder(&path));
        let nameless = match opened {
            Ok(file) if Path::new("/proc/self/fd").exists() => Some(file),
            _ => None,
        };
        if nameless.is_none() {
            self.held.get_or_insert_with(Held::new);
        }
        self.list.push(One { path, beside, nameless });
        let one = &self.list[self.list.len() - 1];
        match &one.nameless {
            Some(file) => filled(file, bytes, old.as_ref()),
            None => filled(&OpenOptions::new().write(true).create_new(true).open(&one.beside)?, bytes, old.as_ref()),
        }
    }

    /// Moves all files to their places.
    pub fn take_places(mut self) -> Result<(), (PathBuf, io::Error)> {
        self.held.get_or_insert_with(Held::new);
        for one in &mut self.list {
            if let Some(file) = one.nameless.take() {
                named(&file, &one.beside).map_err(|error| (one.path.clone(), error))?;
            }
        }
        self.list
            .iter()
            .try_for_each(|one| fs::rename(&one.beside, &one.path).map_err(|error| (one.path.clone(), error)))
    }
}

impl Drop for Ready {
    fn drop(&mut self) {
        for one in self.list.iter().filter(|one| one.nameless.is_none()) {
            // It isn't there where it has taken its place.
            let _ = fs::remove_file(&one.beside);
        }
    }
}

/// Writes a file, with the mode of the old one and, where that is allowed, its owner and group.
fn filled(mut file: &File, bytes: &[u8], old: Option<&Metadata>) -> io::Result<()> {
    file.write_all(bytes)?;
    if let Some(old) = old {
        if fchown(file, Some(old.uid()), Some(old.gid())).is_err() {
            let _ = fchown(file, None, Some(old.gid()));
        }
        file.set_permissions(fs::Permissions::from_mode(old.permissions().mode() & 0o7777))?;
    }
    file.sync_all()
}
