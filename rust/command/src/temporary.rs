//! A file beside the one that is to be written. It has a name that nobody can guess, is created by this process, and is removed if it is not put in place.

use crate::signals::{self, Watched};
use std::collections::hash_map::RandomState;
use std::fs::{self, File, Metadata};
use std::hash::{BuildHasher, Hasher};
use std::io::{self, Write};
use std::os::unix::fs::{fchown, MetadataExt};
use std::path::{Path, PathBuf};

pub struct Temporary {
    path: PathBuf,
    file: File,
    /// Whether it was put in place, and has this name no more.
    placed: bool,
    _watched: Watched,
}

impl Temporary {
    /// Creates an empty file in the folder of another one. Its name is short, however long the other's is.
    pub fn beside(target: &Path) -> io::Result<Temporary> {
        let has_name = target.file_name().is_some();
        if !has_name {
            return Err(io::Error::other("it is no file's name"));
        }
        let path = target.with_file_name(format!(".sitgurp-{:016x}{:016x}", random(), random()));
        let watched = signals::watch(&path);
        // exclusive: whatever has this name already, a planted link too, is an error
        let create = || File::options().write(true).create_new(true).open(&path);
        let file = signals::creating(create)?;
        Ok(Temporary {
            path,
            file,
            placed: false,
            _watched: watched,
        })
    }

    /// Writes the whole text, to the disk itself.
    pub fn write(&mut self, text: &[u8]) -> io::Result<()> {
        self.file.write_all(text)?;
        self.file.sync_all()
    }

    /// Takes over the rights of a file, and its owner where that is allowed.
    pub fn take_after(&self, other: &Metadata) -> io::Result<()> {
        let own = self.file.metadata()?;
        if (own.uid(), own.gid()) != (other.uid(), other.gid()) {
            // a user may not give files away; the content matters more
            fchown(&self.file, Some(other.uid()), Some(other.gid())).ok();
        }
        self.file.set_permissions(other.permissions())
    }

    /// Puts it in the place of another file, at once.
    pub fn put_in_place(mut self, target: &Path) -> io::Result<()> {
        fs::rename(&self.path, target)?;
        self.placed = true;
        Ok(())
    }
}

impl Drop for Temporary {
    fn drop(&mut self) {
        if !self.placed {
            // the error that led here is reported already
            fs::remove_file(&self.path).ok();
        }
    }
}

/// Returns a number that no other process can guess: the system's random keys are in it.
fn random() -> u64 {
    RandomState::new().build_hasher().finish()
}
