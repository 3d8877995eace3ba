//! Which file is which, whatever it is called: links and other names lead to the same one.

use std::fs::{File, Metadata};
use std::os::fd::AsFd;
use std::os::unix::fs::MetadataExt;
use std::path::Path;

/// A plain file's device and number in it.
#[derive(Clone, Copy, Debug, PartialEq, Eq, PartialOrd, Ord)]
pub struct Identity(u64, u64);

impl Identity {
    /// Returns the identity of a plain file; none of a device or a pipe, which may be read and written at once.
    pub fn of(known: &Metadata) -> Option<Identity> {
        known.is_file().then(|| Identity(known.dev(), known.ino()))
    }

    /// Returns the identity of the file at a path, behind all links.
    pub fn at(path: &Path) -> Option<Identity> {
        std::fs::metadata(path)
            .ok()
            .and_then(|known| Identity::of(&known))
    }

    /// Returns the identity of what is open, such as standard input.
    pub fn of_open(stream: &impl AsFd) -> Option<Identity> {
        let file = File::from(stream.as_fd().try_clone_to_owned().ok()?);
        Identity::of(&file.metadata().ok()?)
    }
}
