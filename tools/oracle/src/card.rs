//! A bundle's folders and files unpacked into a private root, where the original's file calls
//! look. Each path of the bundle is below the private root, which is the bundle's `/`, so that
//! all lengths grow alike. A file's content is its path in the bundle.
//!
//! The root is kept from bundle to bundle: only what differs is made or removed.

use std::collections::HashSet;
use std::ffi::OsStr;
use std::os::unix::ffi::OsStrExt;
use std::os::unix::fs::DirBuilderExt;
use std::path::{Path, PathBuf};
use std::{env, fs, io, process};

use bundle_format::Bundle;

use crate::source::CanonPath;

pub struct Card {
    root: PathBuf,
    folders: HashSet<Vec<u8>>,
    files: HashSet<Vec<u8>>,
}

impl Card {
    pub fn new() -> io::Result<Card> {
        let memory = Path::new("/dev/shm");
        let parent = match memory.is_dir() {
            true => memory.to_path_buf(),
            false => env::temp_dir(),
        };
        let mut number = 0;
        let root = loop {
            let root = parent.join(format!("oracle-{}-{number}", process::id()));
            match fs::DirBuilder::new().mode(0o700).create(&root) {
                Ok(()) => break root,
                Err(error) if error.kind() == io::ErrorKind::AlreadyExists => number += 1,
                Err(error) => return Err(error),
            }
        };
        Ok(Card {
            root: fs::canonicalize(root)?,
            folders: HashSet::new(),
            files: HashSet::new(),
        })
    }

    /// Leaves exactly the bundle's folders and files in the private root.
    pub fn unpack(&mut self, bundle: &Bundle) -> io::Result<()> {
        let folders: HashSet<&[u8]> = bundle.folders.iter().map(|path| &path[..]).collect();
        let files: HashSet<&[u8]> = bundle.files.iter().map(|file| &file.path[..]).collect();

        for path in missing_from(&files, &self.files) {
            fs::remove_file(self.at(&path))?;
            self.files.remove(&path);
        }
        for path in missing_from(&folders, &self.folders).into_iter().rev() {
            fs::remove_dir(self.at(&path))?;
            self.folders.remove(&path);
        }
        let mut new: Vec<&[u8]> = folders
            .into_iter()
            .filter(|path| !self.folders.contains(*path))
            .collect();
        new.sort_by_key(|path| path.len());
        for path in new {
            fs::create_dir(self.at(path))?;
            self.folders.insert(path.to_vec());
        }
        for path in files {
            if !self.files.contains(path) {
                fs::write(self.at(path), path)?;
                self.files.insert(path.to_vec());
            }
        }
        Ok(())
    }

    /// Empties the root.
    pub fn clear(&mut self) -> io::Result<()> {
        for entry in fs::read_dir(&self.root)? {
            let entry = entry?;
            match entry.file_type()?.is_dir() {
                true => fs::remove_dir_all(entry.path())?,
                false => fs::remove_file(entry.path())?,
            }
        }
        self.folders.clear();
        self.files.clear();
        Ok(())
    }

    /// The path in the private root of a path in the bundle.
    pub fn at(&self, path: &[u8]) -> PathBuf {
        let mut at = self.root.as_os_str().to_os_string();
        if path != b"/" {
            at.push(OsStr::from_bytes(path));
        }
        at.into()
    }

    /// The same, in the original's form.
    pub fn canon(&self, path: &[u8]) -> CanonPath {
        CanonPath::unverified(&self.at(path))
    }

    /// The path in the bundle of a path in the private root.
    pub fn listed<'a>(&self, path: &'a Path) -> &'a [u8] {
        let bytes = path.as_os_str().as_bytes();
        let path = bytes.strip_prefix(self.root.as_os_str().as_bytes());
        match path.expect("every path is below the private root") {
            [] => b"/",
            path => path,
        }
    }
}

/// What is made and no longer wanted, the shortest path first.
fn missing_from(wanted: &HashSet<&[u8]>, made: &HashSet<Vec<u8>>) -> Vec<Vec<u8>> {
    let mut missing: Vec<Vec<u8>> = made
        .iter()
        .filter(|path| !wanted.contains(&path[..]))
        .cloned()
        .collect();
    missing.sort_by_key(Vec::len);
    missing
}

impl Drop for Card {
    fn drop(&mut self) {
        let _ = fs::remove_dir_all(&self.root);
    }
}
