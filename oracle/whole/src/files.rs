//! The fonts below a folder.

use std::fs::{self, DirEntry};
use std::io::{self, Read};
use std::path::{Path, PathBuf};
use swash::FontDataRef;

/// A font that is larger is left out.
const LARGEST: u64 = 32 << 20;

const PACKED: [&[u8; 4]; 2] = [b"wOFF", b"wOF2"];

/// The files that are fonts, and what is left out, with the reason; both sorted.
#[derive(Default)]
pub struct Files {
    pub fonts: Vec<PathBuf>,
    pub left: Vec<(PathBuf, String)>,
}

impl Files {
    pub fn below(folder: &Path) -> io::Result<Files> {
        let mut files = Files::default();
        for entry in fs::read_dir(folder)? {
            files.add(&entry?);
        }
        files.fonts.sort();
        files.left.sort();
        Ok(files)
    }

    fn add(&mut self, entry: &DirEntry) {
        let path = entry.path();
        if let Err(why) = self.take(&path) {
            self.left.push((path, why.to_string()));
        }
    }

    fn take(&mut self, path: &Path) -> io::Result<()> {
        if fs::symlink_metadata(path)?.is_dir() {
            for entry in fs::read_dir(path)? {
                self.add(&entry?);
            }
            return Ok(());
        }
        if path.is_dir() {
            // it may lead back
            return self.leave(path, "a link to a folder");
        }
        if !path.is_file() {
            return self.leave(path, "no file, or a link that leads to none");
        }
        let mut start = vec![];
        fs::File::open(path)?.take(4).read_to_end(&mut start)?;
        if PACKED.iter().any(|mark| start == mark[..]) {
            return self.leave(path, "packed as WOFF");
        }
        if FontDataRef::new(&start).is_some() {
            if fs::metadata(path)?.len() > LARGEST {
                return self.leave(path, "larger than 32 MiB");
            }
            self.fonts.push(path.to_path_buf());
        }
        Ok(())
    }

    fn leave(&mut self, path: &Path, why: &str) -> io::Result<()> {
        self.left.push((path.to_path_buf(), why.to_string()));
        Ok(())
    }
}
