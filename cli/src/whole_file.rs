//! Files that have their name only when they are whole.

use std::fs::{self, File, OpenOptions};
use std::io::{ErrorKind, Write};
use std::path::{Path, PathBuf};
use std::process;

/// A file under another name in the folder of the one that it is to be; it goes where
/// it is not named.
pub struct WholeFile<'a> {
    named: &'a Path,
    written: PathBuf,
}

impl<'a> WholeFile<'a> {
    /// Writes the bytes so that they are on the disk.
    pub fn write(named: &'a Path, bytes: &[u8], force: bool) -> Result<Self, String> {
        if !force && named.symlink_metadata().is_ok() {
            return Err("is there already; --force replaces it".to_string());
        }
        if named.is_dir() {
            return Err("is a folder".to_string());
        }
        let name = named.file_name().ok_or("is no name of a file")?;
        let mut other = name.to_os_string();
        other.push(format!(".{}.part", process::id()));
        let written = named.with_file_name(other);
        let opened = OpenOptions::new()
            .write(true)
            .create_new(true)
            .open(&written);
        let mut file = opened.map_err(|error| format!("cannot be written: {error}"))?;
        let whole = WholeFile { named, written };
        let done = file.write_all(bytes).and_then(|()| file.sync_all());
        done.map_err(|error| format!("cannot be written: {error}"))?;
        Ok(whole)
    }

    /// What stands in the file now.
    pub fn read_back(&self) -> Result<Vec<u8>, String> {
        fs::read(&self.written).map_err(|error| format!("cannot be read back: {error}"))
    }

    /// Gives the file its name, at once; another that has it is replaced or stays.
    pub fn name(self, force: bool) -> Result<(), String> {
        let named = if force {
            fs::rename(&self.written, self.named)
        } else {
            self.name_new()
        };
        named.map_err(|error| match error.kind() {
            ErrorKind::AlreadyExists => "is there already; --force replaces it".to_string(),
            _ => format!("cannot be named: {error}"),
        })?;
        // The name is on the disk where its folder is; some folders cannot be asked.
        let folder = self
            .named
            .parent()
            .filter(|folder| *folder != Path::new(""));
        let _ = File::open(folder.unwrap_or(Path::new("."))).and_then(|folder| folder.sync_all());
        Ok(())
    }

    /// A link takes no name that is there; where there are no links, a look has to do.
    fn name_new(&self) -> std::io::Result<()> {
        match fs::hard_link(&self.written, self.named) {
            Err(error) if error.kind() != ErrorKind::AlreadyExists => {
                if self.named.symlink_metadata().is_ok() {
                    return Err(ErrorKind::AlreadyExists.into());
                }
                fs::rename(&self.written, self.named)
            }
            linked => linked,
        }
    }
}

impl Drop for WholeFile<'_> {
    fn drop(&mut self) {
        let _ = fs::remove_file(&self.written);
    }
}
