//! Files of raw bytes.

use std::fs;
use std::path::{Path, PathBuf};

use crate::Failure;

/// The bytes of a file.
pub fn read(path: &Path) -> Result<Vec<u8>, Failure> {
    fs::read(path).map_err(|error| Failure::new(format!("cannot read {}: {error}", path.display())))
}

/// Writes a file.
pub fn write(path: &Path, bytes: &[u8]) -> Result<(), Failure> {
    fs::write(path, bytes)
        .map_err(|error| Failure::new(format!("cannot write {}: {error}", path.display())))
}

/// Fails if an output would overwrite one of these files.
pub fn must_keep(output: Option<&Path>, kept: &[Option<&Path>]) -> Result<(), Failure> {
    let Some(output) = output else {
        return Ok(());
    };
    let target = identity(output);
    match kept.iter().flatten().find(|kept| identity(kept) == target) {
        Some(_) => Err(Failure::new(format!(
            "{} is named for two purposes and would be overwritten",
            output.display()
        ))),
        None => Ok(()),
    }
}

/// The same path for two names of the same file.
fn identity(path: &Path) -> PathBuf {
    fs::canonicalize(path).unwrap_or_else(|_| path.to_path_buf())
}
