//! Where a feed comes from: a folder or a zip file.

use crate::feed::Feed;
use crate::folder::{self, cannot};
use crate::zip;
use std::fs;
use std::path::Path;

/// Reads a feed, or says in a line for each what is in the way.
pub fn read(path: &Path, follow_links: bool) -> Result<Feed, String> {
    let about = fs::metadata(path).map_err(|error| cannot(path, &error.to_string()))?;
    if about.is_dir() {
        folder::read(path, follow_links)
    } else if about.is_file() {
        zip::read(path)
    } else {
        Err(cannot(path, "a feed is a folder or a zip file"))
    }
}
