//! Links the proved archive: from TUSUCHIY_ARCHIVE_DIR, or from where `rt lib` in crates/tusuchiy_c writes it.

use std::env;
use std::path::PathBuf;

fn main() {
    println!("cargo:rerun-if-env-changed=TUSUCHIY_ARCHIVE_DIR");
    let package = PathBuf::from(env::var_os("CARGO_MANIFEST_DIR").expect("cargo names the package"));
    let folder = match env::var_os("TUSUCHIY_ARCHIVE_DIR") {
        Some(folder) => PathBuf::from(folder),
        None => package.join("../../crates/tusuchiy_c/out"),
    };
    let archive = folder.join("libtusuchiy_c.a");
    println!("cargo:rerun-if-changed={}", archive.display());
    if !archive.is_file() {
        eprintln!("there is no {}: run `rt lib` in crates/tusuchiy_c first", archive.display());
        std::process::exit(1);
    }
    println!("cargo:rustc-link-search=native={}", folder.display());
    println!("cargo:rustc-link-lib=static=tusuchiy_c");
}
