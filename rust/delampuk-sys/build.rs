//! Links the archive that `tools/native` writes, or the one in the folder that `DELAMPUK_ARCHIVE` names in full.

use std::path::{Path, PathBuf};
use std::{env, process};

fn main() {
    let folder = match env::var_os("DELAMPUK_ARCHIVE") {
        Some(folder) => PathBuf::from(folder),
        None => Path::new(env!("CARGO_MANIFEST_DIR")).join("../../target/native"),
    };
    let archive = folder.join("libdelampuk.a");
    println!("cargo:rerun-if-env-changed=DELAMPUK_ARCHIVE");
    println!("cargo:rerun-if-changed={}", archive.display());
    if !archive.is_file() {
        eprintln!("there is no {}: run `sh tools/native` first", archive.display());
        process::exit(1);
    }
    println!("cargo:rustc-link-search=native={}", folder.display());
    println!("cargo:rustc-link-lib=static=delampuk");
}
