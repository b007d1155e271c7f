//! Links the product's archive: `liborizhgum.a` of the folder that `ARCHIVE`
//! names, or of `../target/prefix/lib`.

use std::path::{Path, PathBuf};
use std::process::exit;

fn main() {
    let folder = match std::env::var_os("ARCHIVE") {
        Some(folder) => PathBuf::from(folder),
        None => Path::new(env!("CARGO_MANIFEST_DIR")).join("../target/prefix/lib"),
    };
    let archive = folder.join("liborizhgum.a");
    println!("cargo:rerun-if-env-changed=ARCHIVE");
    println!("cargo:rerun-if-changed={}", archive.display());
    if !archive.is_file() {
        eprintln!(
            "{} is missing: run `./install target/prefix` at the top of the repository, or name the archive's folder in ARCHIVE",
            archive.display()
        );
        exit(1);
    }
    println!("cargo:rustc-link-search=native={}", folder.display());
    println!("cargo:rustc-link-lib=static=orizhgum");
}
