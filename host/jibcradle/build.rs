//! Links the proved store, `librepository.a`. It is looked for in the repository's
//! `target/staticlib`, or in the folder that the variable `JIBCRADLE_LIB` names.

use std::env;
use std::path::{Path, PathBuf};

const ARCHIVE: &str = "librepository.a";

/// The folder of the archive.
fn folder() -> PathBuf {
    println!("cargo::rerun-if-env-changed=JIBCRADLE_LIB");
    match env::var_os("JIBCRADLE_LIB") {
        Some(named) => PathBuf::from(named),
        None => {
            let here = env::var_os("CARGO_MANIFEST_DIR").expect("cargo names the crate's folder");
            Path::new(&here).join("../../target/staticlib")
        }
    }
}

fn main() {
    println!("cargo::rerun-if-changed=build.rs");
    let folder = folder();
    let archive = folder.join(ARCHIVE);
    println!("cargo::rerun-if-changed={}", archive.display());
    // Documentation and checks need no library; only what is linked does.
    if !archive.is_file() {
        println!(
            "cargo::warning={} isn't there, so nothing can be linked. Build it by `tools/staticlib` \
             at the repository's top, or name its folder by the variable JIBCRADLE_LIB.",
            archive.display()
        );
    }
    let folder = folder.canonicalize().unwrap_or(folder);
    println!("cargo::rustc-link-search=native={}", folder.display());
    println!("cargo::rustc-link-lib=static:-bundle=repository");
    // For the test of the C example.
    println!("cargo::rustc-env=JIBCRADLE_ARCHIVE={}", folder.join(ARCHIVE).display());
}
