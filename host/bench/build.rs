//! Links the proved store's static library, which `tools/staticlib` writes, and SQLite.

fn main() {
    let here = std::env::var("CARGO_MANIFEST_DIR").expect("cargo says where the crate is");
    let library = format!("{here}/../../target/staticlib");
    println!("cargo:rerun-if-changed={library}/librepository.a");
    println!("cargo:rustc-link-search=native={library}");
    println!("cargo:rustc-link-lib=static=repository");
    println!("cargo:rustc-link-lib=sqlite3");
}
