//! Links the static library that `.ci/libraries export` writes.
use std::path::PathBuf;

fn main() {
    let here = PathBuf::from(std::env::var("CARGO_MANIFEST_DIR").unwrap());
    let library = here.join("../../target/staticlib");
    println!("cargo:rustc-link-search=native={}", library.display());
    println!("cargo:rustc-link-lib=static=export");
    println!(
        "cargo:rerun-if-changed={}",
        library.join("libexport.a").display()
    );
}
