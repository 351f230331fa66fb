//! Links the archive that `tools/archive` writes.

use std::env;
use std::path::Path;

const ARCHIVE: &str = "target/staticlib/libtaborumbra.a";

fn main() {
    let crate_folder = env::var("CARGO_MANIFEST_DIR").expect("cargo tells the crate's folder");
    let repository = Path::new(&crate_folder).join("../..");
    let archive = repository.join(ARCHIVE);
    println!("cargo:rerun-if-changed={}", archive.display());
    if !archive.is_file() {
        eprintln!("no {ARCHIVE}: run tools/archive");
        std::process::exit(1);
    }
    let folder = archive.parent().expect("a folder");
    println!("cargo:rustc-link-search=native={}", folder.display());
    println!("cargo:rustc-link-lib=static=taborumbra");
}
