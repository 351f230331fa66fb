//! Links the archive that `tools/archive` writes.

fn main() {
    let here = std::env::var("CARGO_MANIFEST_DIR").expect("cargo tells the crate's folder");
    let folder = format!("{here}/../../target/staticlib");
    println!("cargo:rerun-if-changed={folder}/libtaborumbra.a");
    println!("cargo:rustc-link-search=native={folder}");
    println!("cargo:rustc-link-lib=static=taborumbra");
}
