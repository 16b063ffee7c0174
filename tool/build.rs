//! Links the proved library, which `tools/library` writes.

fn main() {
    let folder = concat!(env!("CARGO_MANIFEST_DIR"), "/../target/staticlib");
    println!("cargo:rustc-link-search=native={folder}");
    println!("cargo:rustc-link-lib=static=policybook");
    println!("cargo:rerun-if-changed={folder}/libpolicybook.a");
}
