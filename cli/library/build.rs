//! Links the proved library that `scripts/staticlib.sh zs` writes to target/staticlib, or the one in the folder that ZS_LIBRARY_DIR names.
fn main() {
    let usual = concat!(env!("CARGO_MANIFEST_DIR"), "/../../target/staticlib");
    let folder = std::env::var("ZS_LIBRARY_DIR").unwrap_or_else(|_| usual.to_string());
    println!("cargo:rerun-if-env-changed=ZS_LIBRARY_DIR");
    println!("cargo:rustc-link-search=native={folder}");
    println!("cargo:rustc-link-lib=static=zs");
    println!("cargo:rerun-if-changed={folder}/libzs.a");
}
