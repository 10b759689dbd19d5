//! Links the checksums that `scripts/staticlib.sh bench_exports` writes to target/staticlib (or those in the folder that
//! BENCH_EXPORTS_LIBRARY_DIR names), and the libraries of others that they are compared with.
fn main() {
    let usual = concat!(env!("CARGO_MANIFEST_DIR"), "/../target/staticlib");
    let folder = std::env::var("BENCH_EXPORTS_LIBRARY_DIR").unwrap_or_else(|_| usual.to_string());
    println!("cargo:rerun-if-env-changed=BENCH_EXPORTS_LIBRARY_DIR");
    println!("cargo:rerun-if-changed={folder}/libbench_exports.a");
    println!("cargo:rustc-link-search=native={folder}");
    println!("cargo:rustc-link-lib=static=bench_exports");
    for library in ["lzma", "crypto", "lmdb"] {
        println!("cargo:rustc-link-lib=dylib={library}");
    }
}
