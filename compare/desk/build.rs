//! Links the archive that `scripts/build c_api` writes.

fn main() {
    let root = concat!(env!("CARGO_MANIFEST_DIR"), "/../../target/staticlib");
    println!("cargo:rustc-link-search=native={root}");
    println!("cargo:rustc-link-lib=static=c_api");
    println!("cargo:rerun-if-changed={root}/libc_api.a");
}
