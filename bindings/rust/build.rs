// Tells where the archive of the proved library is: the folder that PONYBOLLARD_LIB names, else the one that bindings/library fills.
use std::path::PathBuf;

fn main() {
    println!("cargo:rerun-if-env-changed=PONYBOLLARD_LIB");
    let folder = match std::env::var_os("PONYBOLLARD_LIB") {
        Some(folder) => PathBuf::from(&folder).canonicalize().unwrap_or_else(|why| panic!("PONYBOLLARD_LIB names no folder, {folder:?}: {why}")),
        None => PathBuf::from(std::env::var_os("CARGO_MANIFEST_DIR").unwrap()).join("../../target/library"),
    };
    let archive = folder.join("libcapi.a");
    println!("cargo:rerun-if-changed={}", archive.display());
    if !archive.exists() {
        panic!("{} is missing: bindings/library builds it, or PONYBOLLARD_LIB names its folder", archive.display());
    }
    println!("cargo:rustc-link-search=native={}", folder.display());
    println!("cargo:rustc-link-lib=static=capi");
}
