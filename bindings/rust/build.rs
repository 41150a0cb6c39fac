//! Links the proved archive that `tools/prove staticlib capi` makes: target/staticlib of the project, or the folder that SUVVOKAL_ARCHIVE names.
use std::path::PathBuf;

fn main() {
    println!("cargo:rerun-if-env-changed=SUVVOKAL_ARCHIVE");
    let folder = match std::env::var_os("SUVVOKAL_ARCHIVE") {
        Some(named) => PathBuf::from(named),
        None => PathBuf::from(std::env::var_os("CARGO_MANIFEST_DIR").unwrap()).join("../../target/staticlib"),
    };
    let archive = folder.join("libcapi.a");
    println!("cargo:rerun-if-changed={}", archive.display());
    if !archive.is_file() {
        panic!("{} is not there: `tools/prove staticlib capi` makes it", archive.display());
    }
    println!("cargo:rustc-link-search=native={}", folder.display());
    println!("cargo:rustc-link-lib=static=capi");
}
