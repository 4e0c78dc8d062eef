//! Links the archive of the proved library, target/staticlib/libvarpolicy.a of the repository, or
//! the one in the folder that VARPOLICY_LIB_DIR names.

use std::env;
use std::path::{Path, PathBuf};

fn main() {
    println!("cargo::rerun-if-env-changed=VARPOLICY_LIB_DIR");
    let folder = match env::var_os("VARPOLICY_LIB_DIR") {
        Some(folder) => PathBuf::from(folder),
        None => Path::new(env!("CARGO_MANIFEST_DIR")).join("../../target/staticlib"),
    };
    let archive = folder.join("libvarpolicy.a");
    println!("cargo::rerun-if-changed={}", archive.display());
    if !archive.is_file() {
        println!(
            "cargo::error={} is missing: run `rust/archives varpolicy` at the root of the repository first",
            archive.display()
        );
        return;
    }
    println!("cargo::rustc-link-search=native={}", folder.display());
    println!("cargo::rustc-link-lib=static=varpolicy");
}
