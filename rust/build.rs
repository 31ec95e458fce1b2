//! Finds libstall.a: in the folder named by the environment variable STALL_LIB_DIR, or in ../target/staticlib, where
//! `tools/build stall` puts it.
use std::env;
use std::path::{Path, PathBuf};

fn main() {
    println!("cargo:rerun-if-env-changed=STALL_LIB_DIR");
    let folder = match env::var_os("STALL_LIB_DIR") {
        Some(folder) => PathBuf::from(folder),
        None => Path::new(&env::var_os("CARGO_MANIFEST_DIR").unwrap()).join("../target/staticlib"),
    };
    let library = folder.join("libstall.a");
    println!("cargo:rerun-if-changed={}", library.display());
    if !library.is_file() {
        panic!(
            "{} is not there: run `tools/build stall` in the repository, or set STALL_LIB_DIR to the folder of libstall.a",
            library.display()
        );
    }
    println!("cargo:rustc-link-search=native={}", folder.display());
    println!("cargo:rustc-link-lib=static=stall");
}
