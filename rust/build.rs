//! Links libbittmelon.a from the first of these folders: the one that the environment variable BITTMELON_LIB names, if it is
//! set; target/staticlib in the repository, where tools/archive builds it, if it is there; lib/ under the prefix where
//! tools/install put this crate.
use std::env;
use std::path::{Path, PathBuf};

fn folder() -> PathBuf {
    if let Some(named) = env::var_os("BITTMELON_LIB") {
        return named.into();
    }
    let here = PathBuf::from(env::var_os("CARGO_MANIFEST_DIR").expect("cargo names the crate's folder"));
    let made = here.join("../target/staticlib");
    if has_archive(&made) {
        made
    } else {
        here.join("../../../lib")
    }
}

fn has_archive(folder: &Path) -> bool {
    folder.join("libbittmelon.a").is_file()
}

fn main() {
    println!("cargo:rerun-if-env-changed=BITTMELON_LIB");
    let folder = folder();
    if !has_archive(&folder) {
        panic!("no libbittmelon.a in {}: name its folder as BITTMELON_LIB", folder.display());
    }
    println!("cargo:rerun-if-changed={}", folder.join("libbittmelon.a").display());
    println!("cargo:rustc-link-search=native={}", folder.display());
    println!("cargo:rustc-link-lib=static=bittmelon");
}
