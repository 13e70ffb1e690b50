//! Links `libkanzhulet.a`. It is looked for in the folder that the environment variable KANZHULET_LIB names, as the
//! `lib` that `./install` fills, or else where the repository's own tests build it.

use std::env;
use std::path::{Path, PathBuf};

fn main() {
    let folder = match env::var_os("KANZHULET_LIB") {
        Some(folder) => PathBuf::from(folder),
        None => Path::new(env!("CARGO_MANIFEST_DIR")).join("../../target/library"),
    };
    println!("cargo:rerun-if-env-changed=KANZHULET_LIB");
    println!("cargo:rerun-if-changed={}", folder.join("libkanzhulet.a").display());
    println!("cargo:rustc-link-search=native={}", folder.display());
    println!("cargo:rustc-link-lib=static=kanzhulet");
}
