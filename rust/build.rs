//! Links libjemuling.a from the folder that JEMULING_ARCHIVE names, or from where
//! `tools/build jemuling` leaves it.

use std::env;
use std::path::{Path, PathBuf};

fn main() {
    let built = Path::new(env!("CARGO_MANIFEST_DIR")).join("../target/staticlib");
    let folder = env::var_os("JEMULING_ARCHIVE").map_or(built, PathBuf::from);
    println!("cargo:rerun-if-env-changed=JEMULING_ARCHIVE");
    println!(
        "cargo:rerun-if-changed={}",
        folder.join("libjemuling.a").display()
    );
    println!("cargo:rustc-link-search=native={}", folder.display());
    println!("cargo:rustc-link-lib=static=jemuling");
}
