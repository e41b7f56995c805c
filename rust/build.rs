//! Links the archive of this target, or the one in NOZZLEGORSE_LIB_DIR.
use std::{env, path::PathBuf};

fn main() {
    println!("cargo:rerun-if-env-changed=NOZZLEGORSE_LIB_DIR");
    let [root, target] = ["CARGO_MANIFEST_DIR", "TARGET"].map(|name| env::var(name).unwrap());
    let folder = env::var_os("NOZZLEGORSE_LIB_DIR").map_or(PathBuf::from(root).join("lib").join(target), PathBuf::from);
    let archive = folder.join("libnozzlegorse.a");
    assert!(archive.exists(), "no {archive:?}: NOZZLEGORSE_LIB_DIR names the folder of libnozzlegorse.a");
    println!("cargo:rerun-if-changed={}", archive.display());
    println!("cargo:rustc-link-search=native={}", folder.display());
    println!("cargo:rustc-link-lib=static=nozzlegorse");
}
