//! Links the proved code: every archive libfluturenc*.a of the folder that FLUTURENC_LIBS names, or of the one that bin/build writes to.

use std::env;
use std::path::PathBuf;

fn main() {
    let here = PathBuf::from(env::var_os("CARGO_MANIFEST_DIR").expect("cargo sets it"));
    let folder = match env::var_os("FLUTURENC_LIBS") {
        Some(path) => PathBuf::from(path),
        None => here.join("../target/staticlib"),
    };
    let folder = folder.canonicalize().unwrap_or_else(|e| panic!("{}: {e}; run independent/run", folder.display()));
    println!("cargo:rerun-if-env-changed=FLUTURENC_LIBS");
    println!("cargo:rerun-if-changed={}", folder.display());
    println!("cargo:rustc-link-search=native={}", folder.display());
    for entry in folder.read_dir().expect("a folder").flatten() {
        let file = entry.file_name().into_string().unwrap_or_default();
        if let Some(name) = file.strip_prefix("lib").and_then(|f| f.strip_suffix(".a")).filter(|n| n.starts_with("fluturenc")) {
            println!("cargo:rerun-if-changed={}", entry.path().display());
            println!("cargo:rustc-link-lib=static={name}");
        }
    }
}
