//! Builds the C reader of c_reader/, to be called from Rust.

use std::env;
use std::path::PathBuf;
use std::process::Command;

const FLAGS: [&str; 6] = ["-std=c99", "-pedantic", "-Wall", "-Wextra", "-Werror", "-O2"];

fn run(command: &mut Command) {
    let status = command.status().unwrap_or_else(|e| panic!("{command:?}: {e}"));
    assert!(status.success(), "{command:?}: {status}");
}

fn main() {
    let out = PathBuf::from(env::var_os("OUT_DIR").expect("cargo sets it"));
    let (object, archive) = (out.join("reader.o"), out.join("libc_reader.a"));
    println!("cargo:rerun-if-changed=c_reader");
    run(Command::new("gcc").args(FLAGS).arg("-c").arg("c_reader/reader.c").arg("-o").arg(&object));
    run(Command::new("ar").arg("crs").arg(&archive).arg(&object));
    println!("cargo:rustc-link-search=native={}", out.display());
    println!("cargo:rustc-link-lib=static=c_reader");
}
