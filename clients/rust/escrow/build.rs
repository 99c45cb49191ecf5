//! Links `libescrow_c.so`: the file that `$ESCROW_LIBRARY` names, or the one that tools/library of this repository finds. It is
//! copied into the build, where `cargo run` and `cargo test` find it; who installs a program puts it on the loader's path.
use std::path::PathBuf;
use std::process::Command;
use std::{env, fs};

/// Where the library is, or why it is nowhere.
fn library() -> Result<PathBuf, String> {
    if let Some(named) = env::var_os("ESCROW_LIBRARY") {
        return Ok(named.into());
    }
    let finder = PathBuf::from(env::var("CARGO_MANIFEST_DIR").expect("cargo tells it")).join("../../../tools/library");
    let found = Command::new(&finder).output().map_err(|why| format!("{}: {why}", finder.display()))?;
    if !found.status.success() {
        return Err(String::from_utf8_lossy(&found.stderr).into_owned());
    }
    Ok(String::from_utf8_lossy(&found.stdout).trim_end().into())
}

fn main() {
    println!("cargo:rerun-if-env-changed=ESCROW_LIBRARY");
    let out = PathBuf::from(env::var("OUT_DIR").expect("cargo tells it"));
    let library = library().unwrap_or_else(|why| panic!("libescrow_c.so isn't here: name it by $ESCROW_LIBRARY. {why}"));
    println!("cargo:rerun-if-changed={}", library.display());
    fs::copy(&library, out.join("libescrow_c.so")).unwrap_or_else(|why| panic!("{}: {why}", library.display()));
    println!("cargo:rustc-link-search=native={}", out.display());
    println!("cargo:rustc-link-lib=dylib=escrow_c");
}
