//! Links libtarredlath.a, and says in one line why it can't.

use std::env;
use std::path::{Path, PathBuf};

const ARCHIVE: &str = "libtarredlath.a";
const FOLDER_VARIABLE: &str = "TARREDLATH_LIB_DIR";

fn main() {
    println!("cargo:rerun-if-env-changed={FOLDER_VARIABLE}");
    if let Err(reason) = link() {
        println!("cargo::error={reason}");
    }
}

fn link() -> Result<(), String> {
    check_target()?;
    let folder = folder();
    let archive = folder.join(ARCHIVE);
    println!("cargo:rerun-if-changed={}", archive.display());
    if !archive.is_file() {
        return Err(format!(
            "{} is not there: run `./build-library` in the repository's root, \
             or set {FOLDER_VARIABLE} to its folder",
            archive.display()
        ));
    }
    println!("cargo:rustc-link-search=native={}", folder.display());
    println!("cargo:rustc-link-lib=static=tarredlath");
    Ok(())
}

/// The archive has code for one kind of machine alone.
fn check_target() -> Result<(), String> {
    let of = |name: &str| env::var(format!("CARGO_CFG_TARGET_{name}")).unwrap_or_default();
    if of("ARCH") == "x86_64" && of("OS") == "linux" && of("POINTER_WIDTH") == "64" {
        return Ok(());
    }
    Err(format!(
        "{ARCHIVE} is for x86-64 Linux, and the target is {}: \
         build with `--target x86_64-unknown-linux-gnu`",
        env::var("TARGET").unwrap_or_default()
    ))
}

fn folder() -> PathBuf {
    if let Some(folder) = env::var_os(FOLDER_VARIABLE) {
        return PathBuf::from(folder);
    }
    let manifest = env::var_os("CARGO_MANIFEST_DIR").unwrap_or_default();
    Path::new(&manifest).join("../../target/staticlib")
}
