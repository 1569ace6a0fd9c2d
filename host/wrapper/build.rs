//! Links libmontrakit.a from the folder that MONTRAKIT_LIB names, or else from target/staticlib of the
//! repository, where `host/library` puts it.

use std::env;
use std::path::{Path, PathBuf};

fn folder() -> PathBuf {
    match env::var_os("MONTRAKIT_LIB") {
        Some(named) if !named.is_empty() => named.into(),
        _ => Path::new(env!("CARGO_MANIFEST_DIR")).join("../../target/staticlib"),
    }
}

fn main() {
    println!("cargo::rerun-if-env-changed=MONTRAKIT_LIB");
    let folder = folder();
    if !folder.is_absolute() {
        println!("cargo::error=MONTRAKIT_LIB has to be an absolute path");
        return;
    }
    let archive = folder.join("libmontrakit.a");
    println!("cargo::rerun-if-changed={}", archive.display());
    println!("cargo::rustc-link-search=native={}", folder.display());
    println!("cargo::rustc-link-lib=static=montrakit");
    if !archive.is_file() {
        let place = archive.display();
        println!("cargo::warning=there is no {place}: types can be checked, but nothing linked");
        println!("cargo::warning=`host/library` makes it in target/staticlib; MONTRAKIT_LIB names another folder");
    }
}
