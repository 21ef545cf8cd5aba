//! Links the static libraries that `tools/staticlib` writes: `gateway` for the feature `book`, `fix` for the feature `fix`. They
//! stand in `target/staticlib` of the repository, or in the folder that `JUBAFIYE_LIB` names. If one is missing, the build
//! ends here with one message and never reaches the linker.
//!
//! What is linked is a copy in which each function begins with `jubafiye_` (`host/prefix`): the library's own names, `check` or
//! `start`, could be another shared object's too.

use std::env;
use std::path::{Path, PathBuf};
use std::process::Command;

/// A library of the crate: the feature that wants it, and its name.
const LIBRARIES: [(&str, &str); 2] = [("CARGO_FEATURE_BOOK", "gateway"), ("CARGO_FEATURE_FIX", "fix")];

fn main() {
    println!("cargo::rerun-if-env-changed=JUBAFIYE_LIB");
    for (feature, name) in LIBRARIES {
        if env::var_os(feature).is_none() {
            continue;
        }
        match folder(name).and_then(|folder| prefixed(&folder, name)) {
            Ok(copy) => {
                println!("cargo::rustc-link-search=native={}", copy.display());
                println!("cargo::rustc-link-lib=static=jubafiye_{name}");
            }
            Err(missing) => println!("cargo::error={missing}"),
        }
    }
}

/// The folder that holds a library, or what is missing and how to get it.
fn folder(name: &str) -> Result<PathBuf, String> {
    let target = |key| env::var(key).unwrap_or_default();
    let (arch, os) = (target("CARGO_CFG_TARGET_ARCH"), target("CARGO_CFG_TARGET_OS"));
    if (arch.as_str(), os.as_str()) != ("x86_64", "linux") {
        return Err(format!("the proved library is built for x86_64 linux alone, not for {arch} {os}"));
    }
    let named = env::var_os("JUBAFIYE_LIB").filter(|named| !named.is_empty()).map(PathBuf::from);
    let usual = || Path::new(env!("CARGO_MANIFEST_DIR")).with_file_name("target").join("staticlib");
    let told = if named.is_some() { "JUBAFIYE_LIB names it" } else { "JUBAFIYE_LIB names no other folder" };
    let folder = named.unwrap_or_else(usual);
    let folder = folder.canonicalize().unwrap_or(folder);
    let library = folder.join(format!("lib{name}.a"));
    println!("cargo::rerun-if-changed={}", library.display());
    if library.is_file() {
        return Ok(folder);
    }
    Err(format!(
        "the proved library lib{name}.a is not in the folder {} ({told}). Make it with `tools/staticlib {name}` in the \
         repository's root, which writes target/staticlib/lib{name}.a, or set JUBAFIYE_LIB to a folder that has one",
        folder.display()
    ))
}

/// The folder with the copy whose functions have a prefix, or why there is none.
fn prefixed(folder: &Path, name: &str) -> Result<PathBuf, String> {
    let script = Path::new(env!("CARGO_MANIFEST_DIR")).join("prefix");
    println!("cargo::rerun-if-changed={}", script.display());
    let copies = PathBuf::from(env::var_os("OUT_DIR").unwrap_or_default());
    let (from, to) = (folder.join(format!("lib{name}.a")), copies.join(format!("libjubafiye_{name}.a")));
    println!("cargo::rustc-env=JUBAFIYE_{}={}", name.to_uppercase(), to.display());
    let run = Command::new(&script).arg(&from).arg(&to).output();
    match run {
        Ok(output) if output.status.success() => Ok(copies),
        Ok(output) => {
            Err(format!("{}: {}", script.display(), String::from_utf8_lossy(&output.stderr).trim()))
        }
        Err(error) => Err(format!("{}: {error}", script.display())),
    }
}
