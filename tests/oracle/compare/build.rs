//! Links the static library that `ORACLE_LIB` names, if it names one, and says so by the
//! configuration `library`.

use std::path::PathBuf;
use std::{env, fs};

fn main() {
    println!("cargo::rustc-check-cfg=cfg(library)");
    println!("cargo::rerun-if-env-changed=ORACLE_LIB");
    let Some(library) = env::var_os("ORACLE_LIB").filter(|path| !path.is_empty()).map(PathBuf::from) else {
        return;
    };
    println!("cargo::rerun-if-changed={}", library.display());
    let out = PathBuf::from(env::var_os("OUT_DIR").expect("cargo sets OUT_DIR"));
    fs::copy(&library, out.join("libported.a"))
        .unwrap_or_else(|error| panic!("{}: {error}", library.display()));
    println!("cargo::rustc-link-search=native={}", out.display());
    println!("cargo::rustc-link-lib=static=ported");
    println!("cargo::rustc-cfg=library");
}
