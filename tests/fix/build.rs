//! Links the static library that `FIX_LIB` names, if it names one, and says which entries it has by the
//! configuration `library`.

use std::path::PathBuf;
use std::{env, fs};

const ENTRIES: [&str; 3] = ["fix_write", "fix_read", "message_at"];

fn main() {
    println!("cargo::rustc-check-cfg=cfg(library, values(\"fix_write\", \"fix_read\", \"message_at\"))");
    println!("cargo::rerun-if-env-changed=FIX_LIB");
    let Some(library) = env::var_os("FIX_LIB").filter(|path| !path.is_empty()).map(PathBuf::from) else {
        return;
    };
    println!("cargo::rerun-if-changed={}", library.display());
    let out = PathBuf::from(env::var_os("OUT_DIR").expect("cargo sets OUT_DIR"));
    fs::copy(&library, out.join("libtried.a"))
        .unwrap_or_else(|error| panic!("{}: {error}", library.display()));
    println!("cargo::rustc-link-search=native={}", out.display());
    println!("cargo::rustc-link-lib=static=tried");
    let bytes = fs::read(&library).expect("the library was copied");
    for entry in ENTRIES {
        let name = [entry.as_bytes(), b"\0"].concat();
        if bytes.windows(name.len()).any(|window| window == name) {
            println!("cargo::rustc-cfg=library=\"{entry}\"");
        }
    }
}
