//! Copies the gateway's source, byte for byte, to the build folder and appends one line to
//! book.rs: a child module, `oracle`, that sees the book's private parts. The source is the folder
//! `ORACLE_SRC`, else `../shared/docs/src` beside this repository. Only if `ORACLE_MUTATIONS`
//! names a list is the copy altered, for the mutations: see mutate.rs.

use std::collections::HashMap;
use std::path::PathBuf;
use std::{env, fs};

mod mutate;

const FILES: [&str; 7] = [
    "book.rs",
    "book/amend.rs",
    "book/gateway_cancel.rs",
    "book/persist.rs",
    "book/report.rs",
    "book/view.rs",
    "router.rs",
];

fn main() {
    println!("cargo::rerun-if-env-changed=ORACLE_SRC");
    println!("cargo::rerun-if-env-changed=ORACLE_MUTATIONS");
    let manifest = folder("CARGO_MANIFEST_DIR").expect("cargo sets it");
    let out = folder("OUT_DIR").expect("cargo sets it");
    let source = folder("ORACLE_SRC").unwrap_or_else(|| manifest.join("../../../../shared/docs/src"));
    let mut files: HashMap<String, String> =
        FILES.iter().map(|file| (file.to_string(), read(source.join("src").join(file)))).collect();
    let sites: String = FILES.iter().map(|file| log_sites(file, &files[*file])).collect();
    write(out.join("sites.rs"), &format!("&[\n{sites}]"));
    let book = files.get_mut("book.rs").expect("one of the files");
    book.push_str(&format!("#[path = {:?}]\npub mod oracle;\n", manifest.join("src/oracle.rs")));
    let mut modules = format!(
        "#[allow(unused)]\n#[path = {:?}]\npub mod book;\n#[path = {:?}]\npub mod router;\n",
        out.join(copied("book.rs")),
        out.join("router.rs")
    );
    if let Some(list) = folder("ORACLE_MUTATIONS") {
        files = mutate::mutate(&read(list), files);
        modules.push_str(mutate::MODULE);
    }
    fs::create_dir_all(out.join("book")).expect("the build folder takes a folder");
    files.iter().for_each(|(file, text)| write(out.join(copied(file)), text));
    write(out.join("modules.rs"), &modules);
}

fn folder(name: &str) -> Option<PathBuf> {
    env::var_os(name).filter(|value| !value.is_empty()).map(PathBuf::from)
}

fn read(path: PathBuf) -> String {
    println!("cargo::rerun-if-changed={}", path.display());
    fs::read_to_string(&path).unwrap_or_else(|error| panic!("{}: {error}", path.display()))
}

fn write(path: PathBuf, text: &str) {
    fs::write(&path, text).unwrap_or_else(|error| panic!("{}: {error}", path.display()));
}

/// book.rs becomes book/mod.rs, so that its child modules are found beside it.
fn copied(file: &str) -> &str {
    if file == "book.rs" { "book/mod.rs" } else { file }
}

/// The lines of `text` that call a macro of `tracing`, each with its function.
fn log_sites(file: &str, text: &str) -> String {
    let macros = ["error!", "warn!", "info!", "debug!"].map(|name| format!("tracing::{name}"));
    let mut function = "";
    let mut sites = String::new();
    for (at, line) in text.lines().enumerate() {
        if let Some((_, name)) = line.split_once("fn ") {
            function = name.split(['(', '<']).next().unwrap_or(name);
        }
        if macros.iter().any(|name| line.contains(name)) {
            sites.push_str(&format!("({:?}, {}, {function:?}),\n", copied(file), at + 1));
        }
    }
    sites
}
