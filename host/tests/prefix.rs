//! The copy of the library that this crate links: another shared object's `check` stays its own.

use std::path::{Path, PathBuf};
use std::process::Command;

fn run(command: &mut Command) -> String {
    let output = command.output().unwrap();
    assert!(output.status.success(), "{command:?}: {}", String::from_utf8_lossy(&output.stderr));
    String::from_utf8(output.stdout).unwrap()
}

/// Builds and runs a program with a library beside the shared object.
fn beside(folder: &Path, library: &Path, prefixed: bool) -> String {
    let tests = Path::new(env!("CARGO_MANIFEST_DIR")).join("tests");
    let shared = folder.join("libother.so");
    run(Command::new("cc").args(["-shared", "-fPIC", "-o"]).arg(&shared).arg(tests.join("other.c")));
    let program = folder.join(if prefixed { "prefixed" } else { "plain" });
    let mut cc = Command::new("cc");
    cc.arg("-I")
        .arg(tests.with_file_name("include"))
        .arg(tests.join("beside.c"))
        .args(prefixed.then_some("-DJUBAFIYE_PREFIXED"));
    run(cc.arg(library).arg(&shared).arg(format!("-Wl,-rpath,{}", folder.display())).arg("-o").arg(&program));
    run(&mut Command::new(program))
}

#[test]
fn anothers_check_is_not_taken() {
    let folder = PathBuf::from(env!("CARGO_TARGET_TMPDIR")).join("prefix");
    std::fs::create_dir_all(&folder).unwrap();
    let copy = Path::new(env!("JUBAFIYE_GATEWAY"));
    assert_eq!(beside(&folder, copy, true), "0 0 42\n");
    // Under the plain names of docs/SCOPE.md the other object calls our `check` for its own, which is why there is a copy.
    let plain = folder.join("libgateway.a");
    let undo: Vec<String> = ["start", "event", "check", "page", "needs", "chain"]
        .map(|name| format!("--redefine-sym=jubafiye_{name}={name}"))
        .into();
    run(Command::new("objcopy").args(undo).arg(copy).arg(&plain));
    assert_eq!(beside(&folder, &plain, false), "0 0 1\n");
}
