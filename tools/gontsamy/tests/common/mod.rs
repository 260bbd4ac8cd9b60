//! What the tests of hosts share.
#![allow(dead_code)]

use std::path::{Path, PathBuf};
use std::process::Command;

pub fn root() -> PathBuf {
    PathBuf::from(env!("CARGO_MANIFEST_DIR")).join("../..")
}

pub fn archive() -> PathBuf {
    root().join("target/staticlib/libhost.a")
}

pub fn scratch(name: &str) -> PathBuf {
    std::env::temp_dir().join(format!("gontsamy-{}-{name}", std::process::id()))
}

pub fn compile(words: &[&str], source: &Path, out: &Path) {
    let output = Command::new(words[0])
        .args(&words[1..])
        .args(["-Wall", "-Wextra", "-pedantic", "-Werror", "-I"])
        .arg(root().join("include"))
        .arg(source)
        .args(if words.contains(&"-c") {
            vec![]
        } else {
            vec![archive()]
        })
        .arg("-o")
        .arg(out)
        .output()
        .expect("a compiler is there");
    assert!(
        output.status.success(),
        "{}",
        String::from_utf8_lossy(&output.stderr)
    );
}
