//! The archive as a host in C has it: what it needs from outside, the header in two languages, and a tree filled call by call.

mod common;

use std::process::Command;

use common::{archive, compile, root, scratch};

/// The archive needs memcpy and memset alone.
#[test]
fn undefined_symbols() {
    let output = Command::new("nm")
        .arg("-u")
        .arg(archive())
        .output()
        .expect("nm is there");
    let text = String::from_utf8_lossy(&output.stdout).into_owned();
    let names: Vec<&str> = text
        .lines()
        .filter_map(|line| line.trim().strip_prefix("U "))
        .collect();
    assert!(!names.is_empty());
    for name in names {
        assert!(["memcpy", "memset"].contains(&name), "{name}");
    }
}

/// The header compiles clean as C11 and as C++17.
#[test]
fn header_compiles() {
    let c = scratch("header.c");
    let cpp = scratch("header.cpp");
    let out = scratch("header.o");
    for (source, words) in [
        (&c, ["cc", "-std=c11", "-c"]),
        (&cpp, ["c++", "-std=c++17", "-c"]),
    ] {
        std::fs::write(source, "#include \"gontsamy.h\"\n").unwrap();
        compile(&words, source, &out);
        std::fs::remove_file(source).unwrap();
    }
    std::fs::remove_file(&out).unwrap();
}

/// The host in C that fills a tree.
#[test]
fn tree_in_c() {
    let program = scratch("tree");
    compile(
        &["cc", "-std=c11", "-O1"],
        &root().join("examples/hosts/tree.c"),
        &program,
    );
    let output = Command::new(&program).output().unwrap();
    assert_eq!(
        String::from_utf8_lossy(&output.stdout),
        "enter 0\nfunction 0\nfunction again 49\ntype 0\nenum 0\nexit 0\nexit at the root 50\nuse 0\n\
         use of no crate 40\nuse of a private type 44\nget function 0 11\nget type 43\nrows 0 5\n\
         3 in 0 from 0, mark 10\n2 in 1 from 0, mark 11\n1 in 1 from 0, mark 13\n\
         1 in 1 from 0, mark 14\n2 in 0 from 2, mark 11\n"
    );
    std::fs::remove_file(&program).unwrap();
}
