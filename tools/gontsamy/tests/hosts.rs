//! The hosts of examples/hosts, run on the examples: they link what is stored as linked and refuse the rest with the stored number.

mod common;

use std::path::Path;
use std::process::Command;

use bundle_format::Bundle;
use common::{compile, root, scratch};

/// An example: its name, its bundle, and the printed lines stored beside it.
fn examples() -> Vec<(String, Vec<u8>, String)> {
    let folder = root().join("examples");
    let mut found = Vec::new();
    for file in std::fs::read_dir(&folder).unwrap() {
        let path = file.unwrap().path();
        let name = path.file_name().unwrap().to_string_lossy().into_owned();
        if let Some(name) = name.strip_suffix(".bundle.txt") {
            let text = std::fs::read(&path).unwrap();
            let stored = std::fs::read_to_string(folder.join(format!("{name}.stdout"))).unwrap();
            let bundle = bundle_text::pack(&text).unwrap();
            found.push((name.to_string(), bundle, stored));
        }
    }
    assert!(found.len() >= 5);
    assert!(found
        .iter()
        .any(|(_, _, stored)| stored.starts_with("no 44 ")));
    found
}

/// Runs a host on every example; `told` gives what it is to print of one.
fn run(host: &Path, told: impl Fn(&Bundle, &str) -> String) {
    let name = host.file_name().unwrap().to_string_lossy();
    let bundle = scratch(&format!("{name}-bundle"));
    for (name, bytes, stored) in examples() {
        std::fs::write(&bundle, &bytes).unwrap();
        let output = Command::new(host).arg(&bundle).output().unwrap();
        let decoded = Bundle::decode(&bytes).unwrap();
        let text = String::from_utf8_lossy(&output.stdout).into_owned();
        assert_eq!(text, told(&decoded, &stored), "{name}");
        let status = i32::from(!stored.starts_with("ok"));
        assert_eq!(output.status.code(), Some(status), "{name}");
    }
    std::fs::remove_file(&bundle).unwrap();
}

/// What both hosts print last of a linked program: an entry for each unit and each `has` line.
fn sizes(bundle: &Bundle, stored: &str) -> String {
    let made = |line: &&str| line.starts_with("unit ") || line.starts_with("has ");
    let entries = stored.lines().filter(made).count();
    let mut buffers = Box::new(gontsamy::Buffers::new());
    let bytes = bundle.clone().encode().unwrap();
    let image = gontsamy::link(&bytes, &mut buffers).map_or(0, |linked| linked.image().len());
    format!("{entries} entries, image of {image} bytes\n")
}

#[test]
fn host_in_c() {
    let host = scratch("host-c");
    let source = root().join("examples/hosts/link.c");
    compile(&["cc", "-std=c11", "-O1"], &source, &host);
    run(&host, |bundle, stored| {
        if !stored.starts_with("ok") {
            return stored.to_string();
        }
        let line = |line: &str| match line.split(' ').collect::<Vec<_>>()[..] {
            ["ok", units] => format!("ok {units}\n"),
            ["unit", id, path] => {
                let mut files = bundle.files.iter();
                let file = files.position(|file| file.path == path.as_bytes()).unwrap();
                format!("unit {id} is file {file}\n")
            }
            _ => String::new(),
        };
        let lines: String = stored.lines().map(line).collect();
        lines + &sizes(bundle, stored)
    });
    std::fs::remove_file(&host).unwrap();
}

#[test]
fn host_in_rust() {
    // cargo builds the package's examples before its tests, beside the folder that they stand in.
    let tests = std::env::current_exe().unwrap();
    let host = tests
        .parent()
        .unwrap()
        .with_file_name("examples")
        .join("link");
    assert!(
        host.exists(),
        "run all tests of the package, which builds {}",
        host.display()
    );
    run(&host, |bundle, stored| {
        if !stored.starts_with("ok") {
            return stored.to_string();
        }
        let units = stored.lines().filter(|line| !line.starts_with("has "));
        let lines: String = units.map(|line| format!("{line}\n")).collect();
        lines + &sizes(bundle, stored)
    });
}

/// The host in C that reads remapping lists, on those of the examples.
#[test]
fn lists_in_c() {
    let host = scratch("lists-c");
    let source = root().join("examples/hosts/remappings.c");
    compile(&["cc", "-std=c11", "-O1"], &source, &host);
    for (name, status, told) in [
        (
            "solidity",
            0,
            "/ @openzeppelin /lib/openzeppelin-contracts\n\
             / forge-std /lib/forge-std/src\n\
             / ds-test /lib/forge-std/lib/ds-test/src\n\
             /lib/forge-std ds-test /lib/ds-test/src\n",
        ),
        ("relative", 1, "no 4 15\n"),
        (
            "identifiers",
            0,
            "/ openzeppelin /lib/openzeppelin-contracts\n\
             / forge_std /lib/forge-std/src\n\
             / ds_test /lib/forge-std/lib/ds-test/src\n\
             /lib/forge-std ds_test /lib/ds-test/src\n",
        ),
    ] {
        let list = root().join(format!("examples/remappings/{name}.txt"));
        let output = Command::new(&host).arg(&list).output().unwrap();
        assert_eq!(String::from_utf8_lossy(&output.stdout), told, "{name}");
        assert_eq!(output.status.code(), Some(status), "{name}");
    }
    std::fs::remove_file(&host).unwrap();
}
