//! The text form against generated bundles, against damaged text, and case by case.

use bundle_format::Bundle;
use bundle_generate::{bundle, Rng};
use bundle_text::{pack, show};

/// The generated bundles that pass 1 to 8, as bytes, decoded.
fn well_formed(seed: u64) -> impl Iterator<Item = (Vec<u8>, Bundle)> {
    (0..).filter_map(move |index| {
        let bytes = bundle(seed, index, None);
        let decoded = Bundle::decode(&bytes).ok()?;
        Some((bytes, decoded))
    })
}

#[test]
fn pack_of_show_is_the_identity() {
    for (bytes, decoded) in well_formed(11).take(120_000) {
        let text = show(&decoded);
        assert_eq!(pack(text.as_bytes()), Ok(bytes), "{text}");
    }
}

#[test]
fn any_remapping_name_and_any_path_byte() {
    for byte in 0..=255 {
        let mut decoded = Bundle::decode(&pack(SMALL.as_bytes()).unwrap()).unwrap();
        decoded.remappings[0].name = vec![byte; usize::from(byte)];
        if bundle_format::forms::is_path(&[b'/', byte]) && byte != b'm' {
            decoded.folders[0] = vec![b'/', byte];
        }
        let bytes = decoded.encode().unwrap();
        let again = Bundle::decode(&bytes).unwrap();
        assert_eq!(pack(show(&again).as_bytes()), Ok(bytes));
    }
}

/// What `pack` says of a text is a bundle or a place in it; a bundle it says is shown again.
fn try_text(text: &[u8]) {
    match pack(text) {
        Ok(bytes) => {
            if let Ok(decoded) = Bundle::decode(&bytes) {
                assert_eq!(pack(show(&decoded).as_bytes()), Ok(bytes));
            }
        }
        Err(error) => {
            let lines: Vec<&[u8]> = text.split(|&byte| byte == b'\n').collect();
            let line = lines[error.line - 1];
            assert!(error.column <= line.len() + 1, "{error}");
        }
    }
}

#[test]
fn damaged_text() {
    let mut rng = Rng::new(12, 0);
    let stock = b"{}:,=#\"\\/ \n\t\rx0_ \x00\x7f\xff";
    for (_, decoded) in well_formed(12).take(30_000) {
        let mut text = show(&decoded).into_bytes();
        for _ in 0..rng.between(1, 3) {
            if text.is_empty() {
                break;
            }
            let at = rng.below(text.len());
            match rng.below(5) {
                0 => text[at] = rng.next_u64() as u8,
                1 => text[at] = *rng.pick(stock),
                2 => text.insert(at, *rng.pick(stock)),
                3 => drop(text.drain(at..(at + 4).min(text.len()))),
                _ => text.truncate(at.max(1)),
            }
        }
        try_text(&text);
    }
}

#[test]
fn random_text() {
    const PIECES: [&str; 24] = [
        "bundle",
        "1",
        "root",
        "folder",
        "remap",
        "file",
        "/r",
        "/r/a.simf",
        "{",
        "}",
        "::",
        ",",
        "=",
        "use",
        "pub",
        "fn",
        "mod",
        "as",
        "f",
        "\"",
        "\"x\\x4\"",
        "#",
        "\n",
        "ignored",
    ];
    let mut rng = Rng::new(13, 0);
    for _ in 0..50_000 {
        let text: String = (0..rng.below(30))
            .map(|_| format!("{} ", rng.pick(&PIECES)))
            .collect();
        try_text(text.as_bytes());
        try_text(format!("bundle 1 root / file /m {{ {text}").as_bytes());
        let bytes: Vec<u8> = (0..rng.below(50)).map(|_| rng.next_u64() as u8).collect();
        try_text(&bytes);
    }
}

#[test]
fn deep_text() {
    let nested = |depth: usize| {
        let (open, close) = ("mod m { ".repeat(depth), "} ".repeat(depth));
        format!("bundle 1 root / file /m {{ {open}{close}}}")
    };
    // Deeper than a bundle may be, so that the refusal can be tried.
    assert!(pack(nested(64).as_bytes()).is_ok());
    let error = pack(nested(65).as_bytes()).unwrap_err();
    assert_eq!((error.line, error.column), (1, 27 + 64 * 8));
    assert!(pack("mod m { ".repeat(1_000_000).as_bytes()).is_err());
    assert!(pack(nested(1_000_000).as_bytes()).is_err());
}

const SMALL: &str = "\
bundle 1
root /
folder /r
remap / x = /r
file /m {
}
";

#[test]
fn positions_of_errors() {
    let cases: &[(&str, usize, usize, &str)] = &[
        ("", 1, 1, "expected `bundle`"),
        ("bundle 2", 1, 8, "expected the version `1`"),
        ("bundle 1\nfolder /r", 2, 1, "expected `root`"),
        ("bundle 1\nroot r", 2, 6, "expected a path"),
        ("bundle 1\nroot /r/", 2, 6, "form of a path"),
        ("bundle 1\nroot /r\nfiles", 3, 1, "expected `folder`"),
        (
            "bundle 1\nroot /r\nfile /m {}\nfolder /r",
            4,
            1,
            "expected `file`",
        ),
        ("bundle 1 root / remap / x /r", 1, 27, "expected `=`"),
        ("bundle 1 root / remap / 9x = /r", 1, 25, "form of a name"),
        ("bundle 1 root / file /m{ }", 1, 26, "expected `{`"),
        (
            "bundle 1 root / file /m { fn }",
            1,
            30,
            "name of a function",
        ),
        ("bundle 1 root / file /m { fn f", 1, 31, "expected `type`"),
        ("bundle 1 root / file /m { pub }", 1, 31, "expected `type`"),
        ("bundle 1 root / file /m {\n  use crate:{}\n}", 2, 12, "`:`"),
        (
            "bundle 1 root / file /m {\n  use crate {}\n}",
            2,
            13,
            "expected `::`",
        ),
        (
            "bundle 1 root / file /m {\n use a::{f g}\n}",
            2,
            12,
            "expected `,`",
        ),
        (
            "bundle 1 root / file /m {\n use a::{,}\n}",
            2,
            10,
            "expected an element",
        ),
        (
            "bundle 1 root / file /m {\n use a::{f as \"\"}\n}",
            2,
            15,
            "not empty",
        ),
        ("bundle 1 root \"/r", 1, 15, "not closed"),
        ("bundle 1 root \"/r\n\"", 1, 15, "not closed"),
        ("bundle 1 root \"/r\\n\"", 1, 18, "escape"),
        ("bundle 1 root \"\\xG0\"", 1, 16, "hexadecimal"),
        ("bundle 1 root \"\t\"", 1, 16, "09"),
        ("bundle 1 root / file /m { fn caf\u{e9} }", 1, 33, "C3"),
    ];
    for &(text, line, column, message) in cases {
        let error = pack(text.as_bytes()).expect_err(text);
        assert_eq!(
            (error.line, error.column),
            (line, column),
            "{text}: {error}"
        );
        assert!(error.message.contains(message), "{text}: {error}");
    }
}

#[test]
fn what_does_not_fit() {
    let position = |text: &str| {
        let error = pack(text.as_bytes()).unwrap_err();
        (error.line, error.column)
    };
    let long = "x".repeat(256);
    assert_eq!(position(&format!("bundle 1 root \"{long}\"")), (1, 15));
    let folders = "folder /r\n".repeat(256);
    assert_eq!(position(&format!("bundle 1 root /\n{folders}")), (257, 1));
    let elements = "f,".repeat(256);
    let text = format!("bundle 1 root / file /m {{\nuse {{\n{elements}}}}}");
    assert_eq!(position(&text), (3, 511));
    let functions = "fn f\n".repeat(11_000);
    let text = format!("bundle 1 root /\nfile /m {{\nmod m {{\n{functions}}}\n}}\n");
    assert_eq!(position(&text), (3, 1));
    let text = format!("bundle 1 root /\nfile /m {{\n{functions}}}\n");
    assert_eq!(position(&text), (2, 1));
    let half = "fn f\n".repeat(6_000);
    let text = format!("bundle 1 root /\nfile /m {{\n{half}}}\nfile /n {{\n{half}}}\n");
    assert_eq!(position(&text), (12_006, 1));
}

#[test]
fn quoted_strings_may_break_forms() {
    // What the text says is packed; the linker refuses it.
    let number = |text: &str| {
        let bytes = pack(text.as_bytes()).unwrap();
        Bundle::decode(&bytes).unwrap_err().number
    };
    assert_eq!(number("bundle 1 root \"r\" file /m {}"), 4);
    assert_eq!(number("bundle 1 root / file /m { fn \"9\" }"), 5);
    assert_eq!(number("bundle 1 root / file /m { use \"a b\"::{} }"), 5);
    assert_eq!(number("bundle 1 root /"), 3);
}

#[test]
fn the_program() {
    use std::io::Write;
    use std::process::{Command, Stdio};
    let run = |argument: &str, input: &[u8]| {
        let mut child = Command::new(env!("CARGO_BIN_EXE_bundle"))
            .arg(argument)
            .stdin(Stdio::piped())
            .stdout(Stdio::piped())
            .stderr(Stdio::piped())
            .spawn()
            .unwrap();
        child.stdin.take().unwrap().write_all(input).unwrap();
        let output = child.wait_with_output().unwrap();
        let message = String::from_utf8(output.stderr).unwrap();
        (output.status.code(), output.stdout, message)
    };
    let bytes = pack(SMALL.as_bytes()).unwrap();
    assert_eq!(
        run("pack", SMALL.as_bytes()),
        (Some(0), bytes.clone(), String::new())
    );
    assert_eq!(
        run("show", &bytes),
        (Some(0), SMALL.as_bytes().to_vec(), String::new())
    );
    let message = "bundle: line 1, column 1: expected `bundle`, found the end of the text\n";
    assert_eq!(run("pack", b""), (Some(1), Vec::new(), message.to_string()));
    let message = "bundle: no 1 63\n".to_string();
    let printed = include_bytes!("../../../examples/printed.bundle.txt");
    let mut bytes = pack(printed).unwrap();
    bytes.truncate(68);
    bytes[2] = 65;
    assert_eq!(run("show", &bytes), (Some(1), Vec::new(), message));
}
