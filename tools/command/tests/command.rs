//! The command as a person runs it: output, diagnostics and status.

use std::path::PathBuf;
use std::process::{Command, Output};

fn root() -> PathBuf {
    PathBuf::from(env!("CARGO_MANIFEST_DIR")).join("../..")
}

fn gontsamy(words: &[&str]) -> Output {
    Command::new(env!("CARGO_BIN_EXE_gontsamy"))
        .args(words)
        .current_dir(root())
        .output()
        .expect("the command runs")
}

#[track_caller]
fn expect(words: &[&str], status: i32, stdout: &str, stderr: &[&str]) {
    let output = gontsamy(words);
    let text = String::from_utf8_lossy(&output.stderr).into_owned();
    assert_eq!(output.status.code(), Some(status), "{text}");
    assert_eq!(String::from_utf8_lossy(&output.stdout), stdout);
    for part in stderr {
        assert!(text.contains(part), "`{part}` is not in\n{text}");
    }
}

/// The examples in text form print what is stored beside them, refused or linked.
#[test]
fn examples() {
    for name in [
        "printed",
        "right-remapping",
        "wrong-remapping",
        "missing-file",
        "private-import",
    ] {
        let stored =
            std::fs::read_to_string(root().join(format!("examples/{name}.stdout"))).unwrap();
        let output = gontsamy(&["link", &format!("examples/{name}.bundle.txt")]);
        let linked = stored.starts_with("ok");
        assert_eq!(output.status.code(), Some(i32::from(!linked)));
        if linked {
            assert_eq!(String::from_utf8_lossy(&output.stdout), stored);
        } else {
            let text = String::from_utf8_lossy(&output.stderr).into_owned();
            let last = text.lines().last().unwrap_or_default();
            assert_eq!(last, format!("refused: {}", stored.trim_end()));
        }
    }
}

/// The story of the README: what was approved for `pay` is not taken for `payroll`.
#[test]
fn payroll() {
    expect(
        &["link", "examples/cards/payroll", "--root", "/src", "--remap", "/src/pay:limits=/lib/limits"],
        1,
        "",
        &[
            "error[21]: unknown library",
            "examples/cards/payroll/src/payroll/salary.simf:2:1",
            "2 | use limits::daily::within;",
            "`/src/pay:limits=/lib/limits` does not apply: /src/pay is no prefix of /src/payroll/salary.simf by whole components",
            "help: add a remapping",
        ],
    );
}

/// Two editions of a library: each folder takes the one approved for it.
#[test]
fn architects() {
    let output = gontsamy(&[
        "link",
        "examples/cards/architects",
        "--root",
        "/src",
        "--remap",
        "/:limits=/lib/limits-2024",
        "--remap",
        "/src/pay:limits=/lib/limits-2025",
    ]);
    let text = String::from_utf8_lossy(&output.stdout).into_owned();
    let units: Vec<&str> = text.lines().take(6).collect();
    assert_eq!(
        units,
        [
            "ok 5",
            "unit 3 /lib/limits-2024/daily.simf",
            "unit 1 /src/office/rent.simf",
            "unit 4 /lib/limits-2025/daily.simf",
            "unit 2 /src/pay/transfer.simf",
            "unit 0 /src/main.simf",
        ]
    );
}

/// A source file that can't be read is told with its line.
#[test]
fn bad_source() {
    let folder = std::env::temp_dir().join(format!("gontsamy-{}", std::process::id()));
    std::fs::create_dir_all(&folder).unwrap();
    std::fs::write(folder.join("main.simf"), "fn main() {}\nuse crate::a\n").unwrap();
    let output = gontsamy(&["link", folder.to_str().unwrap()]);
    std::fs::remove_dir_all(&folder).unwrap();
    let text = String::from_utf8_lossy(&output.stderr).into_owned();
    assert_eq!(output.status.code(), Some(2));
    assert!(
        text.contains("expected `;`") && text.contains("main.simf:3:1"),
        "{text}"
    );
}

/// A text form that breaks off at a letter of two bytes: the letter is marked.
#[test]
fn bad_text() {
    let (status, _, said) = with_list("bundle 1\nroot é\n".as_bytes(), &["check", "list"]);
    assert_eq!(status, Some(2));
    assert!(said.contains("2 | root é\n  |      ^\n"), "{said}");
}

#[test]
fn usage() {
    assert_eq!(gontsamy(&["--help"]).status.code(), Some(0));
    for command in [
        "link",
        "check",
        "show",
        "pack",
        "image",
        "graph",
        "remappings",
        "explain",
    ] {
        let output = gontsamy(&[command, "--help"]);
        assert_eq!(output.status.code(), Some(0));
        let text = String::from_utf8_lossy(&output.stdout).into_owned();
        assert!(
            text.starts_with(&format!("usage: gontsamy {command}")),
            "{text}"
        );
    }
    expect(&[], 2, "", &["no command", "usage:"]);
    expect(&["lnk"], 2, "", &["there is no command `lnk`"]);
    expect(&["link"], 2, "", &["wants an input"]);
    expect(&["link", "no-such-file"], 2, "", &["no-such-file"]);
    expect(
        &["link", "a", "--depth"],
        2,
        "",
        &["there is no option `--depth`"],
    );
    expect(&["explain", "99"], 2, "", &["there is no number `99`"]);
    expect(&["remappings"], 2, "", &["wants an input"]);
    expect(&["remappings", "no-such-list"], 2, "", &["no-such-list"]);
    expect(
        &["link", "-", "--remappings", "-"],
        2,
        "",
        &["`-` stands for one input alone"],
    );
}

/// A bundle that 1 to 6 refuse is shown field by field, with the place marked.
#[test]
fn show_of_a_refused_bundle() {
    let path = std::env::temp_dir().join(format!("gontsamy-kind-{}", std::process::id()));
    std::fs::write(
        &path,
        b"\x01\x00\x0e\x01/\x00\x00\x01\x02/m\x00\x04\x00\x02\x09\x00",
    )
    .unwrap();
    let output = gontsamy(&["show", path.to_str().unwrap()]);
    std::fs::remove_file(&path).unwrap();
    let text = String::from_utf8_lossy(&output.stdout).into_owned();
    assert_eq!(output.status.code(), Some(1));
    assert!(text.contains("> 15        kind 9\n"), "{text}");
    assert!(text.contains("^ 6 bad kind at 15"), "{text}");
}

/// What pack writes of what show prints is the bundle.
#[test]
fn show_and_pack() {
    let show = gontsamy(&["show", "examples/printed.bundle.txt"]);
    let pack = gontsamy(&["pack", "examples/printed.bundle.txt"]);
    let folder = std::env::temp_dir();
    let path = folder.join(format!("gontsamy-shown-{}", std::process::id()));
    std::fs::write(&path, &show.stdout).unwrap();
    let again = gontsamy(&["pack", path.to_str().unwrap()]);
    std::fs::remove_file(&path).unwrap();
    assert_eq!(pack.stdout.len(), 71);
    assert_eq!(pack.stdout, again.stdout);
}

/// The graph's imports, with a ring's in red.
#[test]
fn graph() {
    let output = gontsamy(&["graph", "examples/printed.bundle.txt"]);
    let text = String::from_utf8_lossy(&output.stdout).into_owned();
    assert!(text.contains("0 -> 1;") && !text.contains("red"), "{text}");
    let output = gontsamy(&["graph", "examples/printed.bundle.txt", "--svg"]);
    assert!(output.stdout.starts_with(b"<svg"));
}

/// docs/NUMBERS.md is what `explain --all` prints.
#[test]
fn numbers_page() {
    let stored = std::fs::read_to_string(root().join("docs/NUMBERS.md")).unwrap();
    let output = gontsamy(&["explain", "--all"]);
    assert_eq!(String::from_utf8_lossy(&output.stdout), stored);
}

/// The lists of the examples print what is stored beside them, shown and linked; a stream that is not stored is empty.
#[test]
fn remapping_lists() {
    let folder = root().join("examples/remappings");
    for name in ["solidity", "relative", "identifiers"] {
        let list = format!("examples/remappings/{name}.txt");
        let link = ["link", "examples/cards/foundry", "--remappings", &list];
        for (words, stored) in [
            (&["remappings", &list][..], name.to_string()),
            (&link, format!("{name}.link")),
        ] {
            let stored = |stream: &str| {
                std::fs::read_to_string(folder.join(format!("{stored}.{stream}")))
                    .unwrap_or_default()
            };
            let output = gontsamy(words);
            let (told, said) = (stored("stdout"), stored("stderr"));
            assert_eq!(String::from_utf8_lossy(&output.stdout), told);
            assert_eq!(String::from_utf8_lossy(&output.stderr), said);
            assert!(told.is_empty() != said.is_empty(), "{name}");
            assert_eq!(output.status.code(), Some(i32::from(!said.is_empty())));
        }
    }
}

/// The command with `list` standing for a file of these bytes: status and output.
fn with_list(bytes: &[u8], words: &[&str]) -> (Option<i32>, String, String) {
    static FILES: std::sync::atomic::AtomicUsize = std::sync::atomic::AtomicUsize::new(0);
    let number = FILES.fetch_add(1, std::sync::atomic::Ordering::Relaxed);
    let name = format!("gontsamy-list-{}-{number}", std::process::id());
    let path = std::env::temp_dir().join(name);
    std::fs::write(&path, bytes).unwrap();
    let path = path.to_str().unwrap();
    let words: Vec<&str> = words
        .iter()
        .map(|&word| if word == "list" { path } else { word })
        .collect();
    let output = gontsamy(&words);
    std::fs::remove_file(path).unwrap();
    let text = |bytes: &[u8]| String::from_utf8_lossy(bytes).replace(path, "list");
    let (told, said) = (text(&output.stdout), text(&output.stderr));
    (output.status.code(), told, said)
}

/// What is said of a list that is refused, behind the number's own words.
#[track_caller]
fn refused(list: &[u8], said: &str) {
    let (status, told, text) = with_list(list, &["remappings", "list"]);
    assert_eq!((status, told.as_str()), (Some(1), ""));
    let (_, text) = text.split_once('\n').unwrap_or_default();
    assert_eq!(text, said);
}

const CR_LF: &str =
    "the line ends in CR LF; only LF ends a line, so the CR belongs to it: save the list with LF alone";
const ESCAPES: &str = "  = note: bytes of the line that do not print are shown as escapes\n";

/// 52 and 3 mark the line, 4 the context or the target, 12 the name.
#[test]
fn refused_lists() {
    refused(
        b"lib=/l\n\nlimits\n",
        " --> list:3:1\n  |\n3 | limits\n  | ^^^^^^ there is no `=`\n  \
         = help: write it as `context:name=target` or `name=target`, or leave it out\n\nrefused: no 52 8\n",
    );
    refused(
        b"# libraries",
        " --> list:1:1\n  |\n1 | # libraries\n  | ^^^^^^^^^^^ there is no `=`\n  \
         = help: leave the line out: a list has no comments\n\nrefused: no 52 0\n",
    );
    refused(
        b"a=/b\n  \n",
        " --> list:2:1\n  |\n2 | \n  | ^^ blanks alone\n  \
         = help: leave the line empty, without blanks\n\nrefused: no 52 5\n",
    );
    refused(
        &[&b"a=/b\n".repeat(32)[..], b"x"].concat(),
        "  --> list:33:1\n   |\n33 | x\n   | ^ 32 lines with content stand before it\n  \
         = help: split the card, or leave out what is not used\n\nrefused: no 3 160\n",
    );
    refused(
        b"/r/:a=/b",
        " --> list:1:1\n  |\n1 | /r/:a=/b\n  | ^^^ the context ends in `/`\n  \
         = help: the `/` at a context's end is not dropped: write /r\n\nrefused: no 4 0\n",
    );
    refused(
        b":a=/b",
        " --> list:1:1\n  |\n1 | :a=/b\n  | ^ the context is empty\n  \
         = help: leave out the `:`, or write a folder before it\n\nrefused: no 4 0\n",
    );
    refused(
        b"/r:a=./lib/b/",
        " --> list:1:6\n  |\n1 | /r:a=./lib/b/\n  |      ^^^^^^^^ the target does not begin with `/`\n  \
         = help: paths are those of the bundle, from `/` on: write /lib/b\n\nrefused: no 4 5\n",
    );
    refused(
        b"a=",
        " --> list:1:3\n  |\n1 | a=\n  |   ^ the target is empty\n  \
         = help: write a folder behind the `=`\n\nrefused: no 4 2\n",
    );
    refused(
        b"a=/b//",
        " --> list:1:3\n  |\n1 | a=/b//\n  |   ^^^^ the target ends in more than one `/`\n  \
         = help: only one `/` at a target's end is dropped: write /b\n\nrefused: no 4 2\n",
    );
    let long = [&b"/r:"[..], &[b'n'; 257], b"=/lib"].concat();
    let (shown, carets) = (
        format!("{}...{}", "n".repeat(48), "n".repeat(18)),
        "^".repeat(69),
    );
    refused(
        &long,
        &format!(
            " --> list:1:4\n  |\n1 | /r:{shown}=/lib\n  |    {carets} the name has 257 bytes, over 255\n  \
             = help: give the library another name\n\nrefused: no 12 3\n"
        ),
    );
}

/// What does not print is drawn, and the marks stand below it.
#[test]
fn refused_lists_that_do_not_print() {
    refused(
        b"lib=/l\r\nlimits=/m\r\n",
        &format!(
            " --> list:1:5\n  |\n1 | lib=/l\\r\n  |     ^^^^ the target has a CR, which no path has\n{ESCAPES}  \
             = help: {CR_LF}\n\nrefused: no 4 4\n"
        ),
    );
    refused(
        b"\r\n",
        &format!(
            " --> list:1:1\n  |\n1 | \\r\n  | ^^ a CR alone\n{ESCAPES}  = help: {CR_LF}\n\nrefused: no 52 0\n"
        ),
    );
    refused(
        b"lib=l\r\n",
        &format!(
            " --> list:1:5\n  |\n1 | lib=l\\r\n  |     ^^^ the target does not begin with `/`\n  \
             = note: {CR_LF}\n{ESCAPES}  \
             = help: paths are those of the bundle, from `/` on: write /l\n\nrefused: no 4 4\n"
        ),
    );
    refused(
        b"\0\t\xc3\xa9\\'=/b c",
        &format!(
            " --> list:1:8\n  |\n1 | \\x00\\t\\xc3\\xa9\\\\'=/b c\n  | {}^^^^ the target has a blank, which no path has\n{ESCAPES}  \
             = help: rename the folder or file, or mend the path\n\nrefused: no 4 7\n",
            " ".repeat(18)
        ),
    );
    // Bytes that print stand as they are.
    refused(
        b"\\a'\"=\\b",
        " --> list:1:6\n  |\n1 | \\a'\"=\\b\n  |      ^^ the target does not begin with `/`\n  \
         = help: paths are those of the bundle, from `/` on: write /\\b\n\nrefused: no 4 5\n",
    );
}

/// What a good list means, and what the linker will refuse of it.
#[test]
fn shown_lists() {
    let shown = |list: &[u8], words: &[&str]| {
        let (status, told, said) = with_list(list, words);
        assert_eq!((status, said.as_str()), (Some(0), ""));
        told
    };
    let text = |list: &[u8]| shown(list, &["remappings", "list"]);
    assert_eq!(text(b""), "the list has no remapping\n");
    assert_eq!(text(b"\n\n"), "the list has no remapping\n");
    assert_eq!(
        text(b"\nlib/=/l/\n/src/pay:limits=/"),
        "line  context   name    target\n   2  /         lib     /l\n   3  /src/pay  limits  /\n"
    );
    let list = [
        &b"limits=/a\ncrate=/b\nuse=/c\n/=/d\n/r:limits=/e\nlimits/=/f\na\r=/g\n"[..],
        &[b'n'; 33],
        b"=/h\n",
    ]
    .concat();
    assert_eq!(
        text(&list).split_once("\n\n").map(|(_, note)| note),
        Some(
            "note: the linker refuses a bundle with these remappings\n  \
             line 2: 11, crate is the package itself\n  \
             line 3: 12, use is a reserved word\n  \
             line 4: 12, \"\" is no identifier\n  \
             line 6: 13, limits is remapped below / in line 1 already\n  \
             line 7: 12, \"a\\r\" is no identifier\n  \
             line 8: 12, the name has 33 bytes, over 32\n  \
             = help: `use` lines name a library by 1 to 32 letters, digits or `_`, with no digit first\n"
        )
    );
    assert_eq!(
        shown(b"a=/b\nfn/=/c", &["remappings", "list", "--json"]),
        "{\"line\":1,\"context\":\"/\",\"name\":\"a\",\"target\":\"/b\"}\n\
         {\"line\":2,\"context\":\"/\",\"name\":\"fn\",\"target\":\"/c\",\"number\":12,\"label\":\"fn is a reserved word\"}\n"
    );
    let (status, told, _) = with_list(b"a", &["remappings", "list", "--json"]);
    assert_eq!(status, Some(1));
    assert!(
        told.starts_with("{\"number\":52,\"word\":\"bad line\",\"place\":0,"),
        "{told}"
    );
}

/// A list added to a folder, a text and a bundle is the same remappings written there, behind those that are there.
#[test]
fn packed_lists() {
    let card = ["examples/cards/architects", "--root", "/src"];
    let list = b"limits/=/lib/limits-2024/\n\n/src/pay:limits=/lib/limits-2025\n";
    let pack = |words: &[&str]| {
        let output = gontsamy(&[&["pack"], words].concat());
        assert_eq!(output.status.code(), Some(0));
        output.stdout
    };
    let first = [&card[..], &["--remap", "/:limits=/lib/limits-2024"]].concat();
    let both = [&first[..], &["--remap", "/src/pay:limits=/lib/limits-2025"]].concat();
    let written = pack(&both);
    let folder = std::env::temp_dir().join(format!("gontsamy-packed-{}", std::process::id()));
    std::fs::create_dir_all(&folder).unwrap();
    let file = |name: &str, bytes: &[u8]| {
        let path = folder.join(name);
        std::fs::write(&path, bytes).unwrap();
        path.to_str().unwrap().to_string()
    };
    let all = file("all", list);
    let last = file("last", &list[27..]);
    let empty = file("empty", b"\n");
    assert_eq!(
        pack(&[&card[..], &["--remappings", &all]].concat()),
        written
    );
    assert_eq!(
        pack(&[&first[..], &["--remappings", &last]].concat()),
        written
    );
    let nothing = ["--remappings", &empty];
    assert_eq!(pack(&[&both[..], &nothing, &nothing].concat()), written);

    // A bundle and a text with the first of the two.
    let bundle = file("bundle", &pack(&first));
    let text = file("text", &gontsamy(&["show", &bundle]).stdout);
    for input in [&bundle, &text] {
        assert_eq!(pack(&[input, "--remappings", &last]), written);
    }
    let linked = gontsamy(&["link", &text, "--remappings", &last]);
    assert!(linked.stdout.starts_with(b"ok 5\n"));

    // A place behind the list's remappings is that of the input, and one in them that of the list.
    let said = |words: &[&str]| {
        let output = gontsamy(words);
        assert_eq!(output.status.code(), Some(1));
        String::from_utf8_lossy(&output.stderr).into_owned()
    };
    let alone = file("alone", b"/src/pay:limits=/lib/limits-2025");
    let text = said(&[&["link"], &card[..], &["--remappings", &alone]].concat());
    assert!(text.contains("office/rent.simf:1:1"), "{text}");
    assert!(
        text.contains("alone:1:1") && text.contains("1 | /src/pay:limits="),
        "{text}"
    );
    let again = file("again", b"\nlimits=/lib\n");
    let text = said(&["link", &bundle, "--remappings", &again]);
    assert!(
        text.contains("error[13]") && text.contains("again:2:1"),
        "{text}"
    );
    assert!(text.contains("limits is remapped again below /"), "{text}");
    let away = file("away", b"a=/lib\n/src:b=/lib\nc=/nowhere/");
    let text = said(&["link", &bundle, "--remappings", &away]);
    assert!(text.contains("away:3:3"), "{text}");
    assert!(
        text.contains("3 | c=/nowhere/\n  |   ^^^^^^^^^ no folder /nowhere is listed"),
        "{text}"
    );

    // A list that is refused packs nothing; nor is one added to what is no bundle, or past what a count can say.
    let bad = file("bad", b"lib");
    let output = gontsamy(&["pack", &bundle, "--remappings", &bad]);
    assert_eq!((output.status.code(), output.stdout.len()), (Some(1), 0));
    let cut = file("cut", b"\x01\x00\x01\x00\xff");
    let output = gontsamy(&["pack", &cut, "--remappings", &all]);
    assert_eq!((output.status.code(), output.stdout.len()), (Some(2), 0));
    let many = file("many", &b"a=/b\n".repeat(32));
    let lists = ["--remappings", &many].repeat(8);
    let output = gontsamy(&[&["pack", &bundle], &lists[..]].concat());
    assert_eq!((output.status.code(), output.stdout.len()), (Some(2), 0));
    let output = gontsamy(&[&["check", &bundle], &lists[..14]].concat());
    assert_eq!(output.status.code(), Some(1));
    assert!(output.stderr.starts_with(b"error[3]"));
    std::fs::remove_dir_all(&folder).unwrap();
}
