//! Remapping lists: what each line means, the numbers with their places, and lines printed and read again.

use bundle_format::remapping_lines::{answer, line_of, read, section};
use bundle_format::{Bundle, File, Remapping};

type Parts = (Vec<u8>, Vec<u8>, Vec<u8>);

/// Context, name and target of each remapping.
fn parts(list: impl AsRef<[u8]>) -> Result<Vec<Parts>, (u8, usize)> {
    let remappings = read(list.as_ref())?;
    let parts = |r: Remapping| (r.context, r.name, r.target);
    Ok(remappings.into_iter().map(parts).collect())
}

fn remapping(context: &[u8], name: &[u8], target: &[u8]) -> Remapping {
    Remapping {
        context: context.to_vec(),
        name: name.to_vec(),
        target: target.to_vec(),
        ..Remapping::default()
    }
}

#[track_caller]
fn one(list: impl AsRef<[u8]>, context: &str, name: &str, target: &str) {
    let expected = (context.into(), name.into(), target.into());
    assert_eq!(parts(list), Ok(vec![expected]));
}

#[track_caller]
fn no(list: impl AsRef<[u8]>, number: u8, place: usize) {
    assert_eq!(parts(list), Err((number, place)));
}

/// A path of 255 bytes: seven components of 32 bytes and one of 23.
fn longest_path() -> String {
    format!("/{}", "c".repeat(32)).repeat(7) + "/" + &"d".repeat(23)
}

#[test]
fn no_line() {
    for list in ["", "\n", "\n\n"] {
        assert_eq!(parts(list), Ok(vec![]));
        assert_eq!(section(&read(list.as_bytes()).unwrap()), [0]);
        assert_eq!(answer(list.as_bytes(), 1), Ok(1));
        assert_eq!(answer(list.as_bytes(), 0), Err((14, 0)));
    }
}

#[test]
fn lines() {
    one("lib=/l", "/", "lib", "/l");
    one("lib=/l\n", "/", "lib", "/l");
    one("\n\nlib=/l\n\n", "/", "lib", "/l");
    // Only a line feed ends a line, and a blank is a byte of it.
    no("\r\n", 52, 0);
    no(" ", 52, 0);
    no(" \na=/b", 52, 0);
    no("\0", 52, 0);
    no("a=/b\r\n", 4, 2);
    no("a=/b ", 4, 2);
    no("a= /b", 4, 2);
    no("a=/b\0", 4, 2);
    one(" a\r\0=/b", "/", " a\r\0", "/b");
    // No comments.
    no("# a", 52, 0);
    one("# a=/b", "/", "# a", "/b");
}

#[test]
fn splits() {
    one("a=/b:c", "/", "a", "/b:c");
    one("a=/b=c", "/", "a", "/b=c");
    one("/x:b:c=/d", "/x", "b:c", "/d");
    one("/:a=/b", "/", "a", "/b");
    no("/a=b:c=/d", 4, 3);
}

#[test]
fn contexts() {
    no("/r/:a=/b", 4, 0);
    no(":a=/b", 4, 0);
    no("r:a=/b", 4, 0);
    no("a=/b\n/r/:a=/b", 4, 5);
    let path = longest_path();
    one(format!("{path}:a=/b"), &path, "a", "/b");
    no(format!("{path}c:a=/b"), 4, 0);
}

#[test]
fn slashes_at_the_end() {
    one("lib/=/l/", "/", "lib", "/l");
    no("lib=/l//", 4, 4);
    one("lib=/", "/", "lib", "/");
    one("lib=//", "/", "lib", "/");
    no("lib=///", 4, 4);
    one("/=/b", "/", "", "/b");
    one("//=/b", "/", "/", "/b");
    one("=/b", "/", "", "/b");
    one("/r:=/b", "/r", "", "/b");
    one("/r:/=/b", "/r", "", "/b");
    one("a//=/b", "/", "a/", "/b");
}

#[test]
fn targets() {
    no("=", 4, 1);
    no("a=/b\n=", 4, 6);
    no("/r:a=", 4, 5);
    no("a=b", 4, 2);
    no("a=/b/../c", 4, 2);
    let path = longest_path();
    one(format!("a={path}"), "/", "a", &path);
    one(format!("a={path}/"), "/", "a", &path);
    no(format!("a={path}d"), 4, 2);
    let sixteen = "/a".repeat(16);
    one(format!("a={sixteen}"), "/", "a", &sixteen);
    one(format!("a={sixteen}/"), "/", "a", &sixteen);
    no(format!("a={sixteen}/a"), 4, 2);
    let component = format!("/{}", "a".repeat(32));
    one(format!("a={component}"), "/", "a", &component);
    no(format!("a={component}a"), 4, 2);
}

#[test]
fn names() {
    let longest = "n".repeat(255);
    one(format!("{longest}=/b"), "/", &longest, "/b");
    one(format!("{longest}/=/b"), "/", &longest, "/b");
    no(format!("{longest}n=/b"), 12, 0);
    no(format!("{longest}n/=/b"), 12, 0);
    no(format!("{longest}//=/b"), 12, 0);
    no(format!("/r:{longest}nn=/b"), 12, 3);
    // Any other name is written, and so are equal lines.
    for name in ["crate", "fn", "9", "@openzeppelin", &"n".repeat(33)] {
        one(format!("{name}=/nowhere"), "/", name, "/nowhere");
    }
    assert_eq!(parts("a=/b\na=/b").map(|all| all.len()), Ok(2));
}

#[test]
fn tests_in_order() {
    let long = "n".repeat(256);
    no(format!(":{long}="), 4, 0);
    no(format!("/r:{long}="), 4, 260);
    no(format!("/r:{long}=/b"), 12, 3);
    // All of a line before the next.
    no(format!("{long}=/b\nx"), 12, 0);
    no("a=b\n:a=/b", 4, 2);
    no("x\n:a=/b", 52, 0);
}

#[test]
fn many_lines() {
    let good = |count| "a=/b\n".repeat(count);
    assert_eq!(parts(good(32)).map(|all| all.len()), Ok(32));
    let gaps = good(32).replace('\n', "\n\n\n");
    assert_eq!(parts(gaps).map(|all| all.len()), Ok(32));
    no(good(33), 3, 160);
    no(good(40), 3, 160);
    no(good(32) + "x", 3, 160);
    no(good(32) + "\n\n:=", 3, 162);
    // A line that is refused comes before the count.
    no(good(31) + "x\n" + &good(2), 52, 155);
    no(good(31) + ":a=/b\n" + &good(2), 4, 155);
}

#[test]
fn buffers() {
    let list = b"lib=/l";
    let bytes = b"\x01\x01/\x03lib\x02/l";
    assert_eq!(section(&read(list).unwrap()), bytes);
    assert_eq!(bytes.len(), 10);
    assert_eq!(answer(list, 10), Ok(10));
    assert_eq!(answer(list, 11), Ok(10));
    assert_eq!(answer(list, 9), Err((14, 0)));
    assert_eq!(answer(list, 0), Err((14, 0)));
    // A bad line comes before a short buffer.
    assert_eq!(answer(b"lib=/l\nx", 0), Err((52, 7)));
    // The longest section.
    let path = longest_path();
    let list = format!("{path}:{}/={path}/\n", "n".repeat(255)).repeat(32);
    assert_eq!(answer(list.as_bytes(), 24_577), Ok(24_577));
    assert_eq!(answer(list.as_bytes(), 24_576), Err((14, 0)));
}

#[test]
fn places() {
    let remappings = read(b"\nlib=/l\n/r:a=/b").unwrap();
    let places = |r: &Remapping| (r.at, r.context_at, r.name_at, r.target_at);
    let places: Vec<_> = remappings.iter().map(places).collect();
    assert_eq!(places, [(1, 1, 1, 5), (8, 8, 11, 13)]);
}

/// The section stands in the bundle that has the same remappings.
#[test]
fn section_of_a_bundle() {
    let bundle = Bundle {
        root: b"/".to_vec(),
        remappings: read(b"lib=/l\n/r:a/=/b/").unwrap(),
        files: vec![File {
            path: b"/m".to_vec(),
            ..File::default()
        }],
        ..Bundle::default()
    };
    let bytes = bundle.encode().unwrap();
    let section = section(&bundle.remappings);
    // Header, root and no folder come before it, one empty file after it.
    assert_eq!(bytes[6..6 + section.len()], section);
    assert_eq!(bytes[6 + section.len()..], *b"\x01\x02/m\0\0");
}

#[test]
fn printed_and_read() {
    let line = |context: &str, name: &str, target: &str| {
        let remapping = remapping(context.as_bytes(), name.as_bytes(), target.as_bytes());
        line_of(&remapping).map(|line| String::from_utf8(line).unwrap())
    };
    for (context, name, target, expected) in [
        ("/", "lib", "/l", "/:lib=/l"),
        ("/r", "a:b", "/", "/r:a:b=/"),
        ("/r", "", "/b", "/r:=/b"),
        ("/", "/", "/b", "/://=/b"),
        ("/", "a/", "/b:c=d", "/:a//=/b:c=d"),
    ] {
        let printed = line(context, name, target).unwrap();
        assert_eq!(printed, expected);
        one(printed, context, name, target);
    }
    for (context, name) in [("/a:b", "a"), ("/a=b", "a"), ("/", "a=b"), ("/", "a\nb")] {
        assert_eq!(line(context, name, "/l"), None);
    }
    // A name of 255 bytes that ends in `/` is written with 256.
    let name = "n".repeat(254) + "/";
    one(line("/", &name, "/l").unwrap(), "/", &name, "/l");
}
