//! Files with every form of item, and files that are refused, with line and column.

use source_items::{line_and_column, read, SourceBody, SourceItem};

fn shown(items: &[SourceItem]) -> String {
    items.iter().map(show).collect::<Vec<_>>().join("; ")
}

fn show(item: &SourceItem) -> String {
    let visibility = if item.public { "pub " } else { "" };
    let body = match &item.body {
        SourceBody::TypeAlias(name) => format!("type {}", name.text),
        SourceBody::Function(name) => format!("fn {}", name.text),
        SourceBody::Enum(name) => format!("enum {}", name.text),
        SourceBody::Use { segments, elements } => {
            let segments: String = segments
                .iter()
                .map(|segment| format!("{}::", segment.text))
                .collect();
            let elements: Vec<String> = elements
                .iter()
                .map(|element| match &element.alias {
                    Some(alias) => format!("{} as {}", element.name.text, alias.text),
                    None => element.name.text.clone(),
                })
                .collect();
            format!("use {segments}{{{}}}", elements.join(", "))
        }
        SourceBody::Module { name, items } => format!("mod {} {{ {} }}", name.text, shown(items)),
    };
    visibility.to_string() + &body
}

#[track_caller]
fn reads(text: &str, items: &str) {
    assert_eq!(shown(&read(text).unwrap()), items);
}

#[track_caller]
fn refuses(text: &str, at: (usize, usize), message: &str) {
    let error = read(text).unwrap_err();
    assert_eq!(
        line_and_column(text, error.span.start),
        at,
        "{}",
        error.message
    );
    assert!(error.message.contains(message), "{}", error.message);
}

#[test]
fn items() {
    reads("", "");
    reads("simc \">=0.4\";\nfn main() {}", "fn main");
    reads("use crate::a::f;", "use crate::a::{f}");
    reads(
        "pub use limits::daily::{check as within, T,};",
        "pub use limits::daily::{check as within, T}",
    );
    reads("use x;", "use {x}");
    reads("use x as y;", "use {x as y}");
    reads("use crate::a::{};", "use crate::a::{}");
    reads("type T = Either<(u8, [u16; 4]), List<bool, 8>>;", "type T");
    reads(
        "pub fn f(a: u8, b: (u8, u8)) -> [u8; 2] { let x: u8 = { 1 }; [a, x] }",
        "pub fn f",
    );
    reads("enum Side { Left(u8), Right }", "enum Side");
    reads(
        "mod m { pub fn f() { assert!(jet::eq_32(1, 0xff)) } mod n { use crate::a::T; } }",
        "mod m { pub fn f; mod n { use crate::a::{T} } }",
    );
}

#[test]
fn comments_and_attributes() {
    reads(
        "// use a::b;\n/* fn f() { /* nested */ } */ fn g() {} // end",
        "fn g",
    );
    reads("#[allow(x)]\n#![y]\npub type T = u8;", "pub type T");
    reads("fn f() { /* } */ }", "fn f");
}

#[test]
fn refusals() {
    refuses("fn f( {}", (1, 5), "not closed");
    refuses("\n  use a::b", (2, 11), "expected `;`");
    refuses("fn f() }", (1, 8), "expected `{`");
    refuses("type u8 u8;", (1, 9), "expected `=`");
    refuses("fn use() {}", (1, 4), "the name of a function");
    refuses("let x = 1;", (1, 1), "expected `use`");
    refuses("/* fn f() {}", (1, 1), "not closed");
    refuses("mod m { fn f() {}", (1, 18), "expected `}`");
    refuses("fn f() { ( ] }", (1, 12), "closes no bracket");
    refuses("fn f() {} $", (1, 11), "does not belong here");
}

#[test]
fn spans() {
    let text = "\n    pub use a::{b, c as d};\n";
    let items = read(text).unwrap();
    assert_eq!(
        &text[items[0].span.start..items[0].span.end],
        "pub use a::{b, c as d};"
    );
    assert_eq!(line_and_column(text, items[0].span.start), (2, 5));
}
