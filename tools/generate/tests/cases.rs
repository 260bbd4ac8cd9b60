//! The cases that `bench` measures are what their names say, and link.

use bundle_format::{Body, Bundle, Item};
use bundle_generate::{case, link, CASES};

fn count(items: &[Item], what: &dyn Fn(&Item) -> bool) -> usize {
    let inside = |item: &Item| match &item.body {
        Body::Module { items, .. } => count(items, what),
        _ => 0,
    };
    items
        .iter()
        .map(|item| usize::from(what(item)) + inside(item))
        .sum()
}

#[test]
fn each_links() {
    for (name, _) in CASES {
        let bytes = case(name).expect("a case");
        let text = link::run(&bytes, 1_000_000).text;
        assert!(text.starts_with("ok "), "{name}: {text}");
    }
    assert!(case("none").is_none());
}

#[test]
fn sizes() {
    let bundle = |name| Bundle::decode(&case(name).expect("a case")).expect("a bundle");
    let all = |bundle: &Bundle, what: &dyn Fn(&Item) -> bool| -> usize {
        let files = bundle.files.iter();
        files.map(|file| count(&file.items, what)).sum()
    };
    let is_use = |item: &Item| matches!(item.body, Body::Use { .. });

    assert_eq!(bundle("office").files.len(), 12);
    let wide = bundle("wide");
    assert_eq!((wide.files.len(), all(&wide, &is_use)), (64, 256));
    assert_eq!(all(&bundle("names"), &|_| true), 1_024);
    let siblings = bundle("siblings");
    assert_eq!(siblings.root.len(), 231);
    assert_eq!((siblings.folders.len(), all(&siblings, &is_use)), (64, 256));
    let text = link::run(&case("scopes").expect("a case"), 1_000_000).text;
    let entries = text.lines().filter(|line| !line.starts_with("ok "));
    assert_eq!(entries.count(), 1_004);
}
