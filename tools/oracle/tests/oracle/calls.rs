//! Direct calls: names, trees, graphs, resolution.

use crate::common::*;
use oracle::ast::scope::Tree;
use oracle::judge::Judge;
use oracle::resolve::Resolver;
use oracle::{graph, tree};

#[test]
fn paths_and_names() {
    for (question, expected) in [
        (format!("keyword {}", hex("simc")), "1"),
        (format!("keyword {}", hex("main")), "0"),
        (format!("identifier {}", hex("_a9")), "1"),
        (format!("identifier {}", hex("use")), "1"),
        (format!("identifier {}", hex("9a")), "0"),
        (format!("identifier {}", hex(&"a".repeat(32))), "1"),
        (format!("identifier {}", hex(&"a".repeat(33))), "0"),
        ("identifier ".to_string(), "0"),
        ("identifier ff".to_string(), "0"),
        (format!("path {}", hex("/")), "1"),
        (format!("path {}", hex("/a/..")), "0"),
        (
            format!("prefix {} {}", hex("/r/payroll/m.simf"), hex("/r/pay")),
            "0",
        ),
        (format!("prefix {} {}", hex("/r/pay"), hex("/r/pay")), "1"),
        (format!("prefix {} {}", hex("/r/pay"), hex("/")), "1"),
        (format!("parent {}", hex("/r/pay")), &hex("/r")),
        (format!("parent {}", hex("/r")), &hex("/")),
        (format!("parent {}", hex("/")), "-"),
        (format!("in {} {}", hex("/r"), hex("/")), "1"),
        (format!("in {} {}", hex("/r/a/b"), hex("/r")), "0"),
        (format!("in {} {}", hex("/"), hex("/")), "0"),
        (
            format!("child {} {} {}", hex("/a"), hex("/"), hex("a")),
            "1",
        ),
        (
            format!("child {} {} {}", hex("/r/a"), hex("/r"), hex("a")),
            "1",
        ),
        (
            format!("child {} {} {}", hex("//a"), hex("/"), hex("a")),
            "0",
        ),
        (
            format!("simf {} {} {}", hex("/r/a.simf"), hex("/r"), hex("a")),
            "1",
        ),
        ("unit 64".to_string(), "unit_64"),
    ] {
        assert_eq!(names(&question), expected, "{question}");
    }
    for bad in [
        "keyword",
        "keyword 0",
        "keyword 00 00",
        "unit x",
        "other 00",
    ] {
        assert_eq!(oracle::names::answer(bad), None, "{bad}");
    }
}

/// The answers of a list of calls, and the tree it leaves.
fn calls(list: &[&str]) -> (Vec<String>, String) {
    let mut tree = Tree::default();
    let answers = list
        .iter()
        .map(|line| tree::answer(&mut tree, line).expect(line));
    (answers.collect(), tree.write())
}

#[test]
fn tree_calls() {
    let list = [
        ("exit", "no 50"),
        ("enter a 1 10", "ok"),
        ("enter b 1 11", "ok"),
        ("alias T 1 12", "ok"),
        ("enum T 0 13", "no 48"),
        ("function f 0 14", "ok"),
        ("function f 0 15", "no 49"),
        ("get_alias T", "ok 12"),
        ("get_alias f", "no 43"),
        ("get_function f", "ok 14"),
        ("get_function T", "no 43"),
        ("use 0 a::b f", "no 40"),
        ("use 0 - f", "no 40"),
        ("use 0 crate::c f", "no 41"),
        // The open module, as it is now.
        ("use 1 crate a=copy", "ok"),
        ("exit", "ok"),
        ("exit", "ok"),
        ("enter a 0 16", "no 47"),
        ("use 0 crate::a::b f", "no 44"),
        ("use 0 crate::a::b T=U,g", "no 43"),
        ("get_alias U", "no 43"),
        ("use 0 crate::a::b::copy::b T=U", "ok"),
        ("get_alias U", "ok 12"),
    ];
    let (lines, expected): (Vec<&str>, Vec<&str>) = list.into_iter().unzip();
    let (answers, written) = calls(&lines);
    assert_eq!(answers, expected);
    let expected = [
        "1 U 0 12",
        "3 a 1 10",
        "  3 b 1 11",
        "    1 T 1 12",
        "    2 f 0 14",
        "    3 copy 1 10",
        "      3 b 1 11",
        "        1 T 1 12",
        "        2 f 0 14",
    ];
    assert_eq!(written.lines().collect::<Vec<_>>(), expected);
}

#[test]
fn tree_arguments() {
    let long = "n".repeat(33);
    let segments = vec!["crate"; 18].join("::");
    let elements = vec!["f"; 33].join(",");
    let list = [
        "enter 9a 0 1".to_string(),
        "enter - 0 1".to_string(),
        format!("alias {long} 0 1"),
        "enum a-b 2 1".to_string(),
        "function a-b 1 1".to_string(),
        "get_alias -".to_string(),
        "get_function 9".to_string(),
        format!("use 2 {segments} f"),
        format!("use 0 {segments} f"),
        format!("use 0 a-b {elements}"),
        format!("use 0 crate {elements}"),
        "use 0 crate f=9".to_string(),
    ];
    let list: Vec<&str> = list.iter().map(String::as_str).collect();
    let numbers = [5, 5, 5, 6, 5, 5, 5, 6, 3, 5, 3, 5];
    let (answers, written) = calls(&list);
    assert_eq!(answers, numbers.map(|number| format!("no {number}")));
    assert_eq!(written, "");
}

/// A use by its bytes: cut and left-over bytes, counts, names; the first in byte order is told.
#[test]
fn tree_use_bytes() {
    let crate_f = "0105637261746501016600";
    let list = [
        ("function f 1 1".to_string(), "ok"),
        (format!("use_form 0 {crate_f}"), "no 45"),
        (
            format!("use_form 0 {}", crate_f.replace("00", "0167")),
            "ok",
        ),
        (format!("use_form 0 {crate_f}00"), "no 1"),
        (format!("use_form 0 {}", &crate_f[..20]), "no 1"),
        (format!("use_form 2 {}", &crate_f[..20]), "no 6"),
        ("use_form 0 ".to_string(), "no 1"),
        ("use_form 0 00".to_string(), "no 1"),
        ("use_form 0 0000".to_string(), "no 40"),
        ("use_form 0 12".to_string(), "no 3"),
        ("use_form 0 11".to_string(), "no 1"),
        ("use_form 0 0021".to_string(), "no 3"),
        ("use_form 0 010130".to_string(), "no 5"),
        ("use_form 0 0100".to_string(), "no 5"),
        ("use_form 0 01ff61".to_string(), "no 1"),
        ("get_function g".to_string(), "ok 1"),
    ];
    let lines: Vec<&str> = list.iter().map(|(line, _)| line.as_str()).collect();
    let (answers, _) = calls(&lines);
    let expected: Vec<&str> = list.iter().map(|(_, answer)| *answer).collect();
    assert_eq!(answers, expected);
}

/// 51 leaves the tree as it was: nine open modules, 1,024 entries.
#[test]
fn tree_limits() {
    let mut tree = Tree::default();
    let mut call = |line: &str| tree::answer(&mut tree, line).expect(line);
    for depth in 0..9 {
        assert_eq!(call(&format!("enter m{depth} 1 1")), "ok");
    }
    assert_eq!(call("enter m9 1 1"), "no 51");
    assert_eq!(call("exit"), "ok");
    assert_eq!(call("enter m8 1 1"), "no 47");
    for n in 9..1022 {
        assert_eq!(call(&format!("function f{n} 1 1")), "ok");
    }
    // Two places are left.
    assert_eq!(call("use 1 crate m0=c0,m0=c1,m0=c2"), "no 51");
    assert_eq!(call("use 1 crate m0=c0,m0=c0,m0=c2"), "no 45");
    assert_eq!(call("use 1 crate m0=c0,m0=c1"), "ok");
    for line in [
        "function g 1 1",
        "alias T 1 1",
        "enum E 1 1",
        "enter n 1 1",
        "use 1 crate m0",
    ] {
        assert_eq!(call(line), "no 51", "{line}");
    }
    assert_eq!(call("function f9 1 1"), "no 49");
    assert_eq!(call("get_function g"), "no 43");
    assert_eq!(call("get_alias T"), "no 43");
    assert_eq!(call("use 1 crate -"), "ok");
    assert_eq!(call("exit"), "ok");
}

#[test]
fn graphs() {
    for (question, expected) in [
        ("0+0 -", "ok 0"),
        ("0+1,1+1 1,0", "no 26 0 1"),
        ("0+2,2+1,3+0 0,1,2", "ok 2 1 0"),
        ("0+2,2+1,2+1,3+0 1,2,3", "ok 3 1 2 0"),
        ("0+1,1+1,2+1,3+1 1,2,3,2", "no 26 2 3"),
        ("0+1,1+1,0+0 1,1", "ok 1 0"),
        ("- -", "no 3"),
        ("1+0 -", "no 1"),
        ("0+2 0", "no 1"),
        ("0+1 1", "no 29"),
        ("0+1,0+2 2", "no 1"),
    ] {
        assert_eq!(
            graph::answer(question).as_deref(),
            Some(expected),
            "{question}"
        );
    }
    let lists = |count: usize| vec!["0+0"; count].join(",");
    let ids = |count: usize| vec!["0"; count].join(",");
    let ask = |lists: String, ids: String| graph::answer(&format!("{lists} {ids}"));
    assert_eq!(ask(lists(64), ids(256)).as_deref(), Some("ok 0"));
    assert_eq!(ask(lists(65), ids(256)).as_deref(), Some("no 3"));
    assert_eq!(ask(lists(64), ids(257)).as_deref(), Some("no 3"));
}

#[test]
fn resolution_calls() {
    let lent = bundle(
        "/r",
        ["/r", "/r/s", "/l"],
        [("/", "lib", "/l")],
        [
            file("/r/m.simf", [function("main")]),
            file("/r/s/n.simf", []),
            file("/l/x.simf", []),
            file("/o.simf", []),
        ],
    );
    let mut resolver = Resolver::new(Judge::new().unwrap());
    let mut ask = |line: &str| resolver.answer(line);
    assert_eq!(ask("use /r/m.simf crate"), None);
    assert_eq!(ask("bundle 0100").as_deref(), Some("no 1 0"));
    assert_eq!(ask("use m crate").as_deref(), Some("no 1 0"));
    let bytes = oracle::to_hex(&lent.bytes);
    assert_eq!(ask(&format!("bundle {bytes}")).as_deref(), Some("ok"));
    let long = vec!["a"; 17].join("::");
    for (question, expected) in [
        ("r 9", "no 4 0"),
        (&format!("/r {long}"), "no 3 0"),
        ("/r 9", "no 5 0"),
        ("/r crate", "no 29 0"),
        ("/r/x.simf crate", "no 29 0"),
        ("/r/m.simf -", "no 20 0"),
        ("/r/m.simf other::x", "no 21 0"),
        ("/r/m.simf lib::y", "no 22 0"),
        ("/r/s/n.simf crate::y", "no 23 0"),
        ("/l/x.simf lib::x", "no 24 0"),
        ("/o.simf crate::o", "no 25 0"),
        ("/r/m.simf lib::x::a::b", "ok /l/x.simf a::b"),
        ("/r/m.simf crate::s::n", "ok /r/s/n.simf -"),
        ("/r/m.simf crate::s::o", "ok /r/m.simf s::o"),
        ("/l/x.simf crate", "ok /l/x.simf -"),
    ] {
        let answer = ask(&format!("use {question}"));
        assert_eq!(answer.as_deref(), Some(expected), "{question}");
    }
}
