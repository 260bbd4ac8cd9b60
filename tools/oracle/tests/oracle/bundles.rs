//! Whole bundles: the printed case, the corner cases, and a bundle for each
//! number that is not about the bundle's own bytes.

use crate::common::*;
use oracle::judge::Judge;

/// The printed case: bundle, answer and image.
#[test]
fn printed_case() {
    let main = file("/r/main.simf", [use_("crate::a", "f"), function("main")]);
    let whole = bundle(
        "/r",
        ["/r"],
        [],
        [main.clone(), file("/r/a.simf", [public(function("f"))])],
    );
    assert_eq!(whole.bytes.len(), 71);
    assert_eq!(
        whole.answer_with_image(),
        "ok 2\n\
         unit 1 /r/a.simf\n\
         unit 0 /r/main.simf\n\
         has crate::unit_1 2 f 65\n\
         has crate::unit_0 2 f 65\n\
         has crate::unit_0 2 main 44\n\
         image 01003b000f050006756e69745f310004020101660028050006756e69745f30\
         001403000205637261746506756e69745f310101660000070200046d61696e\n"
    );
    assert_eq!(bundle("/r", ["/r"], [], [main]).answer(), "no 41 27\n");
}

/// C1: `/r/pay` is no prefix of `/r/payroll/m.simf`, and one of itself.
#[test]
fn c1_prefix_by_components() {
    let of = |context| {
        bundle(
            "/r",
            ["/r", "/r/payroll", "/l"],
            [(context, "lib", "/l")],
            [
                file("/r/payroll/m.simf", [use_("lib::x", "f"), function("main")]),
                file("/l/x.simf", [public(function("f"))]),
            ],
        )
    };
    let mut pay = of("/r/pay");
    pay.folder("/r/pay");
    assert_eq!(pay.answer(), format!("no 21 {}\n", pay.mark(0)));
    assert!(of("/r/payroll").answer().starts_with("ok 2\n"));
    // A context that is the importer's own path is a file, so that no bundle shows the rest of C1.
    assert_eq!(names(&format!("prefix {0} {0}", hex("/r/pay"))), "1");
}

/// C2: of the contexts `/` and `/r/pay`, `/r/pay/m.simf` takes the second.
#[test]
fn c2_longest_context_first() {
    let of = |remappings| {
        bundle(
            "/r",
            ["/r", "/r/pay", "/a", "/b"],
            remappings,
            [
                file("/r/pay/m.simf", [use_("lib::x", "f"), function("main")]),
                file("/a/x.simf", [public(function("f"))]),
                file("/b/x.simf", [public(function("f"))]),
            ],
        )
    };
    let (all, pay) = (("/", "lib", "/a"), ("/r/pay", "lib", "/b"));
    for remappings in [[all, pay], [pay, all]] {
        assert_eq!(of(remappings).line(1), "unit 1 /b/x.simf");
    }
}

/// C3: a folder beside a file of its name is entered, and then no file is found.
#[test]
fn c3_folder_beside_file() {
    let of = |path| {
        bundle(
            "/r",
            ["/r", "/r/a", "/r/s"],
            [],
            [
                file(path, [use_("crate::a", "f"), function("main")]),
                file("/r/a.simf", [public(function("f"))]),
            ],
        )
    };
    let below = of("/r/s/m.simf");
    assert_eq!(below.answer(), format!("no 23 {}\n", below.mark(0)));
    // C4 makes `a` a module of the file itself, which has none.
    let directly = of("/r/m.simf");
    assert_eq!(directly.answer(), format!("no 41 {}\n", directly.mark(0)));
}

/// C4: a file directly in its package root resolves to itself after a failed `crate` path.
#[test]
fn c4_own_file() {
    let of = |path| {
        bundle(
            "/r",
            ["/r", "/r/s"],
            [],
            [file(
                path,
                [
                    module("a", [public(function("f"))]),
                    use_("crate::a", "f"),
                    function("main"),
                ],
            )],
        )
    };
    let directly = of("/r/m.simf");
    assert_eq!(
        directly.answer(),
        format!(
            "ok 1\n\
             unit 0 /r/m.simf\n\
             has crate::unit_0 3 a {}\n\
             has crate::unit_0::a 2 f {}\n\
             has crate::unit_0 2 f {}\n\
             has crate::unit_0 2 main {}\n",
            directly.mark(0),
            directly.mark(1),
            directly.mark(1),
            directly.mark(3),
        )
    );
    let below = of("/r/s/m.simf");
    assert_eq!(below.answer(), format!("no 23 {}\n", below.mark(2)));
}

/// C5: the folder `/r/b.simf` resolves, and is refused only on reading, so after the lookup fault
/// of a later use.
#[test]
fn c5_folder_with_a_file_name() {
    let c5 = bundle(
        "/r",
        ["/r", "/r/b.simf"],
        [],
        [file(
            "/r/m.simf",
            [use_("crate::b", "f"), use_("lib::x", "f"), function("main")],
        )],
    );
    assert_eq!(
        c5.answer(),
        format!("no 21 {}\nno 23 {}\n", c5.mark(1), c5.mark(0))
    );
}

/// C6: an unreadable path is reported once, across files; lookup faults for each use.
#[test]
fn c6_unreadable_once() {
    let c6 = bundle(
        "/r",
        ["/r", "/r/b.simf"],
        [],
        [
            file(
                "/r/m.simf",
                [
                    use_("crate::b", "f"),
                    use_("crate::b", "g"),
                    use_("lib::x", "f"),
                    use_("crate::n", "f"),
                ],
            ),
            file("/r/n.simf", [use_("crate::b", "f"), use_("lib::x", "f")]),
        ],
    );
    assert_eq!(
        c6.answer(),
        format!(
            "no 21 {}\nno 23 {}\nno 21 {}\n",
            c6.mark(2),
            c6.mark(0),
            c6.mark(5)
        )
    );
}

/// C7: a file importing only itself is no ring.
#[test]
fn c7_self_import() {
    let c7 = bundle(
        "/r",
        ["/r"],
        [],
        [file(
            "/r/m.simf",
            [
                public(function("f")),
                use_("crate::m", "f=g"),
                function("main"),
            ],
        )],
    );
    assert_eq!(c7.line(0), "ok 1");
    assert_eq!(c7.line(3), format!("has crate::unit_0 2 g {}", c7.mark(0)));
}

/// C8: 0 imports 1, 1 imports 0; and a ring starts at the earliest of its units on the walk.
#[test]
fn c8_ring() {
    let imports = |path, to: &str| file(path, [use_(&format!("crate::{to}"), "f")]);
    let two = bundle(
        "/r",
        ["/r"],
        [],
        [imports("/r/m.simf", "a"), imports("/r/a.simf", "m")],
    );
    assert_eq!(two.answer(), "no 26 0\nring 0 1\n");
    let four = bundle(
        "/r",
        ["/r"],
        [],
        [
            imports("/r/m.simf", "a"),
            imports("/r/a.simf", "b"),
            imports("/r/b.simf", "c"),
            imports("/r/c.simf", "b"),
        ],
    );
    assert_eq!(four.answer(), "no 26 0\nring 2 3\n");
}

/// `main` counts only as a top-level function of unit 0; every enum in another unit is reported.
#[test]
fn main_and_enums() {
    let bad = bundle(
        "/r",
        ["/r"],
        [],
        [
            file(
                "/r/m.simf",
                [
                    use_("crate::a", "main"),
                    module("n", [function("main")]),
                    type_("main"),
                    enum_("E"),
                ],
            ),
            file(
                "/r/a.simf",
                [
                    enum_("E"),
                    module("n", [enum_("F"), public(function("main"))]),
                    public(function("main")),
                ],
            ),
            file("/r/unreached.simf", [enum_("E")]),
        ],
    );
    assert_eq!(
        bad.answer(),
        format!("no 28 {}\nno 28 {}\nno 27 0\n", bad.mark(5), bad.mark(7))
    );
}

/// C9: importer `a::b` may pass private `c` in `crate::a::c`, but not private `d` in
/// `crate::a::c::d`.
#[test]
fn c9_private_segments() {
    let of = |path| {
        bundle(
            "/r",
            ["/r"],
            [],
            [file(
                "/r/m.simf",
                [
                    module(
                        "a",
                        [
                            module(
                                "c",
                                [module("d", [public(function("g"))]), public(function("g"))],
                            ),
                            module("b", [use_(path, "g")]),
                        ],
                    ),
                    function("main"),
                ],
            )],
        )
    };
    let c = of("crate::a::c");
    assert!(c
        .answer()
        .contains(&format!("has crate::unit_0::a::b 2 g {}\n", c.mark(4))));
    let d = of("crate::a::c::d");
    assert_eq!(d.answer(), format!("no 42 {}\n", d.mark(6)));
}

/// C10: an empty use list on a valid path changes nothing and is accepted.
#[test]
fn c10_empty_list() {
    let of = |path| {
        bundle(
            "/r",
            ["/r"],
            [],
            [
                file("/r/m.simf", [use_(path, ""), function("main")]),
                file("/r/a.simf", [public(function("f"))]),
            ],
        )
    };
    let good = of("crate::a");
    assert_eq!(
        good.answer(),
        format!(
            "ok 2\n\
             unit 1 /r/a.simf\n\
             unit 0 /r/m.simf\n\
             has crate::unit_1 2 f {}\n\
             has crate::unit_0 2 main {}\n",
            good.mark(2),
            good.mark(1)
        )
    );
    let bad = of("crate::a::n");
    assert_eq!(bad.answer(), format!("no 41 {}\n", bad.mark(0)));
}

/// C11: of type, function and module under a name, one success is enough.
#[test]
fn c11_one_success() {
    let c11 = bundle(
        "/r",
        ["/r"],
        [],
        [
            file(
                "/r/m.simf",
                [function("x"), use_("crate::a", "x"), function("main")],
            ),
            file(
                "/r/a.simf",
                [
                    type_("x"),
                    public(function("x")),
                    public(module("x", [function("y")])),
                ],
            ),
        ],
    );
    // The type is private and the function clashes: the module comes.
    assert_eq!(
        c11.answer(),
        format!(
            "ok 2\n\
             unit 1 /r/a.simf\n\
             unit 0 /r/m.simf\n\
             has crate::unit_1 1 x {type_}\n\
             has crate::unit_1 2 x {function}\n\
             has crate::unit_1 3 x {module}\n\
             has crate::unit_1::x 2 y {inner}\n\
             has crate::unit_0 2 x {own}\n\
             has crate::unit_0 3 x {module}\n\
             has crate::unit_0 2 main {main}\n",
            type_ = c11.mark(3),
            function = c11.mark(4),
            module = c11.mark(5),
            inner = c11.mark(6),
            own = c11.mark(0),
            main = c11.mark(2),
        )
    );
}

/// C12: `as main` anywhere in a list wins over a clash in an earlier element.
#[test]
fn c12_alias_main_first() {
    let of = |elements| {
        bundle(
            "/r",
            ["/r"],
            [],
            [
                file(
                    "/r/m.simf",
                    [function("f"), use_("crate::a", elements), function("main")],
                ),
                file("/r/a.simf", [public(function("f"))]),
            ],
        )
    };
    let clash = of("f");
    assert_eq!(clash.answer(), format!("no 45 {}\n", clash.mark(1)));
    let renamed = of("f,missing,f=main");
    assert_eq!(renamed.answer(), format!("no 46 {}\n", renamed.mark(1)));
}

/// An open module may be imported; the copy shows it as it was then.
#[test]
fn open_module() {
    let open = bundle(
        "/r",
        ["/r"],
        [],
        [file(
            "/r/m.simf",
            [
                public(module(
                    "n",
                    [
                        public(function("f")),
                        public(use_("crate", "n=copy")),
                        public(function("g")),
                    ],
                )),
                use_("crate::n::copy", "f=then"),
                use_("crate::n::copy", "g"),
                function("main"),
            ],
        )],
    );
    // `f` is in the copy and `g`, which came later, is not.
    assert_eq!(open.answer(), format!("no 43 {}\n", open.mark(5)));
}

/// Of two elements with one local name each kind goes to the element that found it.
#[test]
fn entries_by_element_then_kind() {
    let by_element = bundle(
        "/r",
        ["/r"],
        [],
        [
            file(
                "/r/m.simf",
                [use_("crate::a", "f=n,z,T=n"), function("main")],
            ),
            file(
                "/r/a.simf",
                [
                    public(type_("T")),
                    public(function("f")),
                    public(function("z")),
                ],
            ),
        ],
    );
    let has = |line| by_element.line(line);
    assert_eq!(
        has(6),
        format!("has crate::unit_0 2 n {}", by_element.mark(3))
    );
    assert_eq!(
        has(7),
        format!("has crate::unit_0 2 z {}", by_element.mark(4))
    );
    assert_eq!(
        has(8),
        format!("has crate::unit_0 1 n {}", by_element.mark(2))
    );
}

/// 9 to 13, in their order and at their places.
#[test]
fn remappings_and_roots() {
    let of = |root, remapping| {
        bundle(
            root,
            ["/r"],
            [("/r", "good", "/r"), remapping],
            [file("/r/m.simf", [function("main")])],
        )
    };
    let places = |bundle: &Packed| {
        let decoded = bundle.decoded();
        let second = &decoded.remappings[1];
        (
            second.context_at,
            second.name_at,
            second.target_at,
            decoded.root_at,
        )
    };
    let case = |root, remapping, number: u8, pick: fn((usize, usize, usize, usize)) -> usize| {
        let bundle = of(root, remapping);
        let place = pick(places(&bundle));
        assert_eq!(
            bundle.answer(),
            format!("no {number} {place}\n"),
            "{remapping:?}"
        );
    };
    case("/x", ("/x", "crate", "/x"), 9, |at| at.0);
    case("/x", ("/r/m.simf", "crate", "/x"), 10, |at| at.0);
    case("/x", ("/r", "crate", "/x"), 9, |at| at.2);
    case("/x", ("/r", "crate", "/r/m.simf"), 10, |at| at.2);
    case("/x", ("/r", "crate", "/r"), 11, |at| at.1);
    case("/x", ("/r", "use", "/r"), 12, |at| at.1);
    case("/x", ("/r", "", "/r"), 12, |at| at.1);
    case("/x", ("/r", "a-b", "/r"), 12, |at| at.1);
    case(
        "/x",
        ("/r", "n2345678901234567890123456789012x", "/r"),
        12,
        |at| at.1,
    );
    case("/x", ("/r", "good", "/"), 13, |at| at.0);
    case("/x", ("/", "good", "/"), 9, |at| at.3);
    case("/r/m.simf", ("/", "good", "/"), 10, |at| at.3);
    assert_eq!(of("/", ("/", "good", "/")).line(0), "ok 1");
}

/// 20 to 25.
#[test]
fn lookup() {
    let of = |path, uses: [Item; 2]| {
        bundle(
            "/r",
            ["/r", "/r/s", "/l", "/o"],
            [("/", "own", "/r"), ("/", "lib", "/l")],
            [
                file(path, uses),
                file("/r/a.simf", [public(function("f"))]),
                file("/l/a.simf", [public(function("f"))]),
            ],
        )
    };
    let bad = of("/r/m.simf", [use_("", "f"), use_("other::a", "f")]);
    assert_eq!(
        bad.answer(),
        format!("no 20 {}\nno 21 {}\n", bad.mark(0), bad.mark(1))
    );
    let bad = of("/r/m.simf", [use_("lib::b", "f"), use_("lib", "f")]);
    assert_eq!(
        bad.answer(),
        format!("no 22 {}\nno 22 {}\n", bad.mark(0), bad.mark(1))
    );
    let bad = of("/r/s/m.simf", [use_("crate", "f"), use_("own::a", "f")]);
    assert_eq!(
        bad.answer(),
        format!("no 23 {}\nno 24 {}\n", bad.mark(0), bad.mark(1))
    );
    let bad = of("/o/m.simf", [use_("crate::a", "f"), use_("own::a", "f")]);
    assert_eq!(bad.answer(), format!("no 25 {}\n", bad.mark(0)));
}

/// 43 to 45 and 47 to 49.
#[test]
fn scopes() {
    let case = |number: u8, at: usize, items: &[Item]| {
        let items = items.iter().cloned().chain([function("main")]);
        let bundle = bundle(
            "/r",
            ["/r"],
            [],
            [
                file("/r/m.simf", items),
                file("/r/a.simf", [public(function("f")), function("p")]),
            ],
        );
        assert_eq!(
            bundle.answer(),
            format!("no {number} {}\n", bundle.mark(at))
        );
    };
    case(43, 0, &[use_("crate::a", "g")]);
    case(43, 0, &[use_("crate::a", "f=g,g=h")]);
    case(44, 0, &[use_("crate::a", "p")]);
    case(45, 0, &[use_("crate::a", "f,f")]);
    case(47, 1, &[module("n", []), module("n", [])]);
    case(48, 1, &[type_("T"), enum_("T")]);
    case(48, 1, &[enum_("T"), type_("T")]);
    case(49, 1, &[use_("crate::a", "f"), function("f")]);
}

/// 51: 1,024 entries, units counted and an imported module counted as one.
#[test]
fn tree_full() {
    // Two units, `main`, 32 types, and a module with two functions.
    let base = 2 + 1 + 32 + 3;
    let types: Vec<Item> = (0..32).map(|n| public(type_(&format!("t{n}")))).collect();
    let with = |uses: usize, last: &str| {
        let mut items = vec![function("main")];
        for n in 0..uses {
            let elements: Vec<String> = (0..32).map(|k| format!("t{k}=u{n}_{k}")).collect();
            items.push(use_("crate::a", &elements.join(",")));
        }
        items.push(use_("crate::a", last));
        let inner = [public(function("f")), public(function("g"))];
        let library = types.iter().cloned().chain([public(module("n", inner))]);
        bundle(
            "/r",
            ["/r"],
            [],
            [file("/r/m.simf", items), file("/r/a.simf", library)],
        )
    };
    let uses = (1024 - base) / 32;
    let left = 1024 - base - uses * 32;
    let last: Vec<String> = (1..left).map(|k| format!("t{k}=v{k}")).collect();
    let full = with(uses, &format!("n,{}", last.join(",")));
    assert_eq!(full.line(0), "ok 2");
    let over = with(uses, &format!("n,t0=v0,{}", last.join(",")));
    assert_eq!(over.answer(), format!("no 51 {}\n", over.mark(1 + uses)));
    // Otherwise good: what else is wrong with the use comes first.
    let both = with(uses, &format!("n,t0=v0,{},t0=v0", last.join(",")));
    assert_eq!(both.answer(), format!("no 45 {}\n", both.mark(1 + uses)));
}

/// 15: over 65,535 bytes after the header, which is reached as each use's path grows by the unit.
#[test]
fn long_image() {
    let name = |depth: usize| format!("{depth:m>32}");
    let nest = (0..8).rev().fold(None, |inner, depth| {
        Some(public(module(&name(depth), inner)))
    });
    let path: Vec<String> = (0..8).map(name).collect();
    let path = format!("crate::{}", path.join("::"));
    let of = |fill: usize| {
        let uses = (0..225).map(|_| use_(&path, ""));
        let fill =
            (0..50).map(|n| function(&format!("f{n:f>width$}", width = 2 + (fill + n) / 50)));
        let items = [function("main")]
            .into_iter()
            .chain(nest.clone())
            .chain(uses)
            .chain(fill);
        bundle("/r", ["/r"], [], [file("/r/m.simf", items)])
    };
    let image = |bundle: &Packed| {
        let answer = bundle.answer_with_image();
        let image = answer
            .lines()
            .last()
            .and_then(|line| line.strip_prefix("image "));
        image.map(|image| image.len() / 2 - 3)
    };
    let short = image(&of(0)).expect("short enough");
    let full = of(65_535 - short);
    assert_eq!(image(&full), Some(65_535));
    assert_eq!(of(65_535 - short + 1).answer(), "no 15 0\n");
}

/// A bundle whose tree doubles with each use.
#[test]
fn large() {
    let of = |uses: usize| {
        let copies = (0..uses).map(|n| public(use_("crate", &format!("n=c{n}"))));
        let items = [public(module("n", copies)), function("main")];
        bundle("/r", ["/r"], [], [file("/r/m.simf", items)])
    };
    assert_eq!(of(19).line(0), "ok 1");
    assert_eq!(of(21).answer(), "large\n");
}

/// Steps 3 and 4 alone.
#[test]
fn discovery() {
    let discover = |bytes: &[u8]| Judge::new().expect("a root").discover(bytes).print();
    let of = |main: Vec<Item>, a: Vec<Item>, b: Vec<Item>| {
        let files = [
            file("/r/m.simf", main),
            file("/r/a.simf", a),
            file("/r/b.simf", b),
        ];
        discover(&bundle("/r", ["/r", "/r/c.simf"], [], files).bytes)
    };
    let nested = module("n", [use_("crate::b", ""), use_("crate::a", "")]);
    assert_eq!(
        of(
            vec![nested, use_("crate::b::x", "")],
            vec![],
            vec![use_("crate::a", "")]
        ),
        "unit 0 /r/m.simf 1 2\nunit 1 /r/b.simf 2\nunit 2 /r/a.simf\norder 2 1 0\n"
    );
    // A file that only imports itself is no ring; `main` and enums are no concern of these steps.
    assert_eq!(
        of(
            vec![use_("crate::m", ""), use_("crate::a", "")],
            vec![enum_("E")],
            vec![]
        ),
        "unit 0 /r/m.simf 0 1\nunit 1 /r/a.simf\norder 1 0\n"
    );
    assert_eq!(
        of(
            vec![use_("crate::a", "")],
            vec![use_("crate::b", "")],
            vec![use_("crate::a", "")]
        ),
        "unit 0 /r/m.simf 1\nunit 1 /r/a.simf 2\nunit 2 /r/b.simf 1\nring 1 2\n"
    );
    // Lookups come before readings; a folder that cannot be read is told once.
    let faulty = of(
        vec![
            use_("crate::c", ""),
            use_("lib::a", ""),
            use_("crate::c", ""),
            use_("crate::a", ""),
        ],
        vec![use_("", "")],
        vec![],
    );
    let numbers: Vec<&str> = faulty
        .lines()
        .map(|line| line.split(' ').nth(1).expect("a number"))
        .collect();
    assert_eq!(numbers, ["21", "23", "20"]);
    assert_eq!(discover(&[1, 0, 1, 0, 255]), "no 1 4\n");
}
