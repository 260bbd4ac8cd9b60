//! Families of bundles that mostly link.

use bundle_format::{Body, Bundle, Item};

use super::encode;
use crate::lookup::join;
use crate::project::{
    any_folder, element, file, fill, function, import, item, layout, module, project, remapping,
    Shape, LIBRARIES, SHAPE,
};
use crate::rng::Rng;

pub const REEXPORTS: Shape = Shape {
    folders: (0, 2),
    remappings: (0, 2),
    files: (4, 10),
    items: (2, 5),
    kinds: [5, 15, 70, 0, 8, 2],
    public: 85,
    own: 5,
    ..SHAPE
};

pub const CONTEXTS: Shape = Shape {
    folders: (4, 9),
    remappings: (4, 10),
    files: (3, 8),
    items: (1, 4),
    nested: 50,
    ..SHAPE
};

pub const MODULES: Shape = Shape {
    folders: (0, 1),
    remappings: (0, 0),
    files: (1, 2),
    items: (4, 12),
    depth: 8,
    kinds: [8, 15, 35, 2, 38, 2],
    public: 60,
    own: 60,
    ..SHAPE
};

pub const COPIES: Shape = Shape {
    folders: (0, 1),
    remappings: (0, 1),
    files: (1, 3),
    items: (4, 10),
    depth: 3,
    kinds: [5, 12, 50, 1, 30, 2],
    public: 80,
    own: 60,
    modules: 70,
    ..SHAPE
};

pub const OWN: Shape = Shape {
    folders: (0, 2),
    files: (1, 3),
    own: 85,
    ..SHAPE
};

pub const KEYWORDS: Shape = Shape {
    components: &[
        b"pub", b"use", b"as", b"fn", b"let", b"type", b"mod", b"const", b"crate", b"simc", b"main",
    ],
    names: &[
        b"match", b"enum", b"crate", b"simc", b"true", b"false", b"as", b"main", b"pub", b"use",
        b"unit_1", b"_", b"__", b"F", b"f0",
    ],
    depth: 3,
    ..SHAPE
};

const LONGEST: Shape = Shape {
    folders: (5, 17),
    files: (2, 8),
    components: &[
        b"abcdefghijklmnopqrstuvwxyz_01234",
        b"abcdefghijklmnopqrstuvwxyz_01235",
        b"abcdefghijklmnopqrstuvwxyz_0123",
        b"a",
        b"b",
        b"c",
        b"d",
    ],
    names: &[
        b"A123456789_123456789_123456789_1",
        b"A123456789_123456789_123456789_2",
        b"A123456789_123456789_123456789_",
        b"_",
        b"m",
        b"f",
    ],
    nested: 88,
    ..SHAPE
};

const LARGE: Shape = Shape {
    folders: (4, 40),
    remappings: (0, 20),
    files: (16, 64),
    items: (3, 12),
    total: 700,
    ..SHAPE
};

/// The shapes that other families start from.
pub const SHAPES: [&Shape; 7] = [
    &SHAPE, &REEXPORTS, &CONTEXTS, &MODULES, &COPIES, &OWN, &KEYWORDS,
];

pub fn any_project(rng: &mut Rng) -> Bundle {
    let shape = *rng.pick(&SHAPES);
    project(rng, shape, &[])
}

macro_rules! of_shape {
    ($($name:ident $shape:ident)*) => {
        $(pub fn $name(rng: &mut Rng) -> Vec<u8> {
            encode(project(rng, &$shape, &[]))
        })*
    };
}

of_shape! {
    projects SHAPE
    reexports REEXPORTS
    contexts CONTEXTS
    modules MODULES
    copies COPIES
    own OWN
    keywords KEYWORDS
    longest LONGEST
    large LARGE
}

/// The folders of `packages`.
pub const OFFICE: [&[u8]; 9] = [
    b"/src",
    b"/src/pay",
    b"/src/payroll",
    b"/src/pay/lib",
    b"/lib",
    b"/lib/limits",
    b"/lib/limits/math",
    b"/lib/old",
    b"/lib/old/limits",
];

/// Parts of one office's bundle: nested contexts with equal names, libraries inside packages.
pub fn packages(rng: &mut Rng) -> Vec<u8> {
    const REMAPPINGS: [(&[u8], &[u8], &[u8]); 11] = [
        (b"/", b"math", b"/lib/limits/math"),
        (b"/src", b"limits", b"/lib/limits"),
        (b"/src/pay", b"limits", b"/lib/old/limits"),
        (b"/src/pay", b"lib", b"/src/pay/lib"),
        (b"/src", b"lib", b"/src/pay/lib"),
        (b"/src", b"pay", b"/src/pay"),
        (b"/src/payroll", b"limits", b"/lib/limits"),
        (b"/lib", b"limits", b"/lib/limits"),
        (b"/lib/limits", b"math", b"/lib/limits/math"),
        (b"/lib/old", b"limits", b"/lib/old/limits"),
        (b"/src/pay/lib", b"limits", b"/lib/limits"),
    ];
    const FILES: [&[u8]; 12] = [
        b"/src/main.simf",
        b"/src/pay/a.simf",
        b"/src/pay/m.simf",
        b"/src/pay.simf",
        b"/src/payroll/m.simf",
        b"/lib/limits/a.simf",
        b"/lib/limits/m.simf",
        b"/lib/limits/math/a.simf",
        b"/lib/limits/math/b.simf",
        b"/lib/old/limits/a.simf",
        b"/src/pay/lib/a.simf",
        b"/src/pay/lib/m.simf",
    ];
    let mut bundle = Bundle {
        root: rng.word(&[b"/src", b"/src", b"/src", b"/"]).to_vec(),
        folders: OFFICE.iter().map(|folder| folder.to_vec()).collect(),
        ..Bundle::default()
    };
    for (context, name, target) in REMAPPINGS {
        if rng.chance(55) {
            bundle.remappings.push(remapping(context, name, target));
        }
    }
    rng.shuffle(&mut bundle.remappings);
    for (index, path) in FILES.into_iter().enumerate() {
        if index == 0 || rng.chance(60) {
            bundle.files.push(file(path, Vec::new()));
        }
    }
    let shape = Shape {
        items: (1, 5),
        ..SHAPE
    };
    encode(fill(rng, &shape, bundle, &[]))
}

/// Folders beside files of the same name, folders named like files, files directly in a root.
pub fn shadows(rng: &mut Rng) -> Vec<u8> {
    let shape = Shape {
        components: &[b"a", b"b", b"m"],
        own: 40,
        ..SHAPE
    };
    let mut bundle = layout(rng, &shape);
    for _ in 0..rng.between(1, 3) {
        let name = rng.word(&[b"a", b"b", b"m", b"main", b"a.simf", b"b.simf"]);
        let folder = join(&any_folder(rng, &bundle), name);
        let listed = bundle.files.iter().any(|file| file.path == folder);
        if !listed && !bundle.folders.contains(&folder) {
            bundle.folders.push(folder);
        }
    }
    let mut bundle = fill(rng, &shape, bundle, &[]);
    for _ in 0..rng.below(3) {
        let words: Vec<&str> = (0..rng.between(1, 2))
            .map(|_| *rng.pick(&["a", "b", "m", "f"]))
            .collect();
        let segments = format!("crate::{}", words.join("::"));
        let elements = if rng.chance(60) {
            Vec::new()
        } else {
            vec![element(b"f", Some(b"q"))]
        };
        let chosen = rng.below(bundle.files.len());
        let items = &mut bundle.files[chosen].items;
        items.push(import(rng.chance(50), &segments, elements));
    }
    encode(bundle)
}

/// A long chain of files, each passing on what the next one has.
pub fn chains(rng: &mut Rng) -> Vec<u8> {
    let count = if rng.chance(20) {
        rng.between(30, 64)
    } else {
        rng.between(2, 12)
    };
    let mut bundle = Bundle {
        root: b"/r".to_vec(),
        folders: vec![b"/r".to_vec()],
        ..Bundle::default()
    };
    let names: [&[u8]; 3] = [b"f", b"T", b"m"];
    for index in 0..count {
        let mut items = Vec::new();
        if index + 1 < count {
            let elements = names.iter().map(|name| element(name, None)).collect();
            let private = index > 0 && rng.chance(1);
            items.push(import(
                !private,
                &format!("crate::c{}", index + 1),
                elements,
            ));
        } else {
            items.push(function(true, b"f"));
            items.push(item(true, Body::TypeAlias(b"T".to_vec())));
            items.push(module(true, b"m", vec![function(true, b"g")]));
        }
        // A second way to a later file, which meets the chain again.
        if index + 2 < count && rng.chance(30) {
            let later = rng.between(index + 2, count - 1);
            let into = if rng.chance(50) { "" } else { "::m" };
            let name = if into.is_empty() { b"f" } else { b"g" };
            let elements = vec![element(name, Some(b"h"))];
            items.push(import(
                rng.chance(50),
                &format!("crate::c{later}{into}"),
                elements,
            ));
        }
        let path = if index == 0 {
            items.push(function(false, b"main"));
            "/r/main.simf".to_string()
        } else {
            format!("/r/c{index}.simf")
        };
        if rng.chance(20) {
            items.reverse();
        }
        bundle.files.push(file(path, items));
    }
    encode(bundle)
}

/// Any import graph: diamonds, rings, files importing themselves.
pub fn graphs(rng: &mut Rng) -> Vec<u8> {
    let count = rng.between(1, 9);
    let density = *rng.pick(&[10, 20, 35]);
    let upward = *rng.pick(&[0, 0, 3, 10]);
    let mut bundle = Bundle {
        root: b"/r".to_vec(),
        folders: vec![b"/r".to_vec()],
        ..Bundle::default()
    };
    for from in 0..count {
        let mut targets: Vec<usize> = (0..count)
            .filter(|&to| rng.chance(if to > from { density } else { upward }))
            .collect();
        rng.shuffle(&mut targets);
        let mut items: Vec<Item> = targets
            .into_iter()
            .map(|to| {
                let elements = match rng.below(3) {
                    0 => vec![element(b"f", Some(format!("f{to}").as_bytes()))],
                    _ => Vec::new(),
                };
                import(rng.chance(50), &format!("crate::c{to}"), elements)
            })
            .collect();
        if from == 0 {
            items.push(function(false, b"main"));
        }
        // The own function comes first, so that a file may import it from itself.
        items.insert(0, function(true, b"f"));
        if rng.chance(20) {
            let inner = items.pop().expect("the file has a function");
            if matches!(inner.body, Body::Use { .. }) {
                items.push(module(true, b"m", vec![inner]));
            } else {
                items.push(inner);
            }
        }
        bundle.files.push(file(format!("/r/c{from}.simf"), items));
    }
    encode(bundle)
}

/// Modules that each import the one before, so that paths grow to 17 segments.
pub fn deep_paths(rng: &mut Rng) -> Vec<u8> {
    let depth = rng.between(2, 16);
    let in_entry = rng.chance(50);
    let mut items = vec![module(true, b"p0", vec![function(true, b"f")])];
    for level in 1..depth {
        let from = if in_entry { "crate" } else { "crate::a" };
        let inner = import(
            !rng.chance(2),
            from,
            vec![element(format!("p{}", level - 1).as_bytes(), None)],
        );
        items.push(module(true, format!("p{level}").as_bytes(), vec![inner]));
    }
    let mut segments = String::from(if in_entry { "crate" } else { "crate::a" });
    for level in (0..depth).rev() {
        segments += &format!("::p{level}");
    }
    if rng.chance(8) {
        segments += "::p0";
    }
    let last = import(true, &segments, vec![element(b"f", None)]);
    let entry = vec![last, function(false, b"main")];
    let files = if in_entry {
        items.extend(entry);
        vec![file("/r/main.simf", items)]
    } else {
        vec![file("/r/main.simf", entry), file("/r/a.simf", items)]
    };
    encode(Bundle {
        root: b"/r".to_vec(),
        folders: vec![b"/r".to_vec()],
        files,
        ..Bundle::default()
    })
}

/// A module that imports itself again and again: each copy holds those made before it, which
/// doubles the tree written out.
pub fn doubling(rng: &mut Rng) -> Vec<u8> {
    let copies = rng.between(1, 10);
    let mut items = vec![function(true, b"f")];
    let mut made = Vec::new();
    for copy in 0..copies {
        let name = format!("c{copy}");
        items.push(import(
            true,
            "crate",
            vec![element(b"m", Some(name.as_bytes()))],
        ));
        // A function that the copies made before do not hold.
        let own = format!("f{copy}");
        if rng.chance(50) {
            items.push(function(true, own.as_bytes()));
        }
        made.push(name);
    }
    // Mostly from a later copy to an earlier one.
    let mut segments = String::from("crate::m");
    let mut last = copies;
    while last > 0 && rng.chance(80) {
        let bound = if rng.chance(10) { copies } else { last };
        last = rng.below(bound);
        segments += &format!("::{}", made[last]);
    }
    let name = match rng.below(3) {
        0 => format!("f{}", rng.below(copies)),
        1 => made[rng.below(copies)].clone(),
        _ => "f".to_string(),
    };
    let look = import(
        rng.chance(50),
        &segments,
        vec![element(name.as_bytes(), Some(b"q"))],
    );
    let module = module(true, b"m", items);
    encode(Bundle {
        root: b"/".to_vec(),
        files: vec![file(
            "/main.simf",
            vec![module, look, function(false, b"main")],
        )],
        ..Bundle::default()
    })
}

/// Uses with any words of a small stock, whatever they name.
pub fn wild(rng: &mut Rng) -> Vec<u8> {
    let mut bundle = layout(rng, &SHAPE);
    let mut elements_left = 12;
    for index in 0..bundle.files.len() {
        let count = rng.between(0, 4);
        let mut items = wild_items(rng, count, 0, &mut elements_left);
        if index == 0 && !rng.chance(10) {
            items.push(function(false, b"main"));
        }
        bundle.files[index].items = items;
    }
    encode(bundle)
}

fn wild_items(rng: &mut Rng, count: usize, depth: usize, left: &mut usize) -> Vec<Item> {
    const NAMES: [&[u8]; 5] = [b"f", b"g", b"m", b"a", b"T"];
    let one = |rng: &mut Rng, left: &mut usize| {
        let name = rng.word(&NAMES);
        let body = match rng.below(10) {
            0 | 1 => Body::Function(name.to_vec()),
            2 => Body::TypeAlias(name.to_vec()),
            3 if rng.chance(10) => Body::Enum(name.to_vec()),
            3 | 4 if depth < 3 => {
                let count = rng.between(0, 3);
                Body::Module {
                    name: name.to_vec(),
                    items: wild_items(rng, count, depth + 1, left),
                }
            }
            _ => {
                let mut segments = vec![b"crate".to_vec()];
                if rng.chance(25) {
                    segments[0] = rng.word(LIBRARIES).to_vec();
                }
                for _ in 0..rng.between(0, 3) {
                    let words = if rng.chance(60) {
                        SHAPE.components
                    } else {
                        &NAMES
                    };
                    segments.push(rng.word(words).to_vec());
                }
                let mut elements = Vec::new();
                for _ in 0..rng.below(3).min(*left) {
                    let alias = rng.chance(30).then(|| rng.word(&NAMES));
                    elements.push(element(rng.word(&NAMES), alias));
                }
                *left -= elements.len();
                Body::Use { segments, elements }
            }
        };
        item(rng.chance(70), body)
    };
    (0..count).map(|_| one(rng, left)).collect()
}
