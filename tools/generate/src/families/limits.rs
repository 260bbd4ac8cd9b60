//! Families at, below and over the edge of each limit.

use bundle_format::{encode_item, limits, Body, Bundle, Element, Item};

use super::encode;
use crate::lookup::join;
use crate::project::{element, file, function, import, item, module, remapping};
use crate::rng::Rng;

/// One below the limit, the limit, or one over.
fn edge(rng: &mut Rng, limit: usize) -> usize {
    rng.between(limit - 1, limit + 1)
}

/// A bundle with root and folder `/r`, the entry `/r/main.simf` and `/r/a.simf`.
fn two_files(entry: Vec<Item>, other: Vec<Item>) -> Bundle {
    Bundle {
        root: b"/r".to_vec(),
        folders: vec![b"/r".to_vec()],
        files: vec![file("/r/main.simf", entry), file("/r/a.simf", other)],
        ..Bundle::default()
    }
}

fn main() -> Item {
    function(false, b"main")
}

fn empty_use() -> Item {
    import(false, "crate::a", Vec::new())
}

fn numbered(letter: &str, number: usize) -> Vec<u8> {
    format!("{letter}{number}").into_bytes()
}

/// Functions named by the letter and a number.
fn functions(letter: &str, count: usize) -> Vec<Item> {
    (0..count)
        .map(|number| function(true, &numbered(letter, number)))
        .collect()
}

fn elements(letter: &str, count: usize) -> Vec<Element> {
    (0..count)
        .map(|number| element(&numbered(letter, number), None))
        .collect()
}

/// Functions that take just so many bytes, at least 6.
fn filler(mut bytes: usize) -> Vec<Item> {
    // A function takes five bytes and its name.
    const LONGEST: usize = 5 + limits::NAME;
    let mut items = Vec::new();
    while bytes >= 2 * LONGEST {
        let name = format!(
            "{:_<width$}",
            format!("n{}", items.len()),
            width = limits::NAME
        );
        items.push(function(true, name.as_bytes()));
        bytes -= LONGEST;
    }
    if bytes > LONGEST {
        let half = bytes / 2;
        items.push(function(true, &b"y".repeat(half - 5)));
        bytes -= half;
    }
    items.push(function(true, &b"z".repeat(bytes - 5)));
    items
}

fn length(items: &[Item]) -> usize {
    let mut out = Vec::new();
    for item in items {
        encode_item(item, &mut out).expect("an item of these families fits");
    }
    out.len()
}

/// Counts of folders, remappings, files, items, uses, segments, elements; depth.
pub fn counts(rng: &mut Rng) -> Vec<u8> {
    let mut bundle = two_files(vec![empty_use(), main()], vec![function(true, b"f")]);
    match rng.below(9) {
        0 => {
            let count = edge(rng, limits::FOLDERS);
            for number in 1..count {
                let parent: &[u8] = if rng.chance(50) { b"/" } else { b"/r" };
                bundle.folders.push(join(parent, &numbered("f", number)));
            }
        }
        1 => {
            let count = edge(rng, limits::REMAPPINGS);
            bundle.remappings = (0..count)
                .map(|number| remapping(b"/", &numbered("l", number), b"/r"))
                .collect();
        }
        2 => {
            let count = *rng.pick(&[0, 1, limits::FILES - 1, limits::FILES, limits::FILES + 1]);
            bundle.files.truncate(count);
            for number in 2..count {
                let path = join(b"/r", format!("c{number}.simf").as_bytes());
                bundle.files.push(file(path, functions("f", 1)));
                let use_it = import(false, &format!("crate::c{number}"), Vec::new());
                bundle.files[0].items.push(use_it);
            }
        }
        3 => {
            let count = edge(rng, limits::ITEMS);
            let (nested, here) = (rng.below(200), rng.below(500));
            let ignored = vec![item(false, Body::Ignored); here];
            bundle.files[0].items.extend(ignored);
            let inner = vec![item(true, Body::Ignored); nested];
            bundle.files[1].items.push(module(true, b"m", inner));
            // The use, main, f and m are four.
            let left = count - 4 - nested - here;
            let declared = left.min(rng.below(400));
            bundle.files[1].items.extend(functions("g", declared));
            let ignored = vec![item(false, Body::Ignored); left - declared];
            bundle.files[1].items.extend(ignored);
        }
        4 => {
            let count = edge(rng, limits::USES);
            let inner = rng.below(count - 2);
            let nested = module(false, b"m", vec![empty_use(); inner]);
            bundle.files[0].items.push(nested);
            let more = vec![empty_use(); count - 1 - inner];
            let chosen = rng.below(2);
            bundle.files[chosen].items.extend(more);
        }
        5 => {
            // Through folders, so that 16 segments name a file.
            let count = edge(rng, limits::SEGMENTS);
            let mut segments = String::from("crate");
            let mut folder = b"/".to_vec();
            for number in 2..count {
                segments += &format!("::d{number}");
                folder = join(&folder, &numbered("d", number));
                bundle.folders.push(folder.clone());
            }
            let path = [&folder[..], b"/e.simf"].concat();
            bundle.root = b"/".to_vec();
            bundle.files.push(file(path, functions("f", 1)));
            let new = import(false, &format!("{segments}::e"), elements("f", 1));
            bundle.files[0].items.push(new);
            bundle.files[0].items.remove(0);
        }
        6 => {
            // A module path that is not there.
            let count = edge(rng, limits::SEGMENTS);
            let segments = format!("crate::a{}", "::m".repeat(count - 2));
            bundle.files[0]
                .items
                .push(import(true, &segments, Vec::new()));
        }
        7 => {
            let count = edge(rng, limits::ELEMENTS);
            bundle.files[1].items.extend(functions("g", count));
            let new = import(true, "crate::a", elements("g", count));
            bundle.files[0].items.push(new);
        }
        _ => {
            let count = edge(rng, limits::DEPTH);
            let mut inner = vec![function(true, b"f"), empty_use()];
            for number in 0..count {
                inner = vec![module(rng.chance(70), &numbered("m", number), inner)];
            }
            let chosen = rng.below(2);
            bundle.files[chosen].items.extend(inner);
        }
    }
    encode(bundle)
}

/// Lengths of components, paths and names; components of a path.
pub fn lengths(rng: &mut Rng) -> Vec<u8> {
    let mut bundle = two_files(vec![empty_use(), main()], vec![function(true, b"f")]);
    let component = [b'c'; limits::NAME];
    match rng.below(3) {
        0 => {
            let name = vec![b'n'; edge(rng, limits::NAME)];
            let text = String::from_utf8(name.clone()).expect("ASCII");
            let new = match rng.below(7) {
                0 => item(true, Body::TypeAlias(name)),
                1 => function(true, &name),
                2 => item(true, Body::Enum(name)),
                3 => module(true, &name, Vec::new()),
                4 => import(true, &format!("crate::a::{text}"), Vec::new()),
                5 => import(true, "crate::a", vec![element(&name, None)]),
                _ => import(true, "crate::a", vec![element(b"f", Some(&name))]),
            };
            let at = rng.below(3);
            bundle.files[0].items.insert(at, new);
        }
        1 => {
            // A chain of folders, the last with as many components or bytes as there may be.
            let (component, depth) = match rng.below(3) {
                0 => (&b"c"[..], edge(rng, limits::COMPONENTS)),
                1 => (&component[..], 8),
                _ => (&component[..3], 16),
            };
            let mut path = b"/".to_vec();
            for _ in 1..depth {
                path = join(&path, component);
                bundle.folders.push(path.clone());
            }
            let left = limits::PATH - path.len() - 1;
            let last = if component.len() == 1 {
                component.to_vec()
            } else {
                vec![b'l'; left.min(rng.between(23, 33))]
            };
            path = join(&path, &last);
            // A file's name may also be its path's last component.
            if rng.chance(50) {
                bundle.folders.push(path.clone());
                match rng.below(4) {
                    0 => bundle.root = path,
                    1 => bundle.remappings.push(remapping(&path, b"l", b"/")),
                    2 => bundle.remappings.push(remapping(b"/", b"l", &path)),
                    _ => {}
                }
            } else {
                bundle.files.push(file(path, functions("f", 1)));
            }
        }
        _ => {
            let mut last = vec![b'c'; edge(rng, limits::NAME)];
            if rng.chance(50) {
                bundle.folders.push(join(b"/r", &last));
            } else {
                let stem = last.len() - 5;
                last.splice(stem.., b".simf".iter().copied());
                bundle
                    .files
                    .push(file(join(b"/r", &last), functions("f", 1)));
                let stem = String::from_utf8(last[..stem].to_vec()).expect("ASCII");
                let new = import(true, &format!("crate::{stem}"), elements("f", 1));
                bundle.files[0].items.push(new);
            }
        }
    }
    encode(bundle)
}

/// Uses with a long module path in the file named by the segments `from`, as many as the bytes
/// hold, and the items of that file.
fn long_uses(from: &str, bytes: usize) -> (Vec<Item>, Vec<Item>) {
    let mut inner = Vec::new();
    let mut segments = String::new();
    for number in 0..limits::DEPTH {
        let name = format!("{:_<width$}", format!("m{number}"), width = limits::NAME);
        segments = format!("::{name}{segments}");
        inner = vec![module(true, name.as_bytes(), inner)];
    }
    let uses = vec![import(false, &format!("{from}{segments}"), Vec::new())];
    let count = bytes / length(&uses);
    (vec![uses[0].clone(); count], inner)
}

/// A bundle of 65,535 bytes after its header, one less, or bytes after those. Through a folder
/// its uses get shorter in the image, without one longer.
pub fn total(rng: &mut Rng) -> Vec<u8> {
    let bytes = rng.between(50_000, 64_000);
    let folder = "d".repeat(limits::NAME);
    let from = if rng.chance(70) {
        format!("crate::{folder}::a")
    } else {
        "crate::a".to_string()
    };
    let (uses, inner) = long_uses(&from, bytes);
    let mut bundle = two_files([vec![main()], uses].concat(), inner);
    if from.contains(&folder) {
        bundle.folders.push(format!("/r/{folder}").into_bytes());
        bundle.files[1].path = format!("/r/{folder}/a.simf").into_bytes();
    }
    let wanted = limits::LENGTH - rng.below(2);
    let now = bundle.encode().expect("under the limit").len() - limits::HEADER;
    let chosen = rng.below(2);
    bundle.files[chosen].items.extend(filler(wanted - now));
    let mut bytes = encode(bundle);
    if rng.chance(40) {
        for _ in 0..rng.between(1, 3) {
            bytes.push(rng.next_u64() as u8);
        }
    }
    bytes
}

/// An image of 65,535 bytes after its header, one less, or more.
pub fn image(rng: &mut Rng) -> Vec<u8> {
    let (uses, inner) = long_uses("crate::a", rng.between(50_000, 63_000));
    // In the image `a` becomes `unit_1`, five bytes more for each use.
    let longer = 5 * uses.len();
    let mut entry = [vec![main()], uses].concat();
    let mut other = inner;
    // A unit's item has eleven bytes ahead of what it holds.
    let now = 2 * 11 + length(&entry) + length(&other) + longer;
    let wanted = match rng.below(5) {
        0 => limits::LENGTH - 1,
        1 => limits::LENGTH,
        2 | 3 => limits::LENGTH + 1,
        _ => limits::LENGTH + rng.between(2, 800),
    };
    let more = filler(wanted - now);
    if rng.chance(50) {
        entry.extend(more);
    } else {
        other.extend(more);
    }
    // A fault of the scope walk is told first.
    if rng.chance(5) {
        entry.push(main());
    }
    encode(two_files(entry, other))
}

/// A tree of 1,024 entries, one less, or up to three more, by each kind of call.
pub fn tree(rng: &mut Rng) -> Vec<u8> {
    let wanted = limits::ENTRIES - 1 + rng.weighted([1, 1, 2, 1, 1].into_iter());
    let place = rng.below(3);
    let from = if place == 1 { "crate" } else { "crate::a" };
    // Both units, main and the functions; then modules of one use each, until some entries are
    // left for the calls at the end.
    let base = functions("f", limits::ELEMENTS);
    let mut entries = 3 + base.len();
    let mut calls = Vec::new();
    let last = rng.between(1, 5);
    while entries + last < wanted {
        let count = (wanted - last - entries - 1).min(limits::ELEMENTS);
        let inner = import(rng.chance(50), from, elements("f", count));
        let name = numbered("k", calls.len());
        calls.push(module(true, &name, vec![inner]));
        entries += 1 + count;
    }
    match rng.below(4) {
        0 => calls.extend(functions("g", last)),
        1 => calls.extend((0..last).map(|n| item(true, Body::TypeAlias(numbered("T", n))))),
        2 => calls.extend((0..last).map(|n| module(true, &numbered("q", n), Vec::new()))),
        _ => {
            let some = (0..last)
                .map(|n| element(&numbered("f", n), Some(&numbered("h", n))))
                .collect();
            calls.push(import(true, from, some));
        }
    }
    let start = vec![empty_use(), main()];
    encode(match place {
        0 => two_files([start, calls].concat(), base),
        1 => two_files([start, base, calls].concat(), Vec::new()),
        _ => two_files(start, [base, calls].concat()),
    })
}
