//! Families that aim at the numbers 4 to 13, 20 to 28 and 41 to 49.

use bundle_format::{forms, Body, Bundle, Item, Remapping};

use super::valid::{any_project, SHAPES};
use super::{each_item, encode};
use crate::lookup::{join, Lookup};
use crate::project::{
    any_folder, element, file, fill, function, item, layout, module, project, remapping, route,
    segments_below, Shape, LIBRARIES, SHAPE,
};
use crate::rng::Rng;

/// Puts the item somewhere in the list or in a module of it.
fn insert(rng: &mut Rng, items: &mut Vec<Item>, new: Item) {
    if !items.is_empty() && rng.chance(50) {
        let index = rng.below(items.len());
        if let Body::Module { items: inner, .. } = &mut items[index].body {
            return insert(rng, inner, new);
        }
    }
    let at = rng.below(items.len() + 1);
    items.insert(at, new);
}

/// A file's index, the entry's more often.
fn some_file(rng: &mut Rng, bundle: &Bundle) -> usize {
    if rng.chance(40) {
        0
    } else {
        rng.below(bundle.files.len())
    }
}

/// 41 to 49, one or two of them.
pub fn tree(rng: &mut Rng) -> Vec<u8> {
    let count = if rng.chance(25) { 2 } else { 1 };
    let faults: Vec<u8> = (0..count).map(|_| rng.between(41, 49) as u8).collect();
    let shape = Shape {
        public: 60,
        ..(**rng.pick(&SHAPES)).clone()
    };
    encode(project(rng, &shape, &faults))
}

/// 20 to 25, one to four of them.
pub fn lookups(rng: &mut Rng) -> Vec<u8> {
    let outside = rng.chance(12);
    let mut shape = (**rng.pick(&SHAPES)).clone();
    if outside {
        shape.remappings = (0, 1);
    }
    let mut bundle = layout(rng, &shape);
    if rng.chance(40) {
        // A library that is the importer's own package, or part of it.
        let own = rng.word(&[b"own", b"lib"]);
        let (context, target) = (any_folder(rng, &bundle), bundle.root.clone());
        let same = |r: &Remapping| r.context == context && r.name == own;
        if !bundle.remappings.iter().any(same) {
            bundle.remappings.push(remapping(&context, own, &target));
        }
    }
    if outside && bundle.root != b"/" {
        bundle.folders.push(b"/out".to_vec());
        bundle.files[0].path = b"/out/main.simf".to_vec();
    }
    if rng.chance(30) {
        let folder = join(&any_folder(rng, &bundle), rng.word(&[b"b.simf", b"a.simf"]));
        let listed = bundle.files.iter().any(|file| file.path == folder);
        if !listed && !bundle.folders.contains(&folder) {
            bundle.folders.push(folder);
        }
    }
    let mut bundle = fill(rng, &shape, bundle, &[]);
    for _ in 0..rng.between(1, 4) {
        let importer = if outside { 0 } else { some_file(rng, &bundle) };
        let number = if outside && rng.chance(80) {
            25
        } else {
            rng.between(20, 24) as u8
        };
        if let Some(new) = bad_use(rng, &bundle, importer, number) {
            // The same use again is told again, unless it is about reading.
            if rng.chance(20) {
                let other = some_file(rng, &bundle);
                insert(rng, &mut bundle.files[other].items, new.clone());
            }
            insert(rng, &mut bundle.files[importer].items, new);
        }
    }
    encode(bundle)
}

fn bad_use(rng: &mut Rng, bundle: &Bundle, importer: usize, number: u8) -> Option<Item> {
    let lookup = Lookup::new(bundle);
    let path = &bundle.files[importer].path;
    for _ in 0..12 {
        let mut segments: Vec<Vec<u8>> = Vec::new();
        if number == 24 {
            let words = lookup.words(path);
            if words.is_empty() {
                return None;
            }
            let (word, base) = *rng.pick(&words);
            let target = &rng.pick(&bundle.files).path;
            segments.extend(segments_below(word, base, target).unwrap_or_default());
        } else if number != 20 {
            let word = match (number, bundle.remappings.is_empty()) {
                (22, false) => rng.pick(&bundle.remappings).name.clone(),
                (21 | 22, _) => rng.word(LIBRARIES).to_vec(),
                _ => b"crate".to_vec(),
            };
            segments.push(word);
            for _ in 0..rng.below(4) {
                segments.push(rng.word(SHAPE.components).to_vec());
            }
        }
        let answer = lookup.resolve(path, &segments);
        let told = match &answer {
            Ok(found) if lookup.file(&found.path).is_none() => 23,
            Ok(_) => 0,
            Err(number) => *number,
        };
        if told == number {
            let elements = if rng.chance(70) {
                vec![element(b"f", None)]
            } else {
                Vec::new()
            };
            return Some(item(rng.chance(50), Body::Use { segments, elements }));
        }
    }
    None
}

/// Files that import back: 26.
pub fn rings(rng: &mut Rng) -> Vec<u8> {
    let shape = Shape {
        files: (2, 9),
        ..SHAPE
    };
    let mut bundle = project(rng, &shape, &[]);
    for _ in 0..rng.between(1, 3) {
        let importer = rng.below(bundle.files.len());
        let target = some_file(rng, &bundle);
        let segments = route(rng, &Lookup::new(&bundle), importer, target);
        if let Some(segments) = segments {
            let elements = Vec::new();
            let back = item(rng.chance(50), Body::Use { segments, elements });
            insert(rng, &mut bundle.files[importer].items, back);
        }
    }
    encode(bundle)
}

/// No main function at the top of the entry, enums in other files: 27 and 28.
pub fn assembly(rng: &mut Rng) -> Vec<u8> {
    let mut bundle = any_project(rng);
    let which = rng.below(3);
    if which != 0 {
        let is_main = |item: &Item| matches!(&item.body, Body::Function(name) if name == b"main");
        let items = &mut bundle.files[0].items;
        items.retain(|item| !is_main(item));
        let other = match rng.below(6) {
            0 => Some(item(true, Body::TypeAlias(b"main".to_vec()))),
            1 => Some(module(true, b"main", vec![function(true, b"main")])),
            2 => Some(module(true, b"mm", vec![function(true, b"main")])),
            3 => Some(item(true, Body::Enum(b"main".to_vec()))),
            _ => None,
        };
        if let Some(other) = other {
            let at = rng.below(items.len() + 1);
            items.insert(at, other);
        }
        if rng.chance(20) {
            let chosen = rng.below(bundle.files.len());
            if chosen != 0 {
                insert(
                    rng,
                    &mut bundle.files[chosen].items,
                    function(true, b"main"),
                );
            }
        }
    }
    if which != 1 {
        for _ in 0..rng.between(1, 4) {
            let chosen = rng.below(bundle.files.len());
            let new = item(rng.chance(50), Body::Enum(b"E".to_vec()));
            insert(rng, &mut bundle.files[chosen].items, new);
        }
    }
    encode(bundle)
}

/// 9 to 13.
pub fn remappings(rng: &mut Rng) -> Vec<u8> {
    let mut bundle = any_project(rng);
    for _ in 0..rng.between(1, 2) {
        spoil_remapping(rng, &mut bundle);
    }
    encode(bundle)
}

fn spoil_remapping(rng: &mut Rng, bundle: &mut Bundle) {
    let number = rng.between(9, 13);
    let path = if number == 9 {
        join(&any_folder(rng, bundle), rng.word(&[b"gone", b"none"]))
    } else {
        rng.pick(&bundle.files).path.clone()
    };
    if number <= 10 && rng.chance(40) {
        bundle.root = path;
        return;
    }
    if bundle.remappings.is_empty() || number == 13 && bundle.remappings.len() < 2 {
        for name in [b"one", b"two"] {
            let new = remapping(&any_folder(rng, bundle), name, &any_folder(rng, bundle));
            bundle.remappings.push(new);
        }
    }
    let index = rng.below(bundle.remappings.len());
    match number {
        9 | 10 if rng.chance(50) => bundle.remappings[index].context = path,
        9 | 10 => bundle.remappings[index].target = path,
        11 => bundle.remappings[index].name = b"crate".to_vec(),
        12 => bundle.remappings[index].name = odd_name(rng),
        _ => {
            let (context, name) = {
                let first = rng.pick(&bundle.remappings);
                (first.context.clone(), first.name.clone())
            };
            bundle.remappings[index].context = context;
            bundle.remappings[index].name = name;
        }
    }
}

/// A string that is no identifier, or another keyword than `crate`.
fn odd_name(rng: &mut Rng) -> Vec<u8> {
    match rng.below(8) {
        0 => Vec::new(),
        1 => b"9a".to_vec(),
        2 => vec![b'x'; rng.between(33, 255)],
        3 => (0..rng.between(1, 6))
            .map(|_| rng.next_u64() as u8 | 0x80)
            .collect(),
        4 => b"a-b".to_vec(),
        5 => "\u{e9}\u{20ac}".as_bytes().to_vec(),
        6 => (0..rng.between(1, 40))
            .map(|_| rng.next_u64() as u8)
            .collect(),
        _ => {
            let keyword = rng.word(&forms::KEYWORDS);
            let keyword = if keyword == b"crate" {
                b"simc"
            } else {
                keyword
            };
            keyword.to_vec()
        }
    }
}

fn odd_path(rng: &mut Rng, path: &[u8]) -> Vec<u8> {
    let mut path = path.to_vec();
    match rng.below(12) {
        0 => path.clear(),
        1 => drop(path.remove(0)),
        2 => path.push(b'/'),
        3 => path = [&path[..], b"/."].concat(),
        4 => path = [&path[..], b"/.."].concat(),
        5 => path = join(&path, &[b'x'; 33]),
        6 => path = b"/a".repeat(17),
        7 => path = b"//".to_vec(),
        8 => path = [b"/a//b", &path[..]].concat(),
        9 => path.push(b' '),
        10 => path.push(0x7f),
        _ => {
            let at = rng.below(path.len());
            path[at] = rng.next_u64() as u8;
        }
    }
    path
}

/// 4: a path that is none.
pub fn paths(rng: &mut Rng) -> Vec<u8> {
    let mut bundle = any_project(rng);
    let count = bundle.folders.len() + 2 * bundle.remappings.len() + bundle.files.len() + 1;
    for _ in 0..rng.between(1, 2) {
        let chosen = rng.below(count);
        let path = std::iter::once(&mut bundle.root)
            .chain(&mut bundle.folders)
            .chain(
                bundle
                    .remappings
                    .iter_mut()
                    .flat_map(|r| [&mut r.context, &mut r.target]),
            )
            .chain(bundle.files.iter_mut().map(|file| &mut file.path))
            .nth(chosen)
            .expect("the paths were counted");
        let odd = odd_path(rng, if path.is_empty() { b"/" } else { path });
        *path = odd;
    }
    encode(bundle)
}

/// 5: a name that is none.
pub fn names(rng: &mut Rng) -> Vec<u8> {
    let mut bundle = any_project(rng);
    let mut names = Vec::new();
    for file in &mut bundle.files {
        collect_names(&mut file.items, &mut names);
    }
    if !names.is_empty() {
        let chosen = rng.below(names.len());
        *names[chosen] = odd_name(rng);
    }
    encode(bundle)
}

fn collect_names<'a>(items: &'a mut [Item], names: &mut Vec<&'a mut Vec<u8>>) {
    for item in items {
        match &mut item.body {
            Body::TypeAlias(name) | Body::Function(name) | Body::Enum(name) => names.push(name),
            Body::Module { name, items } => {
                names.push(name);
                collect_names(items, names);
            }
            Body::Use { segments, elements } => {
                names.extend(segments);
                for element in elements {
                    names.push(&mut element.name);
                    names.extend(&mut element.alias);
                }
            }
            Body::Ignored => {}
        }
    }
}

/// 6: a kind or visibility that is none.
pub fn kinds(rng: &mut Rng) -> Vec<u8> {
    let mut bytes = encode(any_project(rng));
    let bundle = Bundle::decode(&bytes).expect("a project is well formed");
    let mut marks = Vec::new();
    each_item(&bundle, &mut |item| marks.push(item.mark));
    if !marks.is_empty() {
        let at = *rng.pick(&marks) + rng.between(2, 3);
        bytes[at] = match rng.below(4) {
            0 => 0,
            1 => 7,
            2 => rng.next_u64() as u8,
            _ => 2,
        };
    }
    bytes
}

/// 7 and 8.
pub fn lists(rng: &mut Rng) -> Vec<u8> {
    let mut bundle = any_project(rng);
    for _ in 0..rng.between(1, 2) {
        let folder = any_folder(rng, &bundle);
        let path = rng.pick(&bundle.files).path.clone();
        let place = rng.below(bundle.folders.len() + 1);
        let file_place = rng.below(bundle.files.len() + 1);
        match rng.below(8) {
            0 => bundle.folders.insert(place, folder),
            1 => bundle.files.insert(file_place, file(path, Vec::new())),
            2 => bundle.folders.insert(place, path),
            3 => bundle.files.insert(file_place, file(folder, Vec::new())),
            4 if !bundle.folders.is_empty() => {
                let index = rng.below(bundle.folders.len());
                bundle.folders.remove(index);
            }
            5 => bundle.folders.insert(place, join(&path, b"x")),
            6 => bundle
                .files
                .insert(file_place, file(join(&path, b"x"), Vec::new())),
            _ => {
                let orphan = join(&join(&folder, b"gone"), b"x");
                bundle.folders.insert(place, orphan);
            }
        }
    }
    encode(bundle)
}
