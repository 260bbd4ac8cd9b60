//! Families whose sizes reach to the limits, each size as often as any other.

use bundle_format::{limits, Body, Bundle, Item};

use super::encode;
use crate::lookup::join;
use crate::project::{any_folder, element, file, fill, function, import, item, layout, module};
use crate::project::{Shape, SHAPE};
use crate::rng::Rng;

fn numbered(letter: &str, number: usize) -> Vec<u8> {
    format!("{letter}{number}").into_bytes()
}

/// A ring of 2 to 64 files at the end of a short chain from the entry, with files beside it. A short cut makes another ring.
pub fn rings(rng: &mut Rng) -> Vec<u8> {
    let ring = rng.between(2, limits::FILES);
    let chain = rng.below((limits::FILES - ring).min(4) + 1);
    let beside = rng.below((limits::FILES - ring - chain).min(6) + 1);
    let count = ring + chain + beside;
    let folders = rng.between(1, 8);
    let folder = |index: usize| format!("d{}", index % folders);
    let mut bundle = Bundle {
        root: b"/".to_vec(),
        folders: (0..folders)
            .map(|index| join(b"/", folder(index).as_bytes()))
            .collect(),
        ..Bundle::default()
    };
    let cuts = if rng.chance(30) { rng.between(1, 3) } else { 0 };
    let mut lists: Vec<Vec<usize>> = vec![Vec::new(); count];
    for (from, list) in lists.iter_mut().enumerate().take(chain + ring) {
        let next = from + 1;
        list.push(if next == chain + ring { chain } else { next });
    }
    for _ in 0..cuts {
        let (one, two) = (rng.below(count), rng.below(count));
        lists[one].push(two);
    }
    for file in chain + ring..count {
        let from = rng.below(file);
        lists[from].push(file);
    }
    for (from, mut list) in lists.into_iter().enumerate() {
        rng.shuffle(&mut list);
        let mut items: Vec<Item> = list
            .into_iter()
            .map(|to| {
                let segments = format!("crate::{}::c{to}", folder(to));
                import(rng.chance(50), &segments, Vec::new())
            })
            .collect();
        if from == 0 {
            items.push(function(false, b"main"));
        }
        let path = format!("/{}/c{from}.simf", folder(from));
        bundle.files.push(file(path, items));
    }
    // The entry stays the first.
    rng.shuffle(&mut bundle.files[1..]);
    encode(bundle)
}

/// A tree of up to 1,024 entries, or a few more: uses of 1 to 32 elements in modules and files.
pub fn entries(rng: &mut Rng) -> Vec<u8> {
    let wanted = rng.between(8, limits::ENTRIES + 2);
    let files = rng.between(2, 8);
    let names: Vec<Vec<u8>> = (0..limits::ELEMENTS)
        .map(|number| numbered("f", number))
        .collect();
    let declared = |name: &Vec<u8>, number: usize| match number % 3 {
        0 => item(true, Body::TypeAlias(name.clone())),
        _ => function(true, name),
    };
    let base: Vec<Item> = names
        .iter()
        .enumerate()
        .map(|(number, name)| declared(name, number))
        .collect();
    // The units, main, and what the uses import.
    let mut made = files + 1 + base.len();
    let mut items: Vec<Vec<Item>> = vec![Vec::new(); files];
    items[0].push(function(false, b"main"));
    for number in 2..files {
        items[0].push(import(false, &format!("crate::c{number}"), Vec::new()));
    }
    items[1] = base;
    let mut uses = files - 2;
    while made < wanted && uses < limits::USES {
        let inside = rng.chance(60);
        let count = rng
            .between(1, limits::ELEMENTS)
            .min(wanted - made)
            .max(1 + usize::from(inside));
        let count = count - usize::from(inside);
        let mut chosen = names.clone();
        rng.shuffle(&mut chosen);
        let elements = chosen[..count]
            .iter()
            .enumerate()
            .map(|(place, name)| {
                let alias = format!("u{uses}_{place}").into_bytes();
                element(name, (!inside || rng.chance(40)).then_some(&alias[..]))
            })
            .collect();
        let new = import(rng.chance(60), "crate::c1", elements);
        let into = rng.below(files);
        items[into].push(if inside {
            module(rng.chance(60), &numbered("k", uses), vec![new])
        } else {
            new
        });
        made += count + usize::from(inside);
        uses += 1;
    }
    let list = items
        .into_iter()
        .enumerate()
        .map(|(number, items)| file(format!("/r/c{number}.simf"), items))
        .collect();
    encode(Bundle {
        root: b"/r".to_vec(),
        folders: vec![b"/r".to_vec()],
        files: list,
        ..Bundle::default()
    })
}

/// Folders of which half are named like files, beside files and folders of the same name, and uses that meet them.
pub fn simf_folders(rng: &mut Rng) -> Vec<u8> {
    const NAMES: [&[u8]; 8] = [
        b"a",
        b"b",
        b"m",
        b"main",
        b"a.simf",
        b"b.simf",
        b"m.simf",
        b"main.simf",
    ];
    let shape = Shape {
        components: &[b"a", b"b", b"m"],
        own: 40,
        ..SHAPE
    };
    let mut bundle = layout(rng, &shape);
    for _ in 0..rng.between(1, 24) {
        let folder = join(&any_folder(rng, &bundle), rng.word(&NAMES));
        let listed = bundle.files.iter().any(|file| file.path == folder);
        let deep = folder.iter().filter(|&&byte| byte == b'/').count() > limits::COMPONENTS - 1;
        if !listed && !deep && !bundle.folders.contains(&folder) {
            bundle.folders.push(folder);
        }
    }
    let mut bundle = fill(rng, &shape, bundle, &[]);
    for _ in 0..rng.between(1, 6) {
        let words: Vec<&str> = (0..rng.between(1, 3))
            .map(|_| *rng.pick(&["a", "b", "m", "main"]))
            .collect();
        let segments = format!("crate::{}", words.join("::"));
        let chosen = rng.below(bundle.files.len());
        let new = import(rng.chance(50), &segments, Vec::new());
        bundle.files[chosen].items.push(new);
    }
    encode(bundle)
}
