//! Small bundles made for clashes of names in lookups: folders beside files of the same name,
//! roots and contexts in each other, remappings of one name.

use bundle_format::forms::parent;
use bundle_format::{Body, Bundle, File, Item, Remapping};

use crate::Rng;

/// The words of the uses to ask: the first `crate`, the others names of folders, files and
/// remappings.
pub const WORDS: [&str; 4] = ["crate", "a", "b", "l"];

const FOLDERS: [&str; 12] = [
    "/a",
    "/b",
    "/l",
    "/a/a",
    "/a/b",
    "/a/a/a",
    "/b/a",
    "/l/a",
    "/l/l",
    "/a/a.simf",
    "/a.simf",
    "/l/a/b.simf",
];

const FILES: [&str; 16] = [
    "/m.simf",
    "/a.simf",
    "/a/m.simf",
    "/a/a.simf",
    "/a/b.simf",
    "/a/a/m.simf",
    "/a/a/a.simf",
    "/a/a/a/b.simf",
    "/b/a.simf",
    "/b/m.simf",
    "/b/a/a.simf",
    "/l/a.simf",
    "/l/b.simf",
    "/l/l.simf",
    "/l/a/a.simf",
    "/l/l/m",
];

/// The bundle of a seed and an index; it passes 1 to 13.
pub fn clash(seed: u64, index: u64) -> Vec<u8> {
    let rng = &mut Rng::new(seed, index);
    loop {
        let bytes = drawn(rng).encode().expect("a small bundle");
        let bundle = Bundle::decode(&bytes).expect("paths are listed once, with their parents");
        if bundle.check().is_none() {
            return bytes;
        }
    }
}

fn drawn(rng: &mut Rng) -> Bundle {
    let mut bundle = Bundle::default();
    let count = rng.between(1, 7);
    for _ in 0..count {
        let folder = rng.pick(&FOLDERS).as_bytes();
        let parent = parent(folder);
        let has = |path: &[u8]| path == b"/" || bundle.folders.iter().any(|other| other == path);
        if has(parent) && !has(folder) {
            bundle.folders.push(folder.to_vec());
        }
    }
    let mut places: Vec<Vec<u8>> = bundle.folders.clone();
    places.push(b"/".to_vec());
    bundle.root = rng.pick(&places).clone();
    for _ in 0..rng.below(5) {
        bundle.remappings.push(Remapping {
            context: rng.pick(&places).clone(),
            name: rng.pick(&WORDS[1..]).as_bytes().to_vec(),
            target: rng.pick(&places).clone(),
            ..Remapping::default()
        });
    }
    for _ in 0..rng.between(1, 8) {
        let path = rng.pick(&FILES).as_bytes();
        let listed = bundle.folders.iter().any(|other| other == path)
            || bundle.files.iter().any(|other| other.path == path);
        if places.iter().any(|place| place == parent(path)) && !listed {
            bundle.files.push(File {
                path: path.to_vec(),
                path_at: 0,
                items: Vec::new(),
            });
        }
    }
    if bundle.files.is_empty() {
        bundle.files.push(File {
            path: b"/e.simf".to_vec(),
            path_at: 0,
            items: Vec::new(),
        });
    }
    // An entry with `main`, so that the bundle links by itself.
    bundle.files[0].items.push(Item {
        mark: 0,
        public: false,
        body: Body::Function(b"main".to_vec()),
    });
    bundle
}
