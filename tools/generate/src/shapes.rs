//! Bundles whose imports form a shape: what a measurement of discovery and order reads.

use bundle_format::{Body, Bundle, Element, File, Item};

pub const SHAPES: [&str; 6] = ["chain", "ring", "star", "diamonds", "next-four", "folders"];

/// What unit `id` of `units` imports.
fn imports(shape: &str, id: usize, units: usize) -> Option<Vec<usize>> {
    let below = |ids: &mut dyn Iterator<Item = usize>| ids.filter(|id| *id < units).collect();
    Some(match shape {
        "chain" => below(&mut [id + 1].into_iter()),
        "ring" => vec![(id + 1) % units],
        "star" if id == 0 => (1..units).collect(),
        "star" => Vec::new(),
        // Of three units the first imports the other two, and these the next three's first.
        "diamonds" => match id % 3 {
            0 => below(&mut [id + 1, id + 2].into_iter()),
            at => below(&mut [id + 3 - at].into_iter()),
        },
        "next-four" | "folders" => below(&mut (id + 1..id + 5)),
        _ => return None,
    })
}

/// A bundle of so many files, of up to 64, directly in the root, or for `folders` all but the entry each
/// in a folder of its own: each has a public function and imports those of other files under new names.
/// But for the ring it links.
pub fn shape(shape: &str, units: usize) -> Option<Vec<u8>> {
    let name = |id: usize| format!("u{id}").into_bytes();
    let item = |public, body| Item {
        mark: 0,
        public,
        body,
    };
    let mut bundle = Bundle {
        root: b"/r".to_vec(),
        folders: vec![b"/r".to_vec()],
        ..Bundle::default()
    };
    let folder = |id: usize| (shape == "folders" && id > 0).then(|| format!("d{id}"));
    for id in 0..units {
        let mut items = Vec::new();
        for import in imports(shape, id, units)? {
            let body = Body::Use {
                segments: [
                    Some(b"crate".to_vec()),
                    folder(import).map(String::into_bytes),
                ]
                .into_iter()
                .flatten()
                .chain([name(import)])
                .collect(),
                elements: vec![Element {
                    name: b"f".to_vec(),
                    alias: Some(format!("f{import}").into_bytes()),
                }],
            };
            items.push(item(false, body));
        }
        items.push(item(true, Body::Function(b"f".to_vec())));
        if id == 0 {
            items.push(item(false, Body::Function(b"main".to_vec())));
        }
        let mut path = String::from("/r");
        if let Some(name) = folder(id) {
            path = format!("/r/{name}");
            bundle.folders.push(path.clone().into_bytes());
        }
        bundle.files.push(File {
            path: format!("{path}/u{id}.simf").into_bytes(),
            path_at: 0,
            items,
        });
    }
    bundle.encode().ok()
}
