//! The families of bundles.

mod damage;
mod far;
mod faults;
mod limits;
mod valid;

pub(crate) use valid::OFFICE;

use bundle_format::{Bundle, Item};

use crate::rng::Rng;

pub struct Family {
    pub name: &'static str,
    pub about: &'static str,
    /// How often a bundle of this family comes, against the sum of all weights.
    pub weight: usize,
    pub make: fn(&mut Rng) -> Vec<u8>,
    /// Whether each bundle's tree is measured, because the family does not bound it.
    pub measured: bool,
}

macro_rules! families {
    ($list:ident: $($name:literal $weight:literal $measured:literal $make:path, $about:literal;)*) => {
        pub const $list: &[Family] = &[$(Family {
            name: $name,
            about: $about,
            weight: $weight,
            make: $make,
            measured: $measured,
        }),*];
    };
}

families! { FAMILIES:
    "projects" 900 false valid::projects, "several files, some libraries and inline modules";
    "packages" 500 false valid::packages, "nested contexts, equal names, libraries inside packages";
    "contexts" 500 false valid::contexts, "many remappings over nested folders";
    "reexports" 500 false valid::reexports, "public uses through several files";
    "modules" 500 false valid::modules, "inline modules up to the depth limit, private segments";
    "copies" 500 false valid::copies, "imports of modules, open ones too";
    "own" 300 false valid::own, "files that import from themselves";
    "keywords" 300 false valid::keywords, "names that are keywords, main or unit names";
    "longest" 200 false valid::longest, "long paths and names";
    "large" 20 false valid::large, "up to 64 files";
    "shadows" 400 false valid::shadows, "folders beside files of the same name, folders named *.simf";
    "chains" 200 false valid::chains, "long chains of files with short cuts";
    "graphs" 400 false valid::graphs, "import graphs with diamonds, rings and self imports";
    "deep-paths" 100 false valid::deep_paths, "paths through copies of copies, up to 17 segments";
    "doubling" 30 false valid::doubling, "a module that imports itself again and again, and paths into the copies";
    "wild" 400 false valid::wild, "uses with any words of a small stock";
    "tree-faults" 1500 false faults::tree, "41 to 49";
    "lookup-faults" 700 false faults::lookups, "20 to 25";
    "rings" 400 false faults::rings, "26";
    "assembly-faults" 400 false faults::assembly, "27 and 28";
    "remapping-faults" 400 false faults::remappings, "9 to 13";
    "path-faults" 150 false faults::paths, "4";
    "name-faults" 150 false faults::names, "5";
    "kind-faults" 150 false faults::kinds, "6";
    "list-faults" 250 false faults::lists, "7 and 8";
    "count-limits" 150 false limits::counts, "folders, remappings, files, items, uses, segments, elements, depth";
    "length-limits" 150 false limits::lengths, "names, components, paths";
    "total-limit" 10 false limits::total, "a bundle of 65,535 bytes after its header";
    "image-limit" 20 false limits::image, "an image of 65,535 bytes after its header: 15";
    "tree-limit" 30 false limits::tree, "a tree of 1,024 entries: 51";
    "truncated" 200 false damage::truncated, "cut at any byte";
    "changed" 400 true damage::changed, "one or two bytes changed";
    "lengths" 200 false damage::lengths, "length and count fields off";
    "resized" 200 false damage::resized, "an item's end moved, the lengths around it mended";
    "spliced" 400 true damage::spliced, "pieces of two bundles";
    "noise" 100 false damage::noise, "any bytes";
}

families! { FAR:
    "far-rings" 1 false far::rings, "rings of 2 to 64 files";
    "far-entries" 1 false far::entries, "trees of up to 1,024 entries, uses of 1 to 32 elements";
    "simf-folders" 1 true far::simf_folders, "folders of which half are named *.simf";
    "far-doubling" 1 false valid::doubling, "a module that imports itself up to ten times";
}

fn encode(bundle: Bundle) -> Vec<u8> {
    bundle
        .encode()
        .expect("the families keep lengths within their fields")
}

/// Every item, nested ones included, in byte order.
fn each_item(bundle: &Bundle, visit: &mut impl FnMut(&Item)) {
    fn each(items: &[Item], visit: &mut impl FnMut(&Item)) {
        for item in items {
            visit(item);
            if let bundle_format::Body::Module { items, .. } = &item.body {
                each(items, visit);
            }
        }
    }
    for file in &bundle.files {
        each(&file.items, visit);
    }
}
