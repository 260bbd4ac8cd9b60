//! Bundles whose uses mostly name what is there. Files are filled one after another, the entry
//! last; a use is tried on a tree of the files so far and kept where the tree takes it.

use bundle_format::{forms, limits, Body, Bundle, Element, File, Item, Remapping};

use crate::lookup::{is_prefix, join, Found, Lookup};
use crate::rng::Rng;
use crate::tree::{unit_name, Entry, Kind, Tree};

/// The most entries of a project's tree written out.
const LARGEST: usize = 1_500;

type Words = &'static [&'static [u8]];

/// What kind of project a family wants. Pairs are the least and the most, percentages are of 100.
#[derive(Clone)]
pub struct Shape {
    pub folders: (usize, usize),
    pub remappings: (usize, usize),
    pub files: (usize, usize),
    /// Items of a file.
    pub items: (usize, usize),
    /// The most items of the bundle, nested ones included.
    pub total: usize,
    /// Depth of inline modules.
    pub depth: usize,
    /// Names of folders and files.
    pub components: Words,
    /// Names of items.
    pub names: Words,
    /// Weights of the kinds 1 to 6; enums come in the entry alone.
    pub kinds: [usize; 6],
    /// Percentage of public items.
    pub public: usize,
    /// Percentage of uses that name their own file.
    pub own: usize,
    /// Percentage of elements that name a module where there is one.
    pub modules: usize,
    /// Percentage of folders that lie in the one before.
    pub nested: usize,
    /// Percentage of folders whose name no segment can spell.
    pub odd: usize,
    /// Percentage of entries that do not lie directly in the root.
    pub elsewhere: usize,
}

pub const SHAPE: Shape = Shape {
    folders: (1, 4),
    remappings: (0, 3),
    files: (2, 6),
    items: (2, 6),
    total: 60,
    depth: 2,
    components: &[
        b"a", b"b", b"c", b"d", b"lib", b"pay", b"payroll", b"m", b"util",
    ],
    names: &[
        b"f", b"g", b"h", b"k", b"T", b"U", b"m", b"n", b"p", b"a", b"unit_0",
    ],
    kinds: [12, 24, 42, 3, 16, 3],
    public: 70,
    own: 15,
    modules: 12,
    nested: 30,
    odd: 3,
    elsewhere: 4,
};

const ROOTS: Words = &[b"/", b"/r", b"/r", b"/src", b"/a/b", b"/r/pay"];
/// Names of remapped libraries; some are also names of folders, files and items.
pub const LIBRARIES: Words = &[b"lib", b"limits", b"math", b"a", b"pay"];
const ODD: Words = &[
    b"b.simf", b"a.simf", b"a-b", b"...", b"#", b"\"", b"a.b", b"9",
];

pub fn item(public: bool, body: Body) -> Item {
    Item {
        mark: 0,
        public,
        body,
    }
}

pub fn function(public: bool, name: &[u8]) -> Item {
    item(public, Body::Function(name.to_vec()))
}

pub fn module(public: bool, name: &[u8], items: Vec<Item>) -> Item {
    let name = name.to_vec();
    item(public, Body::Module { name, items })
}

pub fn file(path: impl Into<Vec<u8>>, items: Vec<Item>) -> File {
    File {
        path: path.into(),
        path_at: 0,
        items,
    }
}

pub fn element(name: &[u8], alias: Option<&[u8]>) -> Element {
    Element {
        name: name.to_vec(),
        alias: alias.map(<[u8]>::to_vec),
    }
}

/// A use of the segments, written with `::` between them.
pub fn import(public: bool, segments: &str, elements: Vec<Element>) -> Item {
    let segments = segments
        .split("::")
        .filter(|segment| !segment.is_empty())
        .map(|segment| segment.as_bytes().to_vec())
        .collect();
    item(public, Body::Use { segments, elements })
}

pub fn remapping(context: &[u8], name: &[u8], target: &[u8]) -> Remapping {
    Remapping {
        context: context.to_vec(),
        name: name.to_vec(),
        target: target.to_vec(),
        ..Remapping::default()
    }
}

fn range(rng: &mut Rng, (low, high): (usize, usize)) -> usize {
    rng.between(low, high)
}

/// Folders, remappings and empty files.
pub fn layout(rng: &mut Rng, shape: &Shape) -> Bundle {
    let root = rng.word(ROOTS);
    let mut bundle = Bundle {
        root: root.to_vec(),
        ..Bundle::default()
    };
    let mut ancestor = root;
    while ancestor != b"/" {
        bundle.folders.insert(0, ancestor.to_vec());
        ancestor = forms::parent(ancestor);
    }

    for _ in 0..range(rng, shape.folders) {
        let parent = match bundle.folders.last() {
            Some(last) if rng.chance(shape.nested) => last.clone(),
            _ => any_folder(rng, &bundle),
        };
        let words = if rng.chance(shape.odd) {
            ODD
        } else {
            shape.components
        };
        let folder = join(&parent, rng.word(words));
        if forms::is_path(&folder) && !bundle.folders.contains(&folder) {
            bundle.folders.push(folder);
        }
    }

    for _ in 0..range(rng, shape.remappings) {
        let context = any_folder(rng, &bundle);
        let target = any_folder(rng, &bundle);
        let name = rng.word(LIBRARIES);
        if bundle
            .remappings
            .iter()
            .all(|r| r.context != context || r.name != name)
        {
            bundle.remappings.push(remapping(&context, name, &target));
        }
    }

    let count = range(rng, shape.files);
    for index in 0..4 * count {
        let mut folder = any_folder(rng, &bundle);
        if !is_prefix(root, &folder) && rng.chance(50) {
            folder = root.to_vec();
        }
        let mut stem: &[u8] = rng.word(shape.components);
        if bundle.files.is_empty() && !rng.chance(shape.elsewhere) {
            folder = root.to_vec();
            stem = b"main";
        } else if index > 0 && !bundle.remappings.is_empty() && rng.chance(30) {
            folder = rng.pick(&bundle.remappings).target.clone();
        }
        let mut path = join(&folder, stem);
        if !rng.chance(2) {
            path.extend(b".simf");
        }
        let listed = bundle.folders.contains(&path) || bundle.files.iter().any(|f| f.path == path);
        if forms::is_path(&path) && !listed {
            bundle.files.push(file(path, Vec::new()));
        }
        if bundle.files.len() == count {
            break;
        }
    }
    if bundle.files.is_empty() {
        bundle.files.push(file(join(b"/", b"entry"), Vec::new()));
    }
    if rng.chance(20) {
        rng.shuffle(&mut bundle.folders);
    }
    bundle
}

/// `/` or a listed folder, the root more often.
pub fn any_folder(rng: &mut Rng, bundle: &Bundle) -> Vec<u8> {
    match rng.below(bundle.folders.len() + 2) {
        0 => b"/".to_vec(),
        1 => bundle.root.clone(),
        index => bundle.folders[index - 2].clone(),
    }
}

/// The project of a shape, with faults of the given numbers, 41 to 49, where one fits.
pub fn project(rng: &mut Rng, shape: &Shape, faults: &[u8]) -> Bundle {
    let bundle = layout(rng, shape);
    fill(rng, shape, bundle, faults)
}

/// The layout with items in its files.
pub fn fill(rng: &mut Rng, shape: &Shape, mut bundle: Bundle, faults: &[u8]) -> Bundle {
    let mut order: Vec<usize> = (1..bundle.files.len()).collect();
    rng.shuffle(&mut order);
    order.push(0);
    let mut builder = Builder {
        rng,
        shape,
        lookup: Lookup::new(&bundle),
        tree: Tree::new(LARGEST),
        done: Vec::new(),
        imported: vec![false; bundle.files.len()],
        items: 0,
        uses: 0,
        faults: faults.to_vec(),
    };
    let mut filled = vec![Vec::new(); bundle.files.len()];
    for file in order {
        filled[file] = builder.file(file);
    }
    for (file, items) in bundle.files.iter_mut().zip(filled) {
        file.items = items;
    }
    bundle
}

/// A use before it is an item.
struct Proposal {
    target: usize,
    segments: Vec<Vec<u8>>,
    /// The segments from here on are the module path.
    rest: usize,
    elements: Vec<Element>,
    public: bool,
}

struct Builder<'a> {
    rng: &'a mut Rng,
    shape: &'a Shape,
    lookup: Lookup<'a>,
    tree: Tree,
    /// Files with their items.
    done: Vec<usize>,
    imported: Vec<bool>,
    items: usize,
    uses: usize,
    /// Numbers still to be reached.
    faults: Vec<u8>,
}

/// Some entry that `test` takes.
fn choose<'a>(
    rng: &mut Rng,
    entries: &'a [Entry],
    test: impl Fn(&Entry) -> bool,
) -> Option<&'a Entry> {
    if entries.is_empty() {
        return None;
    }
    let (before, after) = entries.split_at(rng.below(entries.len()));
    after.iter().chain(before).find(|entry| test(entry))
}

/// Segments that name the file `target` from the file `importer`.
pub fn route(
    rng: &mut Rng,
    lookup: &Lookup,
    importer: usize,
    target: usize,
) -> Option<Vec<Vec<u8>>> {
    let importer = &lookup.bundle.files[importer].path;
    let target = &lookup.bundle.files[target].path;
    let mut words = lookup.words(importer);
    rng.shuffle(&mut words);
    words.into_iter().find_map(|(word, base)| {
        let segments = segments_below(word, base, target)?;
        let found = lookup.resolve(importer, &segments).ok()?;
        (found.path == *target).then_some(segments)
    })
}

/// The word and what leads from the folder `base` to the file `path`.
pub fn segments_below(word: &[u8], base: &[u8], path: &[u8]) -> Option<Vec<Vec<u8>>> {
    let stem = path.strip_suffix(b".simf")?;
    if !is_prefix(base, path) || base.len() >= stem.len() {
        return None;
    }
    let below = &stem[if base == b"/" { 1 } else { base.len() + 1 }..];
    let mut segments = vec![word.to_vec()];
    segments.extend(below.split(|&byte| byte == b'/').map(<[u8]>::to_vec));
    segments
        .iter()
        .all(|segment| forms::is_identifier(segment))
        .then_some(segments)
}

impl Builder<'_> {
    fn file(&mut self, file: usize) -> Vec<Item> {
        if self.tree.enter(&unit_name(file), false, 0).is_err() {
            return Vec::new();
        }
        let first = self.rng.chance(60);
        let mut items = if first {
            self.connect(file)
        } else {
            Vec::new()
        };
        let count = range(self.rng, self.shape.items);
        items.extend(self.items(file, 0, count));
        if !first {
            items.extend(self.connect(file));
        }
        if file == 0 {
            items.extend((0..6).filter_map(|_| self.next_fault(file)));
        }
        self.tree.exit();
        self.done.push(file);
        items
    }

    /// Uses of files that none imports yet: of most in the entry, of one in other files.
    fn connect(&mut self, file: usize) -> Vec<Item> {
        let mut targets = self.done.clone();
        targets.retain(|&target| !self.imported[target]);
        self.rng.shuffle(&mut targets);
        if file != 0 {
            targets.truncate(self.rng.below(2));
        }
        let mut items = Vec::new();
        for target in targets {
            if self.rng.chance(85) {
                items.extend(self.good_use(file, Some(target)));
            }
        }
        items
    }

    fn items(&mut self, file: usize, depth: usize, count: usize) -> Vec<Item> {
        let mut items = Vec::new();
        let main = if file == 0 && depth == 0 {
            self.rng.below(count + 1)
        } else {
            usize::MAX
        };
        for index in 0..=count {
            if index == main {
                let public = self.rng.chance(20);
                if self.tree.insert_function(b"main", public, 0).is_ok() {
                    items.push(function(public, b"main"));
                }
            }
            if index < count && self.items < self.shape.total {
                self.items += 1;
                items.extend(self.item(file, depth));
            }
        }
        items
    }

    fn item(&mut self, file: usize, depth: usize) -> Option<Item> {
        if !self.faults.is_empty() && self.rng.chance(25) {
            return self.next_fault(file);
        }
        let mut weights = self.shape.kinds;
        if file != 0 {
            weights[3] = 0;
        }
        if depth == self.shape.depth {
            weights[4] = 0;
        }
        let public = self.rng.chance(self.shape.public);
        let name = self.rng.word(self.shape.names);
        match self.rng.weighted(weights.into_iter()) {
            kind @ (0 | 3) => {
                self.tree.insert_type(name, public, 0).ok()?;
                let name = name.to_vec();
                let body = if kind == 0 {
                    Body::TypeAlias(name)
                } else {
                    Body::Enum(name)
                };
                Some(item(public, body))
            }
            1 => {
                self.tree.insert_function(name, public, 0).ok()?;
                Some(function(public, name))
            }
            2 => self.good_use(file, None),
            4 => {
                self.tree.enter(name, public, 0).ok()?;
                let most = range(self.rng, self.shape.items);
                let count = self.rng.below(most + 1);
                let items = self.items(file, depth + 1, count);
                self.tree.exit();
                Some(module(public, name, items))
            }
            _ => Some(item(public, Body::Ignored)),
        }
    }

    fn good_use(&mut self, file: usize, target: Option<usize>) -> Option<Item> {
        (0..3).find_map(|_| {
            let proposal = self.proposal(file, target)?;
            let (item, answer) = self.try_use(file, proposal)?;
            answer.is_ok().then_some(item)
        })
    }

    /// The proposal as an item, and what the tree says of it; nothing where its segments do not
    /// name its target.
    fn try_use(&mut self, file: usize, proposal: Proposal) -> Option<(Item, Result<(), u8>)> {
        let Proposal {
            target,
            segments,
            rest,
            elements,
            public,
        } = proposal;
        let files = &self.lookup.bundle.files;
        let found = self.lookup.resolve(&files[file].path, &segments);
        let expected = Found {
            path: files[target].path.clone(),
            rest,
        };
        let too_many = self.uses == limits::USES
            || segments.len() > limits::SEGMENTS
            || elements.len() > limits::ELEMENTS;
        if found != Ok(expected) || too_many {
            return None;
        }
        self.uses += 1;
        let mut path = vec![unit_name(target)];
        path.extend_from_slice(&segments[rest..]);
        let answer = self.tree.import(&path, &elements, public);
        if answer.is_ok() {
            self.imported[target] = true;
        }
        Some((item(public, Body::Use { segments, elements }), answer))
    }

    /// A use of `target`, or of any file.
    fn proposal(&mut self, file: usize, target: Option<usize>) -> Option<Proposal> {
        let target = match target {
            Some(target) => target,
            None if self.done.is_empty() || self.rng.chance(self.shape.own) => file,
            None => *self.rng.pick(&self.done),
        };
        let own = target == file;
        // A file directly in its root reaches itself by `crate` alone.
        let mut segments = if own && self.rng.chance(70) {
            vec![b"crate".to_vec()]
        } else {
            route(self.rng, &self.lookup, file, target)?
        };
        let rest = segments.len();

        let mut path = vec![unit_name(target)];
        while path.len() < 9 && self.rng.chance(45) {
            let entries = self.tree.entries_of(&path)?;
            let passes = |entry: &Entry| entry.kind == Kind::Module && (entry.public || own);
            let Some(entry) = choose(self.rng, entries, passes) else {
                break;
            };
            path.push(entry.name.clone());
            segments.push(entry.name.clone());
        }

        let entries = self.tree.entries_of(&path)?;
        let count = match self.rng.below(100) {
            0..=4 => 0,
            5..=64 => 1,
            65..=84 => 2,
            _ => self.rng.between(3, 5),
        };
        let mut elements = Vec::new();
        for _ in 0..count {
            let wants_module = self.rng.chance(self.shape.modules);
            let fits = |entry: &Entry| entry.public && (entry.kind == Kind::Module) == wants_module;
            let Some(entry) = choose(self.rng, entries, fits)
                .or_else(|| choose(self.rng, entries, |entry| entry.public))
            else {
                break;
            };
            let alias = self.rng.chance(35).then(|| self.rng.word(self.shape.names));
            elements.push(element(&entry.name, alias));
        }
        if count > 0 && elements.is_empty() && self.rng.chance(60) {
            return None;
        }
        Some(Proposal {
            target,
            segments,
            rest,
            elements,
            public: self.rng.chance(self.shape.public),
        })
    }

    /// An item towards the next fault, which it need not reach.
    fn next_fault(&mut self, file: usize) -> Option<Item> {
        let number = *self.faults.last()?;
        let (item, answer) = self.faulty(file, number)?;
        if answer == Err(number) {
            self.faults.pop();
            return Some(item);
        }
        answer.is_ok().then_some(item)
    }

    /// An item that may be refused with `number`, and what the tree says of it.
    fn faulty(&mut self, file: usize, number: u8) -> Option<(Item, Result<(), u8>)> {
        let public = self.rng.chance(self.shape.public);
        let name = self.rng.word(self.shape.names);
        match number {
            47 => {
                let kind = |entry: &Entry| entry.kind == Kind::Module;
                let name = &choose(self.rng, self.tree.current_entries(), kind)?.name;
                let inner = if self.rng.chance(50) {
                    vec![function(public, b"f")]
                } else {
                    Vec::new()
                };
                Some((module(public, name, inner), Err(47)))
            }
            48 => {
                let kind = |entry: &Entry| entry.kind == Kind::Type;
                let name = choose(self.rng, self.tree.current_entries(), kind)?
                    .name
                    .clone();
                let body = if file == 0 && self.rng.chance(50) {
                    Body::Enum(name)
                } else {
                    Body::TypeAlias(name)
                };
                Some((item(public, body), Err(48)))
            }
            49 => {
                let kind = |entry: &Entry| entry.kind == Kind::Function;
                let name = &choose(self.rng, self.tree.current_entries(), kind)?.name;
                Some((function(public, name), Err(49)))
            }
            _ => {
                for _ in 0..8 {
                    let Some(mut proposal) = self.proposal(file, None) else {
                        continue;
                    };
                    self.spoil(&mut proposal, number, name);
                    // A second spoiling tries which of the two is told.
                    if self.rng.chance(25) {
                        let other = *self.rng.pick(&[41, 42, 43, 44, 45, 46]);
                        self.spoil(&mut proposal, other, name);
                    }
                    match self.try_use(file, proposal) {
                        Some((item, answer)) if answer.is_ok() || answer == Err(number) => {
                            return Some((item, answer));
                        }
                        _ => {}
                    }
                }
                None
            }
        }
    }

    /// Changes the proposal towards `number`.
    fn spoil(&mut self, proposal: &mut Proposal, number: u8, name: &[u8]) {
        let mut path = vec![unit_name(proposal.target)];
        path.extend_from_slice(&proposal.segments[proposal.rest..]);
        let entries = self.tree.entries_of(&path).unwrap_or_default();
        let position = self.rng.below(proposal.elements.len() + 1);
        match number {
            41 => {
                let at = self.rng.between(proposal.rest, proposal.segments.len());
                proposal.segments.insert(at, name.to_vec());
            }
            42 => {
                let passes = |entry: &Entry| entry.kind == Kind::Module && !entry.public;
                if let Some(entry) = choose(self.rng, entries, passes) {
                    proposal.segments.push(entry.name.clone());
                    // What comes after a private segment does not matter.
                    if self.rng.chance(40) {
                        proposal.segments.push(name.to_vec());
                    }
                }
            }
            43 => proposal.elements.insert(position, element(name, None)),
            44 => {
                if let Some(entry) = choose(self.rng, entries, |entry| !entry.public) {
                    let alias = self.rng.chance(30).then_some(name);
                    let private = element(&entry.name, alias);
                    proposal.elements.insert(position, private);
                }
            }
            45 => {
                if let Some(again) = proposal.elements.first().cloned() {
                    if self.rng.chance(30) {
                        proposal.elements.insert(position, again);
                        return;
                    }
                }
                let held = choose(self.rng, self.tree.current_entries(), |_| true);
                if let (Some(element), Some(held)) = (proposal.elements.last_mut(), held) {
                    element.alias = Some(held.name.clone());
                }
            }
            _ => {
                let count = proposal.elements.len();
                if count == 0 {
                    proposal.elements.push(element(name, Some(b"main")));
                } else {
                    let chosen = self.rng.below(count);
                    proposal.elements[chosen].alias = Some(b"main".to_vec());
                }
            }
        }
    }
}
