//! Why a bundle is refused, found again from what it says, for a person to read. Nothing here decides: the proved linker has.

use bundle_format::{forms, limits, Body, Bundle, Element, Item};
use bundle_generate::link::{discover, Discovered};
use bundle_generate::lookup::{is_prefix, join, Lookup};

use crate::card::{Card, Location};
use crate::fields::quoted;
use crate::scopes::{self, Cause};

/// A remark, with the place that it is about.
#[derive(Clone, Debug)]
pub struct Note {
    pub text: String,
    pub location: Option<Location>,
}

/// What is said of a refusal beside its number: the place to mark, and remarks.
#[derive(Clone, Debug, Default)]
pub struct Finding {
    pub location: Option<Location>,
    pub label: String,
    pub notes: Vec<Note>,
    /// What to do, where it is not what the number says.
    pub help: Option<String>,
}

impl Finding {
    pub fn note(&mut self, text: impl Into<String>) {
        self.note_at(text, None);
    }

    fn note_at(&mut self, text: impl Into<String>, location: Option<&Location>) {
        self.notes.push(Note {
            text: text.into(),
            location: location.cloned(),
        });
    }
}

/// A path or name as text.
fn text(bytes: &[u8]) -> String {
    quoted(bytes)
}

/// The item of a mark, with the index of its file.
pub fn item_at(bundle: &Bundle, mark: usize) -> Option<(usize, &Item)> {
    fn search(items: &[Item], mark: usize) -> Option<&Item> {
        items.iter().find_map(|item| match &item.body {
            _ if item.mark == mark => Some(item),
            Body::Module { items, .. } => search(items, mark),
            _ => None,
        })
    }
    let mut files = bundle.files.iter().enumerate();
    files.find_map(|(index, file)| Some((index, search(&file.items, mark)?)))
}

/// The offset of a segment of a use.
pub fn segment_offset(mark: usize, segments: &[Vec<u8>], index: usize) -> usize {
    let before = segments.iter().take(index).map(|segment| segment.len() + 1);
    mark + 5 + before.sum::<usize>()
}

/// The offset of an element of a use.
pub fn element_offset(
    mark: usize,
    segments: &[Vec<u8>],
    elements: &[Element],
    index: usize,
) -> usize {
    let length = |element: &Element| {
        2 + element.name.len() + element.alias.as_ref().map_or(0, |alias| alias.len())
    };
    let before = elements.iter().take(index).map(length);
    segment_offset(mark, segments, segments.len()) + 1 + before.sum::<usize>()
}

/// What can be said of a refusal.
pub fn find(card: &Card, number: u8, place: usize, ring: &[u8]) -> Finding {
    let mut finding = Finding {
        location: card.at(place).cloned(),
        ..Finding::default()
    };
    let Some(bundle) = &card.bundle else {
        return finding;
    };
    match number {
        7 | 8 => listed_path(card, bundle, number, place, &mut finding),
        9 | 10 => folder(bundle, number, place, &mut finding),
        11 | 12 => remapping_name(bundle, place, &mut finding),
        13 => remapping(card, bundle, place, &mut finding),
        20..=25 => resolution(card, bundle, number, place, &mut finding),
        26 => ring_of(card, bundle, ring, &mut finding),
        27 => {
            finding.location = None;
            let entry = text(&bundle.files[0].path);
            finding.note(format!("the entry is {entry}"));
        }
        28 => {
            if let Some((file, _)) = item_at(bundle, place) {
                let (file, entry) = (&bundle.files[file].path, &bundle.files[0].path);
                finding.label = format!("{} is not the entry {}", text(file), text(entry));
            }
        }
        41..=49 | 51 => scope(card, bundle, number, place, &mut finding),
        _ => {}
    }
    finding
}

/// The listed paths with their offsets, folders and then files.
fn listed(bundle: &Bundle) -> impl Iterator<Item = (&Vec<u8>, usize)> {
    let folders = bundle.folders.iter().zip(bundle.folder_at.iter().copied());
    folders.chain(bundle.files.iter().map(|file| (&file.path, file.path_at)))
}

fn listed_path(card: &Card, bundle: &Bundle, number: u8, place: usize, finding: &mut Finding) {
    let Some((path, _)) = listed(bundle).find(|(_, at)| *at == place) else {
        return;
    };
    if number == 8 {
        let parent = text(forms::parent(path));
        finding.label = format!("its folder {parent} is not listed");
        return;
    }
    match listed(bundle).find(|(other, _)| *other == path) {
        Some((_, at)) if at != place => {
            finding.label = "listed again here".to_string();
            finding.note_at("listed first here", card.at(at));
        }
        _ => finding.label = "`/` is always there and is not listed".to_string(),
    }
}

fn folder(bundle: &Bundle, number: u8, place: usize, finding: &mut Finding) {
    let all = bundle.remappings.iter().flat_map(|remapping| {
        [
            (&remapping.context, remapping.context_at),
            (&remapping.target, remapping.target_at),
        ]
    });
    let mut all = all.chain([(&bundle.root, bundle.root_at)]);
    if let Some((path, _)) = all.find(|(_, at)| *at == place) {
        let path = text(path);
        finding.label = match number {
            9 => format!("no folder {path} is listed"),
            _ => format!("{path} is a file"),
        };
    }
}

fn remapping_name(bundle: &Bundle, place: usize, finding: &mut Finding) {
    let mut names = bundle.remappings.iter();
    let named = names.find(|remapping| remapping.name_at == place);
    if let Some((_, label)) = named.and_then(|remapping| name_fault(&remapping.name)) {
        finding.label = label;
    }
}

/// By which number the linker refuses a remapping's name, and why.
pub fn name_fault(name: &[u8]) -> Option<(u8, String)> {
    let shown = text(name);
    match name {
        b"crate" => Some((11, "crate is the package itself".to_string())),
        _ if forms::is_keyword(name) => Some((12, format!("{shown} is a reserved word"))),
        _ if name.len() > limits::NAME => {
            let label = format!("the name has {} bytes, over {}", name.len(), limits::NAME);
            Some((12, label))
        }
        _ if !forms::is_identifier(name) => Some((12, format!("{shown} is no identifier"))),
        _ => None,
    }
}

fn remapping(card: &Card, bundle: &Bundle, place: usize, finding: &mut Finding) {
    let list = &bundle.remappings;
    let Some(later) = list.iter().find(|remapping| remapping.at == place) else {
        return;
    };
    let same = |r: &&bundle_format::Remapping| r.context == later.context && r.name == later.name;
    if let Some(first) = list.iter().find(same) {
        finding.label = format!(
            "{} is remapped again below {}",
            text(&later.name),
            text(&later.context)
        );
        finding.note_at("remapped first here", card.at(first.at));
    }
}

/// Where a search below a base comes to.
enum Trail {
    /// The segments ran out in this folder.
    Folder(Vec<u8>),
    /// Nothing of this path is listed; the segment that names it.
    Nothing(Vec<u8>, usize),
    Found(Vec<u8>),
}

fn trail(lookup: &Lookup, base: &[u8], segments: &[Vec<u8>]) -> Trail {
    let bundle = lookup.bundle;
    let is_folder =
        |path: &[u8]| path == b"/" || bundle.folders.iter().any(|folder| folder == path);
    let mut path = base.to_vec();
    for (index, segment) in segments.iter().enumerate().skip(1) {
        path = join(&path, segment);
        if !is_folder(&path) {
            path.extend(b".simf");
            if lookup.file(&path).is_some() || is_folder(&path) {
                return Trail::Found(path);
            }
            return Trail::Nothing(path, index);
        }
    }
    Trail::Folder(path)
}

fn resolution(card: &Card, bundle: &Bundle, number: u8, mark: usize, finding: &mut Finding) {
    let Some((file, item)) = item_at(bundle, mark) else {
        return;
    };
    let Body::Use { segments, .. } = &item.body else {
        return;
    };
    let importer = &bundle.files[file].path;
    let lookup = Lookup::new(bundle);
    let Some(word) = segments.first() else {
        return;
    };
    finding.note(format!("the importing file is {}", text(importer)));
    let base = match number {
        21 => return unknown_library(card, bundle, importer, word, finding),
        25 => {
            let mut roots: Vec<String> = vec![text(&bundle.root)];
            roots.extend(bundle.remappings.iter().map(|r| text(&r.target)));
            finding.label = "below no package root".to_string();
            return finding.note(format!("the package roots are {}", roots.join(", ")));
        }
        _ => lookup
            .words(importer)
            .into_iter()
            .find(|(known, _)| *known == &word[..])
            .map(|(_, base)| base),
    };
    let Some(base) = base else { return };
    match trail(&lookup, base, segments) {
        Trail::Folder(path) => {
            finding.label = format!("the path ends in the folder {}", text(&path));
            finding.note(files_of(bundle, &path));
        }
        Trail::Nothing(path, index) => {
            let offset = segment_offset(mark, segments, index);
            finding.location = card.at(offset).cloned().or(finding.location.take());
            finding.label = format!("{} is not listed", text(&path));
            finding.note(format!("the search began in {}", text(base)));
            finding.note(files_of(bundle, forms::parent(&path)));
        }
        Trail::Found(path) if number == 24 => {
            let root = lookup.package_root(&path).unwrap_or_default();
            finding.label = format!("leads to {}", text(&path));
            finding.note(format!(
                "{} and {} lie in one package, {}",
                text(&path),
                text(importer),
                text(root)
            ));
        }
        Trail::Found(path) => finding.label = format!("{} is a folder", text(&path)),
    }
}

/// The files of a folder, a few of them.
fn files_of(bundle: &Bundle, folder: &[u8]) -> String {
    let names: Vec<String> = bundle
        .files
        .iter()
        .filter(|file| forms::parent(&file.path) == folder)
        .map(|file| text(&file.path))
        .collect();
    match names.len() {
        0 => format!("{} has no files", text(folder)),
        n if n > 6 => format!("{} has {n} files", text(folder)),
        _ => format!("{} has {}", text(folder), names.join(", ")),
    }
}

fn unknown_library(
    card: &Card,
    bundle: &Bundle,
    importer: &[u8],
    word: &[u8],
    finding: &mut Finding,
) {
    finding.label = format!("no remapping of {} applies here", text(word));
    let mut named = false;
    for remapping in bundle.remappings.iter().filter(|r| r.name == word) {
        named = true;
        if !is_prefix(&remapping.context, importer) {
            let reason = format!(
                "`{}:{}={}` does not apply: {} is no prefix of {} by whole components",
                text(&remapping.context),
                text(word),
                text(&remapping.target),
                text(&remapping.context),
                text(importer)
            );
            finding.note_at(reason, card.at(remapping.context_at));
        }
    }
    if !named {
        let names: Vec<String> = bundle.remappings.iter().map(|r| text(&r.name)).collect();
        finding.note(match names.is_empty() {
            true => "there is no remapping".to_string(),
            false => format!("the libraries remapped are {}", names.join(", ")),
        });
    }
}

/// All uses of a file, inline modules included.
pub fn uses(items: &[Item]) -> Vec<&Item> {
    let mut found = Vec::new();
    for item in items {
        match &item.body {
            Body::Use { .. } => found.push(item),
            Body::Module { items, .. } => found.extend(uses(items)),
            _ => {}
        }
    }
    found
}

/// The first use of a file that resolves to another file.
pub fn importing_use(bundle: &Bundle, from: usize, to: usize) -> Option<&Item> {
    let lookup = Lookup::new(bundle);
    let (importer, target) = (&bundle.files[from].path, &bundle.files[to].path);
    uses(&bundle.files[from].items)
        .into_iter()
        .find(|item| match &item.body {
            Body::Use { segments, .. } => lookup
                .resolve(importer, segments)
                .is_ok_and(|found| found.path == *target),
            _ => false,
        })
}

fn ring_of(card: &Card, bundle: &Bundle, ring: &[u8], finding: &mut Finding) {
    finding.location = None;
    let Discovered::Graph { files, .. } = discover(&card.bytes) else {
        return;
    };
    let ring: Vec<usize> = ring
        .iter()
        .filter_map(|&id| files.get(usize::from(id)).copied())
        .collect();
    for (index, &from) in ring.iter().enumerate() {
        let to = ring[(index + 1) % ring.len()];
        let path = |file: usize| text(&bundle.files[file].path);
        let location = importing_use(bundle, from, to).and_then(|item| card.at(item.mark));
        finding.note_at(format!("{} imports {}", path(from), path(to)), location);
    }
}

fn scope(card: &Card, bundle: &Bundle, number: u8, place: usize, finding: &mut Finding) {
    let Some((refused, cause)) = scopes::walk(card, bundle) else {
        return;
    };
    // What is found again must be what the linker told.
    if refused != (number, place) {
        return;
    }
    let item = item_at(bundle, place).map(|(_, item)| item);
    let parts = item.and_then(|item| match &item.body {
        Body::Use { segments, elements } => Some((segments, elements)),
        _ => None,
    });
    match (cause, parts) {
        (Cause::Segment { index, message }, Some((segments, _))) => {
            if let Some(index) = index {
                let offset = segment_offset(place, segments, index);
                finding.location = card.at(offset).cloned().or(finding.location.take());
            }
            finding.label = message;
        }
        (
            Cause::Element {
                index,
                message,
                held,
            },
            Some((segments, elements)),
        ) => {
            let offset = element_offset(place, segments, elements, index);
            finding.location = card.at(offset).cloned().or(finding.location.take());
            finding.label = message;
            if let Some(mark) = held {
                let text = match number {
                    44 => "it came in here, without `pub`",
                    _ => "the name is held since here",
                };
                finding.note_at(text, card.at(mark));
            }
        }
        (Cause::Held { message, held }, _) => {
            finding.label = message;
            finding.note_at("the name is held since here", card.at(held));
        }
        (Cause::Full { message }, _) => finding.label = message,
        _ => {}
    }
}
