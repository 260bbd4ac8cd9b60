//! The proved linker of SimplicityHL module files behind safe calls.
//!
//! [`link`] takes a bundle of whatever bytes and answers with the linked program or a refusal; it never panics and allocates nothing.
//! [`remappings`] reads a remapping list of a Solidity project, and [`Builder::remapping_list`] puts one into a bundle.
//! What they do is proved of the library that is called (docs/EVIDENCE.md); this crate only lends the buffers and reads the answer.
//!
//! ```
//! use gontsamy::{link, Builder, Buffers};
//!
//! let mut bytes = [0; gontsamy::layout::BUNDLE];
//! let mut builder = Builder::new(&mut bytes, b"/r").unwrap();
//! builder.folder(b"/r").unwrap();
//! builder.file(b"/r/main.simf").unwrap();
//! let mark = builder.use_item(false, &[b"crate", b"a"], &[(b"f", None)]).unwrap();
//! builder.function(false, b"main").unwrap();
//! builder.file(b"/r/a.simf").unwrap();
//! builder.function(true, b"f").unwrap();
//! let bundle = builder.finish().unwrap();
//! assert_eq!((mark, bundle.len()), (27, 71));
//!
//! let mut buffers = Buffers::new();
//! let linked = link(bundle, &mut buffers).unwrap();
//! let order: Vec<&[u8]> = linked.units().map(|unit| unit.path).collect();
//! assert_eq!(order, [b"/r/a.simf".as_slice(), b"/r/main.simf"]);
//! ```

#![no_std]
#![deny(missing_docs)]

mod builder;
pub mod exports;
mod graph;
mod image;
pub mod layout;
mod number;
mod parts;
mod remappings;
mod tree;

pub use builder::{BuildError, Builder, Part, Reason};
pub use graph::{linearize, Graph, Ids, Linearized};
pub use image::{Body, Element, Elements, Item, Items, Strings};
pub use number::{Meaning, Number, MEANINGS};
pub use remappings::{remappings, ListRefusal, Remapping, RemappingSection};
pub use tree::Tree;

use layout::*;

/// What is lent to a link. It is 161 KB; keep it in a `static` or a box where the stack is small.
pub struct Buffers {
    report: [u8; REPORT],
    image: [u8; IMAGE],
    answer: [usize; ANSWER],
    rows: [u64; ROWS],
}

impl Buffers {
    /// Buffers of the sizes that hold every report, image and tree.
    pub const fn new() -> Self {
        Buffers {
            report: [0; REPORT],
            image: [0; IMAGE],
            answer: [0; ANSWER],
            rows: [0; ROWS],
        }
    }
}

impl Default for Buffers {
    fn default() -> Self {
        Self::new()
    }
}

/// A linked program.
#[derive(Clone, Copy)]
pub struct Linked<'a> {
    bundle: &'a [u8],
    image: &'a [u8],
    answer: &'a [usize; ANSWER],
    rows: &'a [u64],
}

/// A unit of a linked program.
#[derive(Clone, Copy, Debug, PartialEq, Eq)]
pub struct Unit<'a> {
    /// Its id: the entry is 0.
    pub id: usize,
    /// The path of its file.
    pub path: &'a [u8],
}

/// Why a bundle is refused.
#[derive(Clone, Copy, Debug, PartialEq, Eq)]
pub enum Refusal<'a> {
    /// 1 to 15 and 40 to 51: a number and a place.
    At(Number, usize),
    /// 20 to 28: a record for each fault.
    Report(Records<'a>),
}

/// The records of a report, one after another.
#[derive(Clone, Copy, Debug, PartialEq, Eq)]
pub struct Records<'a> {
    bytes: &'a [u8],
}

/// A record of a report.
#[derive(Clone, Copy, Debug, PartialEq, Eq)]
pub struct Record<'a> {
    /// 20 to 28.
    pub number: Number,
    /// The mark of the item; 0 of a ring and of 27.
    pub place: usize,
    /// The ids of a ring, each unit importing the next and the last the first.
    pub ring: &'a [u8],
}

impl<'a> Iterator for Records<'a> {
    type Item = Record<'a>;

    fn next(&mut self) -> Option<Record<'a>> {
        let (&[number, high, low], rest) = self.bytes.split_first_chunk::<3>()?;
        let (ring, rest) = match (number, rest.split_first()) {
            (26, Some((&count, ids))) => ids.split_at_checked(usize::from(count))?,
            _ => (&[][..], rest),
        };
        self.bytes = rest;
        Some(Record {
            number: Number(number),
            place: usize::from(u16::from_be_bytes([high, low])),
            ring,
        })
    }
}

/// What an entry of the tree is.
#[derive(Clone, Copy, Debug, PartialEq, Eq)]
pub enum Kind {
    /// A type alias or an enum.
    Type,
    /// A function.
    Function,
    /// A module; the units are modules of the root.
    Module,
}

/// An entry of the tree.
#[derive(Clone, Copy, Debug, PartialEq, Eq)]
pub struct Entry {
    /// What it is.
    pub kind: Kind,
    /// Whether it is public.
    pub public: bool,
    /// The entry of the module that holds it; none at the root.
    pub scope: Option<usize>,
    /// The mark of its declaration.
    pub mark: usize,
    /// The entry that it was imported from; none of a declaration.
    pub origin: Option<usize>,
    /// Of an imported module: what it shows.
    pub shown: Option<Scope>,
    name: [u8; 32],
    length: usize,
}

impl Entry {
    /// Its name.
    pub fn name(&self) -> &[u8] {
        &self.name[..self.length]
    }
}

/// What a module holds, or what an imported one shows: the entries of a module among the first of all.
#[derive(Clone, Copy, Debug, PartialEq, Eq)]
pub struct Scope {
    /// The entry of the module; none for the root.
    pub module: Option<usize>,
    /// Among how many first entries.
    pub first: usize,
}

/// The units of an answer in linked order.
fn units<'a>(bundle: &'a [u8], answer: &'a [usize; ANSWER]) -> impl Iterator<Item = Unit<'a>> + 'a {
    let count = answer[ANSWER_UNITS].min(FILES);
    answer[ANSWER_IDS..ANSWER_IDS + count]
        .iter()
        .map(move |&id| Unit {
            id,
            path: answer
                .get(ANSWER_FILES + id)
                .and_then(|&file| parts::file_path(bundle, file))
                .unwrap_or_default(),
        })
}

impl<'a> Linked<'a> {
    /// The units in linked order: each after every other that it imports.
    pub fn units(&self) -> impl Iterator<Item = Unit<'a>> + 'a {
        units(self.bundle, self.answer)
    }

    /// The image: the linked program as bytes.
    pub fn image(&self) -> &'a [u8] {
        self.image
    }

    /// The items of the image: one private module for each unit.
    pub fn items(&self) -> Items<'a> {
        Items::of_image(self.image)
    }

    /// The entries of the tree in the order made, units among them.
    pub fn entries(&self) -> impl Iterator<Item = Entry> + 'a {
        self.rows.chunks_exact(ROW).map(entry)
    }

    /// How many entries there are.
    pub fn entry_count(&self) -> usize {
        self.rows.len() / ROW
    }

    /// The entry of that number.
    pub fn entry(&self, index: usize) -> Option<Entry> {
        self.rows.chunks_exact(ROW).nth(index).map(entry)
    }

    /// The root, whose entries are the units.
    pub fn root(&self) -> Scope {
        let first = self.entry_count();
        Scope {
            module: None,
            first,
        }
    }

    /// The entry of a kind and a name in a scope.
    ///
    /// ```
    /// use gontsamy::{link, Buffers, Builder, Kind};
    ///
    /// // `m` is imported before its `late` is declared, so that the copy does not show it.
    /// let mut bytes = [0; 256];
    /// let mut builder = Builder::new(&mut bytes, b"/").unwrap();
    /// builder.file(b"/main.simf").unwrap();
    /// builder.function(false, b"main").unwrap();
    /// builder.open_module(true, b"m").unwrap();
    /// let mark = builder.function(true, b"f").unwrap();
    /// builder.use_item(true, &[b"crate", b"main"], &[(b"m", Some(b"early"))]).unwrap();
    /// builder.function(true, b"late").unwrap();
    /// builder.close_module().unwrap();
    /// let bundle = builder.finish().unwrap();
    ///
    /// let mut buffers = Buffers::new();
    /// let linked = link(bundle, &mut buffers).unwrap();
    /// let module = |scope, name| linked.inside(scope, linked.find(scope, Kind::Module, name)?);
    /// let unit = module(linked.root(), b"unit_0").unwrap();
    /// let m = module(unit, b"m").unwrap();
    /// let early = module(m, b"early").unwrap();
    /// assert!(linked.find(m, Kind::Function, b"late").is_some());
    /// assert!(linked.find(early, Kind::Function, b"late").is_none());
    /// let f = linked.find(early, Kind::Function, b"f").unwrap();
    /// assert_eq!(linked.entry(f).unwrap().mark, mark);
    /// ```
    pub fn find(&self, scope: Scope, kind: Kind, name: &[u8]) -> Option<usize> {
        self.entries().take(scope.first).position(|entry| {
            entry.scope == scope.module && entry.kind == kind && entry.name() == name
        })
    }

    /// What is inside an entry that was found in a scope, where it is a module: its own entries, or what an imported one shows.
    pub fn inside(&self, scope: Scope, index: usize) -> Option<Scope> {
        let entry = self.entry(index)?;
        match entry.shown {
            Some(shown) => Some(Scope {
                first: shown.first.min(scope.first),
                ..shown
            }),
            None if entry.kind == Kind::Module => Some(Scope {
                module: Some(index),
                ..scope
            }),
            None => None,
        }
    }
}

fn entry(row: &[u64]) -> Entry {
    let number = |at: usize| row[at] as usize;
    let mut name = [0; 32];
    for (bytes, word) in name.chunks_exact_mut(8).zip(&row[ROW_NAME..]) {
        bytes.copy_from_slice(&word.to_be_bytes());
    }
    let kind = match row[ROW_KIND] {
        1 => Kind::Type,
        2 => Kind::Function,
        _ => Kind::Module,
    };
    let origin = number(ROW_ORIGIN).checked_sub(1);
    Entry {
        kind,
        public: row[ROW_PUBLIC] == 1,
        scope: number(ROW_SCOPE).checked_sub(1),
        mark: number(ROW_MARK),
        origin,
        shown: (kind == Kind::Module && origin.is_some()).then(|| Scope {
            module: number(ROW_SHOWN).checked_sub(1),
            first: number(ROW_TIME),
        }),
        length: name.iter().position(|&byte| byte == 0).unwrap_or(32),
        name,
    }
}

/// What a number and an answer refuse.
fn refused<'a>(number: u8, answer: &[usize; ANSWER], report: &'a [u8]) -> Option<Refusal<'a>> {
    if number != 0 {
        return Some(Refusal::At(Number(number), answer[ANSWER_PLACE]));
    }
    if answer[ANSWER_REPORT] != 0 {
        let bytes = report.get(..answer[ANSWER_REPORT]).unwrap_or_default();
        return Some(Refusal::Report(Records { bytes }));
    }
    None
}

/// Links a bundle: units, order, image and tree, or the refusal.
pub fn link<'a>(bundle: &'a [u8], buffers: &'a mut Buffers) -> Result<Linked<'a>, Refusal<'a>> {
    let Buffers {
        report,
        image,
        answer,
        rows,
    } = buffers;
    let number = exports::link(bundle, report, image, answer, rows);
    let answer: &'a [usize; ANSWER] = answer;
    if let Some(refusal) = refused(number, answer, report) {
        return Err(refusal);
    }
    Ok(Linked {
        bundle,
        image: image.get(..answer[ANSWER_IMAGE]).unwrap_or_default(),
        answer,
        rows: rows.get(..answer[ANSWER_ENTRIES] * ROW).unwrap_or_default(),
    })
}

/// The units of a bundle in linked order: what `link` answers after its steps 1 to 4, without assembly and tree.
///
/// ```
/// use gontsamy::{order, Builder, Buffers};
///
/// let mut bytes = [0; 64];
/// let mut builder = Builder::new(&mut bytes, b"/").unwrap();
/// builder.file(b"/main.simf").unwrap();
/// let bundle = builder.finish().unwrap();
/// let mut buffers = Buffers::new();
/// let units: Vec<_> = order(bundle, &mut buffers).unwrap().collect();
/// assert_eq!((units.len(), units[0].path), (1, b"/main.simf".as_slice()));
/// ```
pub fn order<'a>(
    bundle: &'a [u8],
    buffers: &'a mut Buffers,
) -> Result<impl Iterator<Item = Unit<'a>> + 'a, Refusal<'a>> {
    let Buffers { report, answer, .. } = buffers;
    let number = exports::order(bundle, report, answer);
    let answer: &'a [usize; ANSWER] = answer;
    match refused(number, answer, report) {
        Some(refusal) => Err(refusal),
        None => Ok(units(bundle, answer)),
    }
}

/// Tests a bundle by 1 to 13 alone.
pub fn check(bundle: &[u8]) -> Result<(), (Number, usize)> {
    let mut place = 0;
    match exports::check(bundle, &mut place) {
        0 => Ok(()),
        number => Err((Number(number), place)),
    }
}

/// What a use resolves to.
#[derive(Clone, Copy, Debug, PartialEq, Eq)]
pub enum Resolved {
    /// The file of that place among the bundle's files, and how many of the last segments are left.
    File(usize, usize),
    /// The same of a folder, which can't be read as a file.
    Folder(usize, usize),
}

/// What a use of a listed file resolves to. `decl` is in the bundle's form: a count of segments, and the segments.
pub fn resolve(bundle: &[u8], importer: &[u8], decl: &[u8]) -> Result<Resolved, (Number, usize)> {
    let mut found = exports::Found::default();
    match exports::resolve(bundle, importer, decl, &mut found) {
        0 => Ok(Resolved::File(found.index, found.left)),
        FOLDER => Ok(Resolved::Folder(found.index, found.left)),
        number => Err((Number(number), found.place)),
    }
}
