//! One bundle, judged: the steps of a link by the original, from bytes to what is printed.

use std::io;
use std::rc::Rc;
use std::sync::Arc;

use bundle_format::{limits, Body, Bundle, Item, Refusal};

use crate::ast::scope::bare::Bare;
use crate::ast::scope::{Fault, Kind, Tree};
use crate::card::Card;
use crate::driver::{DependencyGraph, SourceMap};
use crate::error::{Diagnostic, Error};
use crate::parse;
use crate::resolution::{DependencyMap, DependencyMapBuilder};
use crate::source::{CanonPath, CanonSourceFile};
use crate::unstable::UnstableFeatures;

const LONG_IMAGE: u8 = 15;
const RING: u8 = 26;

/// What becomes of a bundle.
#[derive(Clone, Debug, PartialEq, Eq)]
pub enum Answer {
    /// 1 to 15 and 40 to 51.
    Refused(Refusal),
    /// 20 to 28.
    Report(Vec<Record>),
    Linked(Linked),
    /// The original cannot finish it.
    Large,
}

#[derive(Clone, Debug, PartialEq, Eq)]
pub struct Record {
    pub refusal: Refusal,
    /// Empty but for a ring.
    pub ring: Vec<usize>,
}

#[derive(Clone, Debug, PartialEq, Eq)]
pub struct Linked {
    /// Ids and paths in linked order.
    pub units: Vec<(usize, String)>,
    pub has: Vec<Has>,
    pub image: Vec<u8>,
}

#[derive(Clone, Debug, PartialEq, Eq)]
pub struct Has {
    pub module: String,
    pub kind: Kind,
    pub name: String,
    pub mark: usize,
}

pub struct Judge {
    card: Card,
}

impl Judge {
    pub fn new() -> io::Result<Judge> {
        Ok(Judge { card: Card::new()? })
    }

    /// Forgets the last bundle, of which a panic may have left a part.
    pub fn reset(&mut self) -> io::Result<()> {
        self.card.clear()
    }

    pub fn judge(&mut self, bytes: &[u8]) -> Answer {
        match self.link(bytes) {
            Ok(linked) => Answer::Linked(linked),
            Err(answer) => answer,
        }
    }

    fn link(&mut self, bytes: &[u8]) -> Result<Linked, Answer> {
        let (entry, dependency_map) = self.program(bytes).map_err(Answer::Refused)?;
        let (program, diagnostics) =
            DependencyGraph::build_program(entry, dependency_map, &UnstableFeatures);
        let sources = diagnostics
            .sources
            .expect("the driver hands over its sources");
        let Some(program) = program else {
            let records = diagnostics
                .pushed
                .iter()
                .map(|pushed| record(pushed, &sources));
            return Err(Answer::Report(records.collect()));
        };
        assert!(diagnostics.pushed.is_empty(), "a program without errors");

        let tree = walk(program.items())?;
        let units: Vec<Item> = program.items().iter().map(parse::to_format).collect();
        if units.iter().map(length).sum::<usize>() > limits::LENGTH {
            return Err(Answer::Refused(Refusal {
                number: LONG_IMAGE,
                place: 0,
            }));
        }
        Ok(Linked {
            units: program
                .items()
                .iter()
                .map(|unit| {
                    let id = unit.span().expect("a unit is a module").file_id;
                    let path = sources.path(id).expect("a linked unit is a source");
                    let path = self.card.listed(path.as_path());
                    (id, String::from_utf8_lossy(path).into_owned())
                })
                .collect(),
            has: has(&tree),
            image: bundle_format::image(&units).expect("its length is tested"),
        })
    }

    /// The entry, to be parsed from the bundle, and the original's map; or the first of the
    /// numbers 1 to 13.
    pub(crate) fn program(
        &mut self,
        bytes: &[u8],
    ) -> Result<(CanonSourceFile, Arc<DependencyMap>), Refusal> {
        let (bundle, dependency_map) = self.unpack(bytes)?;
        parse::parse_from(Rc::clone(&bundle));
        Ok((self.entry(&bundle), Arc::new(dependency_map)))
    }

    /// The entry of the bundle that is unpacked.
    fn entry(&self, bundle: &Bundle) -> CanonSourceFile {
        let entry = &bundle.files[0].path;
        let name = CanonPath::canonicalize(&self.card.at(entry)).expect("the entry is unpacked");
        let content = std::str::from_utf8(entry).expect("a path is ASCII");
        CanonSourceFile::new(name, Arc::from(content))
    }

    /// The bundle, unpacked, and the original's map of its remappings and roots; or the first of
    /// the numbers 1 to 13.
    pub(crate) fn unpack(&mut self, bytes: &[u8]) -> Result<(Rc<Bundle>, DependencyMap), Refusal> {
        let bundle = Bundle::decode(bytes)?;
        self.card
            .unpack(&bundle)
            .expect("the private root can be written");
        let built = self.build(&bundle);
        let checked = bundle.check();
        assert_eq!(
            built.as_ref().err(),
            checked.as_ref(),
            "9 to 13 by the original and by tools/format"
        );
        Ok((Rc::new(bundle), built?))
    }

    /// A whole link by the original's code, so many times: for a counter of instructions, which looks
    /// inside `oracle_linked` (from items) or `oracle_linked_bytes`. Says whether it linked each time.
    pub fn measure_link(&mut self, bytes: &[u8], times: usize) -> Result<bool, Refusal> {
        self.unpack(bytes)?;
        Ok((0..times).all(|_| oracle_linked_bytes(self, bytes)))
    }

    /// Numbers 9 to 13 by `DependencyMapBuilder`, in its order: per remapping context, target,
    /// name, 13; then the root.
    fn build(&self, bundle: &Bundle) -> Result<DependencyMap, Refusal> {
        let mut builder = DependencyMapBuilder::new();
        for remapping in &bundle.remappings {
            builder.add_dependency(
                self.card.canon(&remapping.context),
                drp_name(&remapping.name),
                self.card.canon(&remapping.target),
            );
        }
        let root = self.card.canon(&bundle.root);
        match builder.validate_deps() {
            Ok(deps) => deps.with_root(root).map_err(|error| Refusal {
                number: builder_number(&error),
                place: bundle.root_at,
            }),
            Err(_) => Err(self.first_fault(bundle)),
        }
    }

    /// An error does not tell which remapping it is about: it is the last of the shortest list
    /// that is refused.
    fn first_fault(&self, bundle: &Bundle) -> Refusal {
        let mut builder = DependencyMapBuilder::new();
        for remapping in &bundle.remappings {
            let context = self.card.canon(&remapping.context);
            builder.add_dependency(
                context.clone(),
                drp_name(&remapping.name),
                self.card.canon(&remapping.target),
            );
            let Err(error) = builder.clone().validate_deps() else {
                continue;
            };
            let place = match &error {
                // The context comes first: where its path is named, it is the context.
                Error::DependencyPathNotFound { path }
                | Error::DependencyNotADirectory { path } => match path == context.as_path() {
                    true => remapping.context_at,
                    false => remapping.target_at,
                },
                Error::DuplicateDependencyAlias { .. } => remapping.at,
                _ => remapping.name_at,
            };
            return Refusal {
                number: builder_number(&error),
                place,
            };
        }
        unreachable!("the whole list is refused")
    }

    pub(crate) fn card(&self) -> &Card {
        &self.card
    }
}

/// What is counted from bytes: the bundle's reading by tools/format, the original's map, and the link.
/// The bundle's folders and files are there already.
#[no_mangle]
#[inline(never)]
pub fn oracle_linked_bytes(judge: &Judge, bytes: &[u8]) -> bool {
    let Ok(bundle) = Bundle::decode(bytes) else {
        return false;
    };
    let Ok(dependency_map) = judge.build(&bundle) else {
        return false;
    };
    let entry = judge.entry(&bundle);
    parse::parse_from(Rc::new(bundle));
    oracle_linked(entry, Arc::new(dependency_map))
}

/// What is counted from items: discovery, order and assembly by the original's `build_program`, then the
/// calls of step 6 on its `ModuleTree`, without the oracle's log and limits. Program and tree are dropped.
#[no_mangle]
#[inline(never)]
pub fn oracle_linked(entry: CanonSourceFile, dependency_map: Arc<DependencyMap>) -> bool {
    let (program, _) = DependencyGraph::build_program(entry, dependency_map, &UnstableFeatures);
    program.is_some_and(|program| Bare::default().walk(program.items()))
}

/// A remapping's name. One over 32 bytes or not in UTF-8 is outside the domain of comparison and
/// is 12: it becomes the empty name, which the original refuses as such.
fn drp_name(name: &[u8]) -> String {
    let short = Some(name).filter(|name| name.len() <= limits::NAME);
    let text = short.and_then(|name| std::str::from_utf8(name).ok());
    text.unwrap_or_default().to_string()
}

fn builder_number(error: &Error) -> u8 {
    match error {
        Error::DependencyPathNotFound { .. } => 9,
        Error::DependencyNotADirectory { .. } => 10,
        Error::ReservedDependencyKeyword { .. } => 11,
        Error::InvalidDependencyIdentifier { .. } => 12,
        Error::DuplicateDependencyAlias { .. } => 13,
        other => panic!("{other:?} from the builder"),
    }
}

pub(crate) fn record(pushed: &Diagnostic, sources: &SourceMap) -> Record {
    let mut ring = Vec::new();
    let number = match (&*pushed.error, pushed.span) {
        (Error::LinearizationCycleDetected { deps }, None) => {
            ring = deps.iter().map(|name| id_of(name, sources)).collect();
            RING
        }
        (Error::CannotParse { msg }, None) if *msg == Error::MainOutOfEntryFile.to_string() => 27,
        (Error::Grammar { .. }, Some(_)) => 28,
        (error, Some(_)) => resolution_number(error),
        (error, None) => panic!("{error:?} from the driver"),
    };
    Record {
        refusal: Refusal {
            number,
            place: pushed.span.map_or(0, |span| span.start),
        },
        ring,
    }
}

/// The specification's number for an error of lookup or reading.
pub(crate) fn resolution_number(error: &Error) -> u8 {
    match error {
        Error::CannotParse { .. } => 20,
        Error::UnknownLibrary { .. } => 21,
        Error::ExternalFileNotFound { .. } => 22,
        Error::FileNotFound { .. } => 23,
        Error::LocalFileImportedAsExternal { .. } => 24,
        Error::Internal { msg } if msg.starts_with("The 'crate' root path") => 25,
        other => panic!("{other:?} from resolution"),
    }
}

/// The id of a source, told by its name.
fn id_of(name: &str, sources: &SourceMap) -> usize {
    let mut sources = sources.iter();
    let source = sources.find(|(path, _)| path.as_path().to_str() == Some(name));
    *source.expect("a ring is of sources").1
}

/// Step 6: per unit or module enter, items in order, exit.
fn walk(units: &[parse::Item]) -> Result<Tree, Answer> {
    let mut tree = Tree::default();
    for unit in units {
        let parse::Item::Module(unit) = unit else {
            unreachable!("a unit is a module")
        };
        walk_module(&mut tree, unit, 0)?;
    }
    Ok(tree)
}

fn walk_module(tree: &mut Tree, module: &parse::Module, mark: usize) -> Result<(), Answer> {
    let refuse = |mark| {
        move |fault| match fault {
            Fault::Number(number) => Answer::Refused(Refusal {
                number,
                place: mark,
            }),
            Fault::Large => Answer::Large,
        }
    };
    tree.enter(module.name().clone(), module.visibility().clone(), mark)
        .map_err(refuse(mark))?;
    for item in module.items() {
        let mark = parse::mark(item).expect("ignored items are gone");
        match item {
            parse::Item::TypeAlias(alias) => tree
                .type_alias(alias.name(), alias.visibility().clone(), alias.ty())
                .map_err(refuse(mark))?,
            parse::Item::Function(function) => tree
                .function(function.name(), function.visibility().clone(), mark)
                .map_err(refuse(mark))?,
            parse::Item::Use(use_decl) => tree.resolve_use(use_decl).map_err(refuse(mark))?,
            parse::Item::EnumDeclaration(decl) => tree
                .enumeration(decl.name(), decl.visibility().clone(), mark)
                .map_err(refuse(mark))?,
            parse::Item::Module(module) => walk_module(tree, module, mark)?,
            parse::Item::Ignored => unreachable!("ignored items are gone"),
        }
    }
    tree.exit().map_err(refuse(mark))
}

/// The tree's entries; those of the root are the units.
fn has(tree: &Tree) -> Vec<Has> {
    tree.entries()
        .filter(|(entry, _)| !entry.module.is_empty())
        .map(|(entry, mark)| {
            let mut module = "crate".to_string();
            for name in &*entry.module {
                module += "::";
                module += name.as_str();
            }
            Has {
                module,
                kind: entry.kind,
                name: entry.name.to_string(),
                mark,
            }
        })
        .collect()
}

/// The bytes of an item in the bundle's form.
fn length(item: &Item) -> usize {
    let string = |bytes: &Vec<u8>| 1 + bytes.len();
    let body = match &item.body {
        Body::TypeAlias(name) | Body::Function(name) | Body::Enum(name) => string(name),
        Body::Use { segments, elements } => {
            let segments: usize = segments.iter().map(string).sum();
            let elements = elements
                .iter()
                .map(|element| string(&element.name) + element.alias.as_ref().map_or(1, string));
            1 + segments + 1 + elements.sum::<usize>()
        }
        Body::Module { name, items } => string(name) + items.iter().map(length).sum::<usize>(),
        Body::Ignored => 0,
    };
    2 + 2 + body
}

impl Answer {
    /// What the printing program prints, and the image if asked for.
    pub fn print(&self, image: bool) -> String {
        let mut out = String::new();
        match self {
            Answer::Refused(refusal) => out += &format!("{refusal}\n"),
            Answer::Report(records) => {
                for record in records {
                    out += &format!("{}\n", record.refusal);
                    if record.refusal.number == RING {
                        out += "ring";
                        for id in &record.ring {
                            out += &format!(" {id}");
                        }
                        out += "\n";
                    }
                }
            }
            Answer::Linked(linked) => {
                out += &format!("ok {}\n", linked.units.len());
                for (id, path) in &linked.units {
                    out += &format!("unit {id} {path}\n");
                }
                for has in &linked.has {
                    let kind = has.kind as u8;
                    out += &format!("has {} {kind} {} {}\n", has.module, has.name, has.mark);
                }
                if image {
                    out += &format!("image {}\n", crate::to_hex(&linked.image));
                }
            }
            Answer::Large => out += "large\n",
        }
        out
    }
}
