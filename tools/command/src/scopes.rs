//! The scope walk again, for the cause of a refusal from 41 to 51.

use bundle_format::{limits, Body, Bundle, Element, Item};
use bundle_generate::link::{discover, Discovered};
use bundle_generate::lookup::Lookup;

use crate::card::Card;
use crate::fields::quoted;

/// Why a call is refused.
pub enum Cause {
    /// A segment of the use, where it is written there, leads nowhere or is private.
    Segment {
        index: Option<usize>,
        message: String,
    },
    /// An element of the use fails; where a name is held, the mark of the item that brought it.
    Element {
        index: usize,
        message: String,
        held: Option<usize>,
    },
    /// A declaration's name is held, by the item of this mark.
    Held { message: String, held: usize },
    /// A limit of the tree.
    Full { message: String },
}

const KINDS: [&str; 4] = ["", "type", "function", "module"];

/// Entries that a tree may have here, written out; a larger one is not explained.
const LARGEST: usize = 100_000;

#[derive(Clone)]
struct Entry {
    kind: usize,
    name: Vec<u8>,
    public: bool,
    /// The mark of the item that brought it into its module.
    by: usize,
    /// What a module holds.
    scope: usize,
}

struct Walk<'a> {
    bundle: &'a Bundle,
    lookup: Lookup<'a>,
    /// The files of the units, by id.
    files: Vec<usize>,
    scopes: Vec<Vec<Entry>>,
    open: Vec<usize>,
    names: Vec<Vec<u8>>,
    entries: usize,
    written: usize,
}

type Refused = ((u8, usize), Cause);

/// The call that is refused, by number and place, and why; none where every call is accepted or the tree is too large.
pub fn walk(card: &Card, bundle: &Bundle) -> Option<Refused> {
    let Discovered::Graph {
        files,
        order: Ok(order),
        ..
    } = discover(&card.bytes)
    else {
        return None;
    };
    let mut walk = Walk {
        bundle,
        lookup: Lookup::new(bundle),
        files,
        scopes: vec![Vec::new()],
        open: vec![0],
        names: Vec::new(),
        entries: 0,
        written: 0,
    };
    for unit in order {
        let file = walk.files[unit];
        let name = format!("unit_{unit}").into_bytes();
        if let Err(stop) = walk.enter(&name, false, 0) {
            return stop;
        }
        if let Err(stop) = walk.items(file, &bundle.files[file].items) {
            return stop;
        }
        walk.exit();
    }
    None
}

/// A refusal, or none where the walk is given up.
type Stop = Option<Refused>;

impl Walk<'_> {
    fn here(&self) -> usize {
        *self.open.last().expect("the root is open")
    }

    fn get(&self, scope: usize, kind: usize, name: &[u8]) -> Option<&Entry> {
        self.scopes[scope]
            .iter()
            .find(|entry| entry.kind == kind && entry.name == name)
    }

    fn full(&self, more: usize, place: usize) -> Result<(), Stop> {
        if self.entries + more <= limits::ENTRIES && self.open.len() <= limits::OPEN + 1 {
            return Ok(());
        }
        let message = format!(
            "over {} entries or {} open modules",
            limits::ENTRIES,
            limits::OPEN
        );
        Err(Some(((51, place), Cause::Full { message })))
    }

    fn add(&mut self, entry: Entry, place: usize) -> Result<(), Stop> {
        let here = self.here();
        if let Some(held) = self.get(here, entry.kind, &entry.name) {
            let number = [0, 48, 49, 47][entry.kind];
            let message = format!(
                "there is a {} {} already",
                KINDS[entry.kind],
                quoted(&entry.name)
            );
            let held = held.by;
            return Err(Some(((number, place), Cause::Held { message, held })));
        }
        self.full(1, place)?;
        self.push(entry);
        Ok(())
    }

    fn push(&mut self, entry: Entry) {
        self.entries += 1;
        self.written += 1;
        let here = self.here();
        self.scopes[here].push(entry);
    }

    fn enter(&mut self, name: &[u8], public: bool, place: usize) -> Result<(), Stop> {
        let scope = self.scopes.len();
        let entry = Entry {
            kind: 3,
            name: name.to_vec(),
            public,
            by: place,
            scope,
        };
        self.add(entry, place)?;
        self.scopes.push(Vec::new());
        self.open.push(scope);
        self.names.push(name.to_vec());
        self.full(0, place)
    }

    fn exit(&mut self) {
        self.open.pop();
        self.names.pop();
    }

    fn items(&mut self, file: usize, items: &[Item]) -> Result<(), Stop> {
        for item in items {
            let Item { mark, public, body } = item;
            let declared = |kind: usize, name: &[u8]| Entry {
                kind,
                name: name.to_vec(),
                public: *public,
                by: *mark,
                scope: 0,
            };
            match body {
                Body::TypeAlias(name) | Body::Enum(name) => self.add(declared(1, name), *mark)?,
                Body::Function(name) => self.add(declared(2, name), *mark)?,
                Body::Use { segments, elements } => {
                    self.import(file, item, segments, elements)?;
                }
                Body::Module { name, items } => {
                    self.enter(name, *public, *mark)?;
                    self.items(file, items)?;
                    self.exit();
                }
                Body::Ignored => {}
            }
        }
        Ok(())
    }

    /// The module that a use's path leads to.
    fn navigate(&self, file: usize, mark: usize, segments: &[Vec<u8>]) -> Result<usize, Stop> {
        let importer = &self.bundle.files[file].path;
        let found = self.lookup.resolve(importer, segments).map_err(|_| None)?;
        let target = self.lookup.file(&found.path).ok_or(None)?;
        let unit = self.files.iter().position(|&known| known == target);
        let mut path = vec![format!("unit_{}", unit.ok_or(None)?).into_bytes()];
        path.extend_from_slice(&segments[found.rest..]);
        let shared = path
            .iter()
            .zip(&self.names)
            .take_while(|(segment, name)| segment == name)
            .count();
        let mut scope = 0;
        for (at, segment) in path.iter().enumerate() {
            let index = (at > 0).then(|| found.rest + at - 1);
            let refuse = |number: u8, message: String| {
                Err(Some(((number, mark), Cause::Segment { index, message })))
            };
            let module = match at {
                0 => quoted(&found.path),
                1 => format!("the file {}", quoted(&found.path)),
                _ => format!("the module {}", quoted(&path[at - 1])),
            };
            match self.get(scope, 3, segment) {
                None if at == 0 => {
                    return refuse(41, format!("{module} is linked later than this file"))
                }
                None => {
                    return refuse(
                        41,
                        format!("{module} has no module {} here", quoted(segment)),
                    )
                }
                Some(entry) if !entry.public && shared < at => {
                    return refuse(
                        42,
                        format!("{} is a private module of {module}", quoted(segment)),
                    )
                }
                Some(entry) => scope = entry.scope,
            }
        }
        Ok(scope)
    }

    fn import(
        &mut self,
        file: usize,
        item: &Item,
        segments: &[Vec<u8>],
        elements: &[Element],
    ) -> Result<(), Stop> {
        let mark = item.mark;
        let scope = self.navigate(file, mark, segments)?;
        let refuse = |number: u8, index: usize, message: String, held: Option<usize>| {
            let cause = Cause::Element {
                index,
                message,
                held,
            };
            Err(Some(((number, mark), cause)))
        };
        if let Some(index) = elements
            .iter()
            .position(|element| element.alias.as_deref() == Some(b"main"))
        {
            return refuse(46, index, "renamed `main`".to_string(), None);
        }
        let before = self.scopes[scope].clone();
        for (index, element) in elements.iter().enumerate() {
            let local = element.alias.as_ref().unwrap_or(&element.name);
            let name = quoted(&element.name);
            let mut told = None;
            let mut taken = false;
            for (kind, word) in KINDS.iter().enumerate().skip(1) {
                let entry = before
                    .iter()
                    .find(|entry| entry.kind == kind && entry.name == element.name);
                let Some(entry) = entry else { continue };
                if !entry.public {
                    let message = format!("the {word} {name} is private");
                    told = told.or(Some((44, message, Some(entry.by))));
                    continue;
                }
                let held = self.get(self.here(), kind, local).map(|entry| entry.by);
                if let Some(by) = held {
                    let message = format!("there is a {word} {} already", quoted(local));
                    told = told.or(Some((45, message, Some(by))));
                    continue;
                }
                taken = true;
                let copy = self.copy(entry, local, item)?;
                self.push(copy);
            }
            if !taken {
                let (number, message, held) =
                    told.unwrap_or_else(|| (43, format!("nothing is named {name} there"), None));
                return refuse(number, index, message, held);
            }
        }
        self.full(0, mark)
    }

    fn copy(&mut self, entry: &Entry, local: &[u8], item: &Item) -> Result<Entry, Stop> {
        Ok(Entry {
            kind: entry.kind,
            name: local.to_vec(),
            public: item.public,
            by: item.mark,
            scope: match entry.kind {
                3 => self.deep_copy(entry.scope)?,
                _ => 0,
            },
        })
    }

    fn deep_copy(&mut self, scope: usize) -> Result<usize, Stop> {
        let entries = self.scopes[scope].clone();
        self.written += entries.len();
        if self.written > LARGEST {
            return Err(None);
        }
        let mut copies = Vec::new();
        for mut entry in entries {
            if entry.kind == 3 {
                entry.scope = self.deep_copy(entry.scope)?;
            }
            copies.push(entry);
        }
        self.scopes.push(copies);
        Ok(self.scopes.len() - 1)
    }
}
