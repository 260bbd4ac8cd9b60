//! What the accepted calls of a list have made, as the specification tells it: it shows the generator
//! where to aim, and what a list covers. Whether a call is accepted is the original's answer.

use crate::calls::{read_form, Call};

pub const TYPE: u8 = 1;
pub const FUNCTION: u8 = 2;
pub const MODULE: u8 = 3;

#[derive(Clone)]
pub struct Entry {
    pub kind: u8,
    pub name: String,
    pub public: bool,
    /// The module it is in: 0 is the root, i + 1 the one that entry i opened.
    pub scope: usize,
    /// Of an imported module: what it shows, the scope as it was after so many entries.
    pub shows: Option<View>,
    /// How many imports it is away from its declaration.
    pub generation: usize,
    /// Of an imported module: its entries, all copies written out.
    pub size: usize,
}

/// A scope among the first `time` entries.
#[derive(Clone, Copy, Debug, PartialEq, Eq)]
pub struct View {
    pub scope: usize,
    pub time: usize,
}

/// What an accepted use did.
#[derive(Clone, Copy, Default)]
pub struct Imported {
    pub entries: usize,
    /// Imports of what was itself imported.
    pub re_exports: usize,
    /// Modules that are copies already, or lie in one.
    pub copies_of_copies: usize,
    /// Modules that are open.
    pub open_ancestors: usize,
    pub generation: usize,
    /// Modules that the path leads through a copy to.
    pub through_copies: usize,
}

#[derive(Default)]
pub struct Register {
    pub entries: Vec<Entry>,
    /// The entries that are open modules, outermost first.
    pub open: Vec<usize>,
}

impl Register {
    pub fn here(&self) -> usize {
        self.open.last().map_or(0, |module| module + 1)
    }

    pub fn whole(&self) -> View {
        View {
            scope: 0,
            time: self.entries.len(),
        }
    }

    /// The entries of a view, by index.
    pub fn held(&self, view: View) -> impl Iterator<Item = usize> + '_ {
        (view.scope..view.time).filter(move |&at| self.entries[at].scope == view.scope)
    }

    pub fn find(&self, view: View, kind: u8, name: &str) -> Option<usize> {
        self.held(view).find(|&at| {
            let entry = &self.entries[at];
            entry.kind == kind && entry.name == name
        })
    }

    /// What is inside the module at an entry.
    pub fn inside(&self, at: usize, time: usize) -> View {
        self.entries[at].shows.unwrap_or(View {
            scope: at + 1,
            time,
        })
    }

    /// How many entries are in the module at an entry, written out.
    pub fn size(&self, at: usize, time: usize) -> usize {
        if self.entries[at].shows.is_some() {
            return self.entries[at].size;
        }
        // The entries of a module come after it.
        let mut sizes = vec![0usize; time + 1];
        for inner in (at + 1..time).rev() {
            let entry = &self.entries[inner];
            let inside = match (entry.kind, entry.shows) {
                (MODULE, None) => sizes[inner + 1],
                _ => entry.size,
            };
            sizes[entry.scope] = sizes[entry.scope].saturating_add(inside).saturating_add(1);
        }
        sizes[at + 1]
    }

    /// The module of a path, and whether it leads through a copy.
    pub fn module(&self, path: &[String]) -> Option<(View, bool)> {
        let (mut view, mut copied) = (self.whole(), false);
        for segment in path {
            let at = self.find(view, MODULE, segment)?;
            copied |= self.entries[at].shows.is_some();
            view = self.inside(at, view.time);
        }
        Some((view, copied))
    }

    /// How many entries the original would copy for a use, and the use's own entries.
    pub fn cost(&self, path: &[String], elements: &[(String, String)]) -> usize {
        let Some((view, _)) = self.module(path.get(1..).unwrap_or_default()) else {
            return 0;
        };
        let modules = elements
            .iter()
            .filter_map(|(name, _)| self.find(view, MODULE, name));
        modules
            .filter(|&at| self.entries[at].public)
            .fold(elements.len(), |sum, at| {
                sum.saturating_add(self.size(at, view.time))
            })
    }

    fn declare(&mut self, kind: u8, name: &str, public: bool) {
        let scope = self.here();
        self.entries.push(Entry {
            kind,
            name: name.to_string(),
            public,
            scope,
            shows: None,
            generation: 0,
            size: 0,
        });
    }

    /// An accepted call.
    pub fn accept(&mut self, call: &Call) -> Imported {
        match call {
            Call::Enter(name, visible, _) => {
                self.declare(MODULE, name, *visible);
                self.open.push(self.entries.len() - 1);
            }
            Call::Exit => {
                self.open.pop();
            }
            Call::Alias(name, visible, _) | Call::Enum(name, visible, _) => {
                self.declare(TYPE, name, *visible)
            }
            Call::Function(name, visible, _) => self.declare(FUNCTION, name, *visible),
            Call::Use(visible, path, elements) => return self.import(*visible, path, elements),
            Call::Form(visible, bytes) => {
                let (path, elements) = read_form(bytes).expect("an accepted use");
                return self.import(*visible, &path, &elements);
            }
            Call::GetAlias(_) | Call::GetFunction(_) => {}
        }
        Imported::default()
    }

    fn import(&mut self, public: bool, path: &[String], elements: &[(String, String)]) -> Imported {
        let (view, copied) = self.module(&path[1..]).expect("an accepted use");
        let (scope, first) = (self.here(), self.entries.len());
        let mut done = Imported {
            through_copies: usize::from(copied),
            ..Imported::default()
        };
        for (name, alias) in elements {
            let local = if alias.is_empty() { name } else { alias };
            for kind in [TYPE, FUNCTION, MODULE] {
                let here = View {
                    scope,
                    time: self.entries.len(),
                };
                let Some(from) = self.find(view, kind, name) else {
                    continue;
                };
                if !self.entries[from].public || self.find(here, kind, local).is_some() {
                    continue;
                }
                let source = &self.entries[from];
                let is_copy = source.generation > 0;
                done.re_exports += usize::from(is_copy);
                if kind == MODULE {
                    done.copies_of_copies += usize::from(is_copy || copied);
                    let is_open = !is_copy && self.open.contains(&from);
                    done.open_ancestors += usize::from(is_open);
                }
                let entry = Entry {
                    kind,
                    name: local.clone(),
                    public,
                    scope,
                    shows: (kind == MODULE).then(|| self.inside(from, view.time)),
                    generation: source.generation + 1,
                    size: if kind == MODULE {
                        self.size(from, view.time)
                    } else {
                        0
                    },
                };
                done.generation = done.generation.max(entry.generation);
                self.entries.push(entry);
            }
        }
        done.entries = self.entries.len() - first;
        done
    }
}
