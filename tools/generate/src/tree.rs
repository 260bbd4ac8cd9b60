//! The module tree of step 6, with closed modules shared between copies.

use std::rc::Rc;

use bundle_format::{limits, Element};

#[derive(Clone, Copy, Debug, PartialEq, Eq)]
pub enum Kind {
    Type = 1,
    Function = 2,
    Module = 3,
}

#[derive(Clone, Debug)]
pub struct Entry {
    pub kind: Kind,
    pub name: Vec<u8>,
    pub public: bool,
    /// The mark of the original.
    pub mark: usize,
    /// Counts the entries in the order they were made.
    serial: usize,
    imported: bool,
    /// What a module holds; none while it is open.
    contents: Option<Rc<Scope>>,
}

#[derive(Clone, Debug, Default)]
pub struct Scope {
    entries: Vec<Entry>,
    /// The entries written out, those of closed modules included.
    written: usize,
}

impl Scope {
    fn get(&self, kind: Kind, name: &[u8]) -> Option<&Entry> {
        self.entries
            .iter()
            .find(|entry| entry.kind == kind && entry.name == name)
    }
}

/// A module on the way of a path.
#[derive(Clone, Copy)]
enum At<'a> {
    /// The open module of this index.
    Open(usize),
    Closed(&'a Scope),
}

/// The answer where a tree written out would be larger than the caller allows.
pub const TOO_LARGE: u8 = 0;

pub fn unit_name(id: usize) -> Vec<u8> {
    format!("unit_{id}").into_bytes()
}

pub struct Tree {
    /// The root, then the open modules with their names.
    open: Vec<(Vec<u8>, Scope)>,
    entries: usize,
    /// The most entries of the tree written out.
    largest: usize,
}

impl Tree {
    pub fn new(largest: usize) -> Self {
        Tree {
            open: vec![(Vec::new(), Scope::default())],
            entries: 0,
            largest,
        }
    }

    pub fn written(&self) -> usize {
        self.open.iter().map(|(_, scope)| scope.written).sum()
    }

    fn current(&self) -> &Scope {
        &self.open[self.open.len() - 1].1
    }

    /// The entries of the innermost open module.
    pub fn current_entries(&self) -> &[Entry] {
        &self.current().entries
    }

    fn room(&self, more: usize) -> Result<(), u8> {
        if self.entries + more > limits::ENTRIES {
            return Err(51);
        }
        Ok(())
    }

    fn add(&mut self, entry: Entry) {
        let (_, scope) = self.open.last_mut().expect("the root stays open");
        scope.written += 1 + entry.contents.as_ref().map_or(0, |inner| inner.written);
        scope.entries.push(Entry {
            serial: self.entries,
            ..entry
        });
        self.entries += 1;
    }

    fn declare(
        &mut self,
        kind: Kind,
        name: &[u8],
        public: bool,
        mark: usize,
        held: u8,
    ) -> Result<(), u8> {
        if self.current().get(kind, name).is_some() {
            return Err(held);
        }
        self.room(1)?;
        self.add(Entry {
            kind,
            name: name.to_vec(),
            public,
            mark,
            serial: 0,
            imported: false,
            contents: None,
        });
        Ok(())
    }

    pub fn insert_type(&mut self, name: &[u8], public: bool, mark: usize) -> Result<(), u8> {
        self.declare(Kind::Type, name, public, mark, 48)
    }

    pub fn insert_function(&mut self, name: &[u8], public: bool, mark: usize) -> Result<(), u8> {
        self.declare(Kind::Function, name, public, mark, 49)
    }

    pub fn enter(&mut self, name: &[u8], public: bool, mark: usize) -> Result<(), u8> {
        self.declare(Kind::Module, name, public, mark, 47)?;
        self.open.push((name.to_vec(), Scope::default()));
        Ok(())
    }

    pub fn exit(&mut self) {
        let (name, scope) = self.open.pop().expect("inside a module");
        let (_, outer) = self.open.last_mut().expect("the root stays open");
        outer.written += scope.written;
        outer
            .entries
            .iter_mut()
            .find(|entry| entry.kind == Kind::Module && entry.name == name)
            .expect("an open module is an entry of the one around it")
            .contents = Some(Rc::new(scope));
    }

    fn scope<'a>(&'a self, at: At<'a>) -> &'a Scope {
        match at {
            At::Open(index) => &self.open[index].1,
            At::Closed(scope) => scope,
        }
    }

    /// The module `entry` of the module `at`.
    fn inner<'a>(&'a self, at: At<'a>, entry: &'a Entry) -> At<'a> {
        match (&entry.contents, at) {
            (Some(contents), _) => At::Closed(contents),
            (None, At::Open(index)) => At::Open(index + 1),
            (None, At::Closed(_)) => unreachable!("a module in a closed one is closed"),
        }
    }

    /// An open module as it is now.
    fn snapshot(&self, index: usize) -> Rc<Scope> {
        let mut scope = self.open[index].1.clone();
        if let Some((name, _)) = self.open.get(index + 1) {
            let inner = self.snapshot(index + 1);
            scope.written += inner.written;
            for entry in &mut scope.entries {
                if entry.kind == Kind::Module && entry.name == *name {
                    entry.contents = Some(Rc::clone(&inner));
                }
            }
        }
        Rc::new(scope)
    }

    fn walk(&self, path: &[Vec<u8>], private: impl Fn(usize) -> bool) -> Result<At<'_>, u8> {
        let mut at = At::Open(0);
        for (index, name) in path.iter().enumerate() {
            let entry = self.scope(at).get(Kind::Module, name).ok_or(41)?;
            if !entry.public && !private(index) {
                return Err(42);
            }
            at = self.inner(at, entry);
        }
        Ok(at)
    }

    /// What the module of `path` holds, privacy aside.
    pub fn entries_of(&self, path: &[Vec<u8>]) -> Option<&[Entry]> {
        let at = self.walk(path, |_| true).ok()?;
        Some(&self.scope(at).entries)
    }

    /// A use whose path is `crate` and then `path`.
    pub fn import(
        &mut self,
        path: &[Vec<u8>],
        elements: &[Element],
        public: bool,
    ) -> Result<(), u8> {
        let shared = self.open[1..]
            .iter()
            .zip(path)
            .take_while(|((open, _), name)| open == *name)
            .count();
        let at = self.walk(path, |index| index <= shared)?;
        if elements
            .iter()
            .any(|element| element.alias.as_deref() == Some(b"main"))
        {
            return Err(46);
        }

        let mut pending: Vec<Entry> = Vec::new();
        for element in elements {
            let local = element.alias.as_ref().unwrap_or(&element.name);
            let mut answer = Err(43);
            for kind in [Kind::Type, Kind::Function, Kind::Module] {
                let result = match self.scope(at).get(kind, &element.name) {
                    None => Err(43),
                    Some(entry) if !entry.public => Err(44),
                    Some(_)
                        if self.current().get(kind, local).is_some()
                            || pending
                                .iter()
                                .any(|entry| entry.kind == kind && entry.name == *local) =>
                    {
                        Err(45)
                    }
                    Some(entry) => {
                        let contents =
                            (kind == Kind::Module).then(|| match self.inner(at, entry) {
                                At::Open(index) => self.snapshot(index),
                                At::Closed(_) => entry.contents.clone().expect("a closed module"),
                            });
                        pending.push(Entry {
                            name: local.clone(),
                            public,
                            imported: true,
                            contents,
                            ..entry.clone()
                        });
                        Ok(())
                    }
                };
                answer = match (answer, result) {
                    (Ok(()), _) | (_, Ok(())) => Ok(()),
                    (Err(43), later) => later,
                    (earlier, _) => earlier,
                };
            }
            answer?;
        }

        self.room(pending.len())?;
        let more: usize = pending
            .iter()
            .map(|entry| 1 + entry.contents.as_ref().map_or(0, |inner| inner.written))
            .sum();
        if self.written() + more > self.largest {
            return Err(TOO_LARGE);
        }
        pending.into_iter().for_each(|entry| self.add(entry));
        Ok(())
    }

    /// The `has` lines of a tree whose modules are closed.
    pub fn print(&self, out: &mut String) {
        fn collect(scope: &Scope, path: &str, lines: &mut Vec<(usize, String)>) {
            for entry in &scope.entries {
                let name = String::from_utf8_lossy(&entry.name);
                let line = format!("has {path} {} {name} {}\n", entry.kind as u8, entry.mark);
                lines.push((entry.serial, line));
                if let (Some(contents), false) = (&entry.contents, entry.imported) {
                    collect(contents, &format!("{path}::{name}"), lines);
                }
            }
        }
        let mut lines = Vec::new();
        for unit in &self.open[0].1.entries {
            let name = String::from_utf8_lossy(&unit.name);
            let contents = unit.contents.as_ref().expect("a closed unit");
            collect(contents, &format!("crate::{name}"), &mut lines);
        }
        lines.sort_unstable();
        lines.into_iter().for_each(|(_, line)| *out += &line);
    }
}
