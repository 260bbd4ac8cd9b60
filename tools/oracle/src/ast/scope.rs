//! The original's module tree behind calls that give the specification's numbers, keep its limits and
//! log the entries in the order made.

pub mod bare;

use std::rc::Rc;
use std::sync::Arc;

use bundle_format::limits;

use crate::ast::CustomFunction;
use crate::error::Error;
use crate::parse::{UseDecl, Visibility};
use crate::str::{AliasName, FunctionName, ModuleName};
use crate::types::{AliasedType, EnumVariantInfo, ResolvedType};

include!(concat!(env!("OUT_DIR"), "/modules.rs"));

use modules::ModuleTree;

/// How many entries the original may clone in a run. Copies of copies double, so that it cannot
/// finish some bundles.
pub const CLONED: usize = 1_000_000;

/// The name, which is no identifier, of the private alias that holds a module's mark. It is
/// copied with the module.
pub(crate) const MODULE_MARK: &str = "#";

const TREE_FULL: u8 = 51;
const NOT_INSIDE: u8 = 50;

#[derive(Clone, Copy, Debug, PartialEq, Eq)]
pub enum Kind {
    Type = 1,
    Function = 2,
    Module = 3,
}

impl Kind {
    pub(crate) const ALL: [Kind; 3] = [Kind::Type, Kind::Function, Kind::Module];
}

/// Why a call changed nothing.
#[derive(Clone, Copy, Debug, PartialEq, Eq)]
pub enum Fault {
    Number(u8),
    /// The original would have to clone too many entries.
    Large,
}

/// An entry of the tree: the module it was made in, its kind and name.
pub struct Entry {
    pub module: Rc<[ModuleName]>,
    pub kind: Kind,
    pub name: Arc<str>,
}

#[derive(Default)]
pub struct Tree {
    tree: ModuleTree,
    /// In the order made; modules are one entry each, whether entered or imported.
    entries: Vec<Entry>,
    /// The paths of the modules entered, the root's not among them.
    entered: Vec<Rc<[ModuleName]>>,
    cloned: usize,
}

impl Tree {
    pub fn enter(
        &mut self,
        name: ModuleName,
        visibility: Visibility,
        mark: usize,
    ) -> Result<(), Fault> {
        let module = self.path();
        self.tree.enter(name.clone(), visibility).map_err(number)?;
        if self.entries.len() == limits::ENTRIES || module.len() == limits::OPEN {
            self.tree.exit();
            self.tree.remove(Kind::Module, name.as_str());
            return Err(Fault::Number(TREE_FULL));
        }
        self.tree.insert_alias(
            AliasName::from_str_unchecked(MODULE_MARK),
            ResolvedType { mark },
            Visibility::Private,
        );
        self.entries.push(Entry {
            module,
            kind: Kind::Module,
            name: Arc::clone(name.as_inner()),
        });
        self.entered.push(self.path());
        Ok(())
    }

    /// At the root, where the original panics, the number stands instead.
    pub fn exit(&mut self) -> Result<(), Fault> {
        if self.tree.path().is_empty() {
            return Err(Fault::Number(NOT_INSIDE));
        }
        self.tree.exit();
        Ok(())
    }

    /// Checked free, then inserted, as one call.
    pub fn type_alias(
        &mut self,
        name: &AliasName,
        visibility: Visibility,
        ty: &AliasedType,
    ) -> Result<(), Fault> {
        self.tree.check_alias_free(name).map_err(number)?;
        let ty = self.tree.resolve(ty).map_err(number)?;
        self.tree.insert_alias(name.clone(), ty, visibility);
        self.made(vec![(Kind::Type, Arc::clone(name.as_inner()))])
    }

    pub fn enumeration(
        &mut self,
        name: &AliasName,
        visibility: Visibility,
        mark: usize,
    ) -> Result<(), Fault> {
        let variants = Arc::new([EnumVariantInfo { mark }]);
        self.tree
            .insert_enum(name.clone(), visibility, variants)
            .map_err(number)?;
        self.made(vec![(Kind::Type, Arc::clone(name.as_inner()))])
    }

    pub fn function(
        &mut self,
        name: &FunctionName,
        visibility: Visibility,
        mark: usize,
    ) -> Result<(), Fault> {
        self.tree
            .insert_function(name.clone(), visibility, CustomFunction { mark })
            .map_err(number)?;
        self.made(vec![(Kind::Function, Arc::clone(name.as_inner()))])
    }

    /// Which entries the use made is read from the tree: those that the current module holds now
    /// and did not before. Each goes to the first element that found it.
    pub fn resolve_use(&mut self, use_decl: &UseDecl) -> Result<(), Fault> {
        let limit = CLONED - self.cloned;
        let (elements, cloned) = self.tree.elements(use_decl, limit).unwrap_or_default();
        if cloned > limit {
            return Err(Fault::Large);
        }
        let before = self.tree.entries_of(self.tree.path());

        self.tree.resolve_use(use_decl).map_err(number)?;

        self.cloned += cloned;
        let mut made: Vec<(Kind, Arc<str>)> = Vec::new();
        for element in &elements {
            for (at, kind) in Kind::ALL.into_iter().enumerate() {
                let entry = (kind, Arc::clone(element.local_name.as_inner()));
                if element.offered[at]
                    && !element.held[at]
                    && self.tree.current_holds(kind, element.local_name.as_str())
                    && !made.contains(&entry)
                {
                    made.push(entry);
                }
            }
        }
        let after = self.tree.entries_of(self.tree.path());
        assert_eq!(before + made.len(), after, "a use's entries are attributed");
        self.made(made)
    }

    /// The mark of a type in the current module.
    pub fn get_alias(&self, name: &AliasName) -> Result<usize, Fault> {
        let ty = self.tree.get_alias(name).map_err(number)?;
        Ok(ty.mark)
    }

    /// The mark of a function in the current module.
    pub fn get_function(&self, name: &FunctionName) -> Result<usize, Fault> {
        let function = self.tree.get_function(name).map_err(number)?;
        Ok(function.mark)
    }

    /// Logs entries of the current module, or takes them out again where they are too many.
    fn made(&mut self, made: Vec<(Kind, Arc<str>)>) -> Result<(), Fault> {
        if self.entries.len() + made.len() > limits::ENTRIES {
            for (kind, name) in made {
                self.tree.remove(kind, &name);
            }
            return Err(Fault::Number(TREE_FULL));
        }
        let module = self.path();
        self.entries
            .extend(made.into_iter().map(|(kind, name)| Entry {
                module: Rc::clone(&module),
                kind,
                name,
            }));
        Ok(())
    }

    fn path(&self) -> Rc<[ModuleName]> {
        self.tree.path().into()
    }

    /// The entries in the order made, each with the mark that the tree now holds.
    pub fn entries(&self) -> impl Iterator<Item = (&Entry, usize)> {
        let held = self.entered.iter().map(|path| self.tree.entries_of(path));
        let held = self.tree.entries_of(&[]) + held.sum::<usize>();
        assert_eq!(held, self.entries.len(), "the tree holds what was logged");
        self.entries.iter().map(|entry| {
            let mark = self.tree.mark(&entry.module, entry.kind, &entry.name);
            (entry, mark.expect("the tree holds what was logged"))
        })
    }

    /// The tree, all copies written out.
    pub fn write(&self) -> String {
        self.tree.write()
    }
}

/// The specification's number for an error of the module tree.
fn number(error: Error) -> Fault {
    Fault::Number(match error {
        Error::MissingCrateKeyword => 40,
        Error::ModuleNotFound { .. } => 41,
        Error::ModuleIsPrivate { .. } => 42,
        Error::UnresolvedItem { .. }
        | Error::UndefinedAlias { .. }
        | Error::FunctionUndefined { .. } => 43,
        Error::PrivateItem { .. } => 44,
        Error::RedefinedItem { .. } => 45,
        Error::MainCannotBeAlias => 46,
        Error::ModuleRedefined { .. } => 47,
        Error::RedefinedAlias { .. } => 48,
        Error::FunctionRedefined { .. } => 49,
        other => panic!("{other:?} from the module tree"),
    })
}
