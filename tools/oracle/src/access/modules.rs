//! A child module of the original's ast/scope/modules.rs: what its private fields hold.

use super::{ModuleScope, ModuleTree};
use crate::ast::scope::{Kind, MODULE_MARK};
use crate::parse::{UseDecl, UseItems, Visibility};
use crate::str::{AliasName, FunctionName, ModuleName, SymbolName};

/// What an element of a use meets: by kind, whether the module of the use's path has a public
/// entry of its name, and whether the current module holds its local name.
pub(crate) struct Element {
    pub(crate) local_name: SymbolName,
    pub(crate) offered: [bool; 3],
    pub(crate) held: [bool; 3],
}

impl ModuleScope {
    /// The visibility of an entry and the mark of its original.
    fn entry(&self, kind: Kind, name: &str) -> Option<(&Visibility, usize)> {
        match kind {
            Kind::Type => {
                let (ty, visibility) = self.aliases.get(&AliasName::from_str_unchecked(name))?;
                Some((visibility, ty.mark))
            }
            Kind::Function => {
                let name = FunctionName::from_str_unchecked(name);
                let (function, visibility) = self.functions.get(&name)?;
                Some((visibility, function.mark))
            }
            Kind::Module => {
                let (scope, visibility) = self.submodule(name)?;
                Some((visibility, scope.mark()))
            }
        }
    }

    fn submodule(&self, name: &str) -> Option<&(ModuleScope, Visibility)> {
        self.submodules.get(&ModuleName::from_str_unchecked(name))
    }

    /// The mark of a module, which `Tree::enter` puts into it.
    fn mark(&self) -> usize {
        let name = AliasName::from_str_unchecked(MODULE_MARK);
        self.aliases[&name].0.mark
    }

    /// Its entries, those of its modules not counted.
    fn len(&self) -> usize {
        let name = AliasName::from_str_unchecked(MODULE_MARK);
        let marks = usize::from(self.aliases.contains_key(&name));
        self.aliases.len() - marks + self.functions.len() + self.submodules.len()
    }

    /// Its entries with those of its modules, all copies written out; counted up to `limit`.
    fn written_out(&self, limit: usize) -> usize {
        let mut count = self.len();
        for (scope, _) in self.submodules.values() {
            if count > limit {
                break;
            }
            count += scope.written_out(limit - count);
        }
        count
    }

    /// A line for each entry, indented by its depth: kind, name, visibility, mark. In a module the
    /// entries go by kind, then name; a module's are below it.
    fn write(&self, depth: usize, out: &mut String) {
        let mut lines: Vec<(u8, &str, &Visibility, usize, Option<&ModuleScope>)> = Vec::new();
        for (name, (ty, visibility)) in &self.aliases {
            if name.as_str() != MODULE_MARK {
                lines.push((1, name.as_str(), visibility, ty.mark, None));
            }
        }
        for (name, (function, visibility)) in &self.functions {
            lines.push((2, name.as_str(), visibility, function.mark, None));
        }
        for (name, (scope, visibility)) in &self.submodules {
            lines.push((3, name.as_str(), visibility, scope.mark(), Some(scope)));
        }
        lines.sort_by_key(|(kind, name, ..)| (*kind, *name));
        for (kind, name, visibility, mark, scope) in lines {
            let visibility = u8::from(matches!(visibility, Visibility::Public));
            let indent = 2 * depth;
            *out += &format!("{:indent$}{kind} {name} {visibility} {mark}\n", "");
            if let Some(scope) = scope {
                scope.write(depth + 1, out);
            }
        }
    }
}

impl ModuleTree {
    fn scope<'a>(&self, path: impl IntoIterator<Item = &'a str>) -> Option<&ModuleScope> {
        path.into_iter().try_fold(&self.root, |scope, name| {
            scope.submodule(name).map(|(scope, _)| scope)
        })
    }

    /// The mark of the original of an entry in the module of this path.
    pub(crate) fn mark(&self, path: &[ModuleName], kind: Kind, name: &str) -> Option<usize> {
        let scope = self.scope(path.iter().map(ModuleName::as_str))?;
        scope.entry(kind, name).map(|(_, mark)| mark)
    }

    /// How many entries the module of this path holds.
    pub(crate) fn entries_of(&self, path: &[ModuleName]) -> usize {
        let scope = self.scope(path.iter().map(ModuleName::as_str));
        scope.expect("an entered module").len()
    }

    pub(crate) fn current_holds(&self, kind: Kind, name: &str) -> bool {
        self.current().entry(kind, name).is_some()
    }

    /// Takes an entry out of the current module again.
    pub(crate) fn remove(&mut self, kind: Kind, name: &str) {
        let current = self.current_mut();
        match kind {
            Kind::Type => {
                current.aliases.remove(&AliasName::from_str_unchecked(name));
            }
            Kind::Function => {
                let name = FunctionName::from_str_unchecked(name);
                current.functions.remove(&name);
            }
            Kind::Module => {
                let name = ModuleName::from_str_unchecked(name);
                current.submodules.remove(&name);
            }
        }
    }

    /// What each element of a use meets, and how many entries the use would clone, counted up to
    /// `limit`. None where its path leads to no module.
    pub(crate) fn elements(
        &self,
        use_decl: &UseDecl,
        limit: usize,
    ) -> Option<(Vec<Element>, usize)> {
        let path = use_decl.path().get(1..)?;
        let target = self.scope(path.iter().map(|segment| segment.as_str()))?;
        let elements = match use_decl.items() {
            UseItems::Single(element) => std::slice::from_ref(element),
            UseItems::List(elements) => elements.as_slice(),
        };
        let mut cloned = 0;
        let elements = elements
            .iter()
            .map(|(name, alias)| {
                let local_name = alias.as_ref().unwrap_or(name).clone();
                let offered = Kind::ALL.map(|kind| {
                    let entry = target.entry(kind, name.as_str());
                    entry.is_some_and(|(visibility, _)| matches!(visibility, Visibility::Public))
                });
                cloned += offered.iter().filter(|offered| **offered).count();
                if offered[2] && cloned <= limit {
                    let (scope, _) = target.submodule(name.as_str()).expect("it is offered");
                    cloned += scope.written_out(limit - cloned);
                }
                let held = Kind::ALL.map(|kind| self.current_holds(kind, local_name.as_str()));
                Element {
                    local_name,
                    offered,
                    held,
                }
            })
            .collect();
        Some((elements, cloned))
    }

    /// The whole tree, written out.
    pub(crate) fn write(&self) -> String {
        let mut out = String::new();
        self.root.write(0, &mut out);
        out
    }
}
