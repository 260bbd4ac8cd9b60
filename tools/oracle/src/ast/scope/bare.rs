//! The original's tree alone, without limits, log or marks of modules: for measuring. The
//! arguments of a call are made beforehand.

use std::sync::Arc;

use bundle_format::Element;

use super::modules::ModuleTree;
use crate::ast::CustomFunction;
use crate::error::{Error, Span};
use crate::parse::{use_decl, visibility_of, Item, Module, UseDecl, Visibility};
use crate::str::{AliasName, FunctionName, ModuleName};
use crate::types::{AliasedType, EnumVariantInfo};

pub enum Call {
    Enter(ModuleName, Visibility),
    Exit,
    Alias(AliasName, Visibility, AliasedType),
    Enum(AliasName, Visibility, Arc<[EnumVariantInfo]>),
    Function(FunctionName, Visibility, CustomFunction),
    Use(UseDecl),
    GetAlias(AliasName),
    GetFunction(FunctionName),
}

impl Call {
    pub fn enter(name: &str, public: bool) -> Self {
        Call::Enter(ModuleName::from_str_unchecked(name), visibility_of(public))
    }

    pub fn alias(name: &str, public: bool, mark: usize) -> Self {
        let name = AliasName::from_str_unchecked(name);
        Call::Alias(name, visibility_of(public), AliasedType { mark })
    }

    pub fn enumeration(name: &str, public: bool, mark: usize) -> Self {
        let name = AliasName::from_str_unchecked(name);
        let variants = Arc::new([EnumVariantInfo { mark }]);
        Call::Enum(name, visibility_of(public), variants)
    }

    pub fn function(name: &str, public: bool, mark: usize) -> Self {
        let name = FunctionName::from_str_unchecked(name);
        Call::Function(name, visibility_of(public), CustomFunction { mark })
    }

    /// The names are identifiers.
    pub fn resolve_use(public: bool, segments: &[Vec<u8>], elements: &[Element]) -> Self {
        let span = Span::new(0, 0..0);
        Call::Use(use_decl(visibility_of(public), segments, elements, span))
    }

    pub fn get_alias(name: &str) -> Self {
        Call::GetAlias(AliasName::from_str_unchecked(name))
    }

    pub fn get_function(name: &str) -> Self {
        Call::GetFunction(FunctionName::from_str_unchecked(name))
    }
}

#[derive(Default)]
pub struct Bare(ModuleTree);

impl Bare {
    /// Makes a call; says whether it was accepted. An exit at the root is a panic.
    pub fn call(&mut self, call: &Call) -> bool {
        let tree = &mut self.0;
        match call {
            Call::Enter(name, visibility) => tree.enter(name.clone(), visibility.clone()).is_ok(),
            Call::Exit => {
                tree.exit();
                true
            }
            Call::Alias(name, visibility, ty) => {
                let mut alias = || -> Result<(), Error> {
                    tree.check_alias_free(name)?;
                    let ty = tree.resolve(ty)?;
                    tree.insert_alias(name.clone(), ty, visibility.clone());
                    Ok(())
                };
                alias().is_ok()
            }
            Call::Enum(name, visibility, variants) => tree
                .insert_enum(name.clone(), visibility.clone(), Arc::clone(variants))
                .is_ok(),
            Call::Function(name, visibility, function) => tree
                .insert_function(name.clone(), visibility.clone(), function.clone())
                .is_ok(),
            Call::Use(use_decl) => tree.resolve_use(use_decl).is_ok(),
            Call::GetAlias(name) => tree.get_alias(name).is_ok(),
            Call::GetFunction(name) => tree.get_function(name).is_ok(),
        }
    }

    /// Step 6: per unit or module enter, items in order, exit. Says whether every call was accepted.
    pub fn walk(&mut self, units: &[Item]) -> bool {
        units.iter().all(|unit| match unit {
            Item::Module(unit) => self.walk_module(unit).is_ok(),
            _ => false,
        })
    }

    fn walk_module(&mut self, module: &Module) -> Result<(), Error> {
        let tree = &mut self.0;
        tree.enter(module.name().clone(), module.visibility().clone())?;
        for item in module.items() {
            let tree = &mut self.0;
            match item {
                Item::TypeAlias(alias) => {
                    tree.check_alias_free(alias.name())?;
                    let ty = tree.resolve(alias.ty())?;
                    tree.insert_alias(alias.name().clone(), ty, alias.visibility().clone());
                }
                Item::Function(function) => {
                    let mark = function.span().start;
                    let name = function.name().clone();
                    let visibility = function.visibility().clone();
                    tree.insert_function(name, visibility, CustomFunction { mark })?;
                }
                Item::Use(use_decl) => tree.resolve_use(use_decl)?,
                Item::EnumDeclaration(decl) => {
                    let variants = Arc::new([]);
                    tree.insert_enum(decl.name().clone(), decl.visibility().clone(), variants)?;
                }
                Item::Module(module) => self.walk_module(module)?,
                Item::Ignored => {}
            }
        }
        self.0.exit();
        Ok(())
    }
}
