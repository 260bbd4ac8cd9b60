//! Stands in for src/types. A type is the mark of its declaration.

use std::sync::Arc;

use crate::error::Error;
use crate::str::AliasName;

/// The type that a type alias names.
#[derive(Clone, Debug, Eq, PartialEq, Hash)]
pub struct AliasedType {
    pub mark: usize,
}

impl AliasedType {
    pub fn resolve<F>(&self, _get_alias: F) -> Result<ResolvedType, Error>
    where
        F: FnMut(&AliasName) -> Result<ResolvedType, Error>,
    {
        Ok(ResolvedType { mark: self.mark })
    }
}

#[derive(Clone, Debug, Eq, PartialEq)]
pub struct ResolvedType {
    pub mark: usize,
}

impl ResolvedType {
    pub fn enumeration(info: EnumInfo) -> Self {
        Self { mark: info.mark }
    }
}

pub struct EnumInfo {
    mark: usize,
}

impl EnumInfo {
    pub fn new(_name: Arc<str>, variants: Arc<[EnumVariantInfo]>) -> Self {
        Self {
            mark: variants[0].mark,
        }
    }
}

/// An enum has one variant, which holds the mark of the declaration.
pub struct EnumVariantInfo {
    pub mark: usize,
}
