//! A child module of the original's driver/mod.rs.

use std::collections::HashMap;
use std::path::Path;
use std::sync::Arc;

use super::{DependencyGraph, SourceMap, SourceModule, MAIN_MODULE};
use crate::error::{Diagnostic, DiagnosticManager, Error, Span};
use crate::parse::Program;
use crate::resolution::{DependencyMap, DependencyMapBuilder};
use crate::source::{CanonPath, CanonSourceFile};
use crate::unstable::UnstableFeatures;

impl DependencyGraph {
    /// A graph of units without items, whose sources are named by their ids.
    pub(crate) fn of_lists(lists: &[&[usize]]) -> Result<Self, Error> {
        let source = |id: usize| {
            let name = CanonPath::unverified(Path::new(&id.to_string()));
            CanonSourceFile::new(name, Arc::from(""))
        };
        let module = |id: usize| SourceModule {
            source: source(id),
            program: Program::new(&[], Span::new(id, 0..0)),
        };
        let root = CanonPath::unverified(Path::new("/"));
        Ok(DependencyGraph {
            modules: (0..lists.len()).map(|id| (id, module(id))).collect(),
            dependency_map: Arc::new(DependencyMapBuilder::new().build(root)?),
            sources: SourceMap::with_source(source(MAIN_MODULE)),
            use_cache: HashMap::new(),
            dependencies: lists.iter().map(|list| list.to_vec()).enumerate().collect(),
        })
    }

    /// The graph of a program, where discovery met no fault.
    pub(crate) fn discover(
        root_source: CanonSourceFile,
        dependency_map: Arc<DependencyMap>,
    ) -> (Option<Self>, DiagnosticManager) {
        Self::build_graph(root_source, dependency_map, &UnstableFeatures)
    }

    pub(crate) fn sources(&self) -> &SourceMap {
        &self.sources
    }

    /// The ids that a unit lists.
    pub(crate) fn list(&self, id: usize) -> &[usize] {
        self.dependencies.get(&id).map_or(&[], Vec::as_slice)
    }

    pub(crate) fn linked_order(&self) -> Result<Vec<usize>, Diagnostic> {
        self.linearize()
    }
}
