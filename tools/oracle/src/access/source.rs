//! A child module of the original's source.rs.

use std::path::Path;
use std::sync::Arc;

use super::CanonPath;

impl CanonPath {
    /// A path that need not exist, as `DependencyMapBuilder` tests it.
    pub(crate) fn unverified(path: &Path) -> Self {
        Self(Arc::from(path))
    }
}
