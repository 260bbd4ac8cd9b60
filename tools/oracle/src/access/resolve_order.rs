//! A child module of the original's driver/resolve_order.rs.

use crate::driver::DependencyGraph;
use crate::str::Identifier;

impl DependencyGraph {
    pub(crate) fn unit_name(source_id: usize) -> Identifier {
        Self::get_module_name(source_id)
    }
}
