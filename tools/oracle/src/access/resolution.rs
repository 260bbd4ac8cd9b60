//! A child module of the original's resolution.rs.

pub(crate) fn is_valid_dependency_identifier(s: &str) -> bool {
    super::is_valid_dependency_identifier(s)
}
