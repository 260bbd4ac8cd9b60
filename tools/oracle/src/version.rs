//! Stands in for src/version.rs, of which only this constant is used.

pub const SIMC_STR: &str = "simc";
