//! Stands in for src/unstable.rs. Without a parser no feature is asked for.

pub struct UnstableFeatures;
