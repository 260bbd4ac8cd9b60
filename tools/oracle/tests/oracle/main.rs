//! The oracle's answers. They come of the original's code: without its sources the tests are told as ignored.

#[cfg(original)]
mod bundles;
#[cfg(original)]
mod calls;
#[cfg(original)]
mod common;

/// Stands for all of them.
#[cfg(not(original))]
#[test]
#[ignore = "the original's sources are missing (docs/ORACLE.md)"]
fn original() {}
