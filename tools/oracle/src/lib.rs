//! The original Rust, unchanged, as the judge of bundles. See docs/ORACLE.md.
//!
//! `resolution`, `driver`, `source`, `str` and `ast::scope::modules` are the original's files.
//! `error`, `lexer`, `parse`, `types`, `unstable`, `version` and the rest of `ast` stand in for
//! what those lean on.

#![cfg(original)]

pub mod ast;
mod card;
pub mod discover;
pub mod error;
pub mod graph;
pub mod judge;
pub mod lexer;
pub mod names;
pub mod parse;
pub mod resolve;
pub mod tree;
pub mod types;
pub mod unstable;
pub mod version;

include!(concat!(env!("OUT_DIR"), "/roots.rs"));

/// Bytes in lower-case hexadecimal.
pub fn to_hex(bytes: &[u8]) -> String {
    bytes.iter().map(|byte| format!("{byte:02x}")).collect()
}

pub fn from_hex(text: &str) -> Option<Vec<u8>> {
    let digits: Option<Vec<u8>> = text
        .chars()
        .map(|c| c.to_digit(16).map(|digit| digit as u8))
        .collect();
    let digits = digits.filter(|digits| digits.len() % 2 == 0)?;
    Some(
        digits
            .chunks(2)
            .map(|pair| pair[0] * 16 + pair[1])
            .collect(),
    )
}
