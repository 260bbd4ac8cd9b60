//! The text form of a bundle (docs/BUNDLE-TEXT.md): `pack` reads it, `show` writes it.

mod lexer;
mod pack;
mod show;

pub use pack::{pack, pack_with_fields, Packed};
pub use show::show;

/// What is wrong with a text, and where: line and column count from 1, columns in bytes.
#[derive(Clone, Debug, PartialEq, Eq)]
pub struct TextError {
    pub line: usize,
    pub column: usize,
    pub message: String,
}

impl std::fmt::Display for TextError {
    fn fmt(&self, f: &mut std::fmt::Formatter<'_>) -> std::fmt::Result {
        write!(
            f,
            "line {}, column {}: {}",
            self.line, self.column, self.message
        )
    }
}
