//! The items of SimplicityHL source files: what a bundle has of them, and where each stands in its file.
//!
//! A small reader after the original's `lexer.rs` and `parse/mod.rs`. It is not proved. It reads what the linker needs, visibility,
//! use paths and names, and skips types, parameters and bodies by their brackets; the original's parser reads these. A host that
//! has that parser hands its items to the linker directly.

mod lexer;
mod parser;

pub use parser::read;

/// A range of bytes of a source file.
#[derive(Clone, Copy, Debug, Default, PartialEq, Eq)]
pub struct Span {
    pub start: usize,
    pub end: usize,
}

/// An item with its places in the file.
#[derive(Clone, Debug, PartialEq, Eq)]
pub struct SourceItem {
    pub public: bool,
    /// From its visibility or first word to its name, or of a use to its `;`.
    pub span: Span,
    pub body: SourceBody,
}

#[derive(Clone, Debug, PartialEq, Eq)]
pub enum SourceBody {
    TypeAlias(Name),
    Function(Name),
    Enum(Name),
    Use {
        segments: Vec<Name>,
        elements: Vec<SourceElement>,
    },
    Module {
        name: Name,
        items: Vec<SourceItem>,
    },
}

/// A word of the file, and where it stands.
#[derive(Clone, Debug, PartialEq, Eq)]
pub struct Name {
    pub text: String,
    pub span: Span,
}

#[derive(Clone, Debug, PartialEq, Eq)]
pub struct SourceElement {
    pub name: Name,
    pub alias: Option<Name>,
}

/// What is wrong with a file, and where.
#[derive(Clone, Debug, PartialEq, Eq)]
pub struct SourceError {
    pub span: Span,
    pub message: String,
}

/// Line and column of an offset, both from 1; a column counts characters.
pub fn line_and_column(text: &str, offset: usize) -> (usize, usize) {
    let mut end = offset.min(text.len());
    while !text.is_char_boundary(end) {
        end -= 1;
    }
    let before = &text[..end];
    let line = before.matches('\n').count() + 1;
    let start = before.rfind('\n').map_or(0, |at| at + 1);
    (line, before[start..].chars().count() + 1)
}

impl SourceItem {
    /// The item as a bundle has it; its mark is set when the bundle is read back.
    pub fn to_item(&self) -> bundle_format::Item {
        use bundle_format::{Body, Element, Item};
        let bytes = |name: &Name| name.text.clone().into_bytes();
        let body = match &self.body {
            SourceBody::TypeAlias(name) => Body::TypeAlias(bytes(name)),
            SourceBody::Function(name) => Body::Function(bytes(name)),
            SourceBody::Enum(name) => Body::Enum(bytes(name)),
            SourceBody::Use { segments, elements } => Body::Use {
                segments: segments.iter().map(bytes).collect(),
                elements: elements
                    .iter()
                    .map(|element| Element {
                        name: bytes(&element.name),
                        alias: element.alias.as_ref().map(bytes),
                    })
                    .collect(),
            },
            SourceBody::Module { name, items } => Body::Module {
                name: bytes(name),
                items: items.iter().map(SourceItem::to_item).collect(),
            },
        };
        Item {
            mark: 0,
            public: self.public,
            body,
        }
    }
}
