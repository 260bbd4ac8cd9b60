//! Policy bundles: their bytes read, checked and written; and the lines that a remapping section is read from.
//!
//! Written from docs/SPECIFICATION.md alone. A place is an offset in the bundle; a string's place is that
//! of its length byte.

mod check;
mod decode;
mod encode;
pub mod forms;
pub mod limits;
pub mod remapping_lines;

pub use decode::decode_use;
pub use encode::{encode_file, encode_item, encode_remappings, image};

#[derive(Clone, Debug, Default, PartialEq, Eq)]
pub struct Bundle {
    /// The package root of the entry.
    pub root: Vec<u8>,
    pub root_at: usize,
    pub folders: Vec<Vec<u8>>,
    /// For each folder the offset of its path.
    pub folder_at: Vec<usize>,
    pub remappings: Vec<Remapping>,
    /// The first is the entry.
    pub files: Vec<File>,
}

#[derive(Clone, Debug, Default, PartialEq, Eq)]
pub struct Remapping {
    pub context: Vec<u8>,
    pub name: Vec<u8>,
    pub target: Vec<u8>,
    /// The offset of its first byte.
    pub at: usize,
    pub context_at: usize,
    pub name_at: usize,
    pub target_at: usize,
}

#[derive(Clone, Debug, Default, PartialEq, Eq)]
pub struct File {
    pub path: Vec<u8>,
    pub path_at: usize,
    pub items: Vec<Item>,
}

#[derive(Clone, Debug, PartialEq, Eq)]
pub struct Item {
    /// The offset of its first byte.
    pub mark: usize,
    pub public: bool,
    pub body: Body,
}

#[derive(Clone, Debug, PartialEq, Eq)]
pub enum Body {
    TypeAlias(Vec<u8>),
    Function(Vec<u8>),
    Use {
        segments: Vec<Vec<u8>>,
        elements: Vec<Element>,
    },
    Enum(Vec<u8>),
    Module {
        name: Vec<u8>,
        items: Vec<Item>,
    },
    Ignored,
}

impl Body {
    /// The kind byte of an item.
    pub fn kind(&self) -> u8 {
        match self {
            Body::TypeAlias(_) => 1,
            Body::Function(_) => 2,
            Body::Use { .. } => 3,
            Body::Enum(_) => 4,
            Body::Module { .. } => 5,
            Body::Ignored => 6,
        }
    }
}

#[derive(Clone, Debug, PartialEq, Eq)]
pub struct Element {
    pub name: Vec<u8>,
    pub alias: Option<Vec<u8>>,
}

/// A number of the specification's table and the byte it is told at.
#[derive(Clone, Copy, Debug, PartialEq, Eq)]
pub struct Refusal {
    pub number: u8,
    pub place: usize,
}

impl std::fmt::Display for Refusal {
    fn fmt(&self, f: &mut std::fmt::Formatter<'_>) -> std::fmt::Result {
        write!(f, "no {} {}", self.number, self.place)
    }
}
