//! A module tree that the caller holds, and the eight calls on it.

use crate::exports::{self, Declares};
use crate::layout::{ENTRIES, ROW, ROWS, TREE_CELLS, TREE_OPENED};
use crate::{entry, Entry, Number};

/// A module tree: entries in the order made, and the open modules. It is 49 KB; keep it in a `static` or a box where the stack is small.
///
/// A call that is refused leaves the tree as it was.
///
/// ```
/// use gontsamy::{Number, Tree};
///
/// let mut tree = Box::new(Tree::new());
/// tree.enter(b"lib", true, 1).unwrap();
/// tree.insert_function(b"f", true, 2).unwrap();
/// tree.exit().unwrap();
/// assert_eq!(tree.exit(), Err(Number(50)));
///
/// // use crate::lib::{f}
/// tree.resolve_use(b"\x02\x05crate\x03lib\x01\x01f\x00", false).unwrap();
/// assert_eq!(tree.get_function(b"f"), Ok(2));
/// assert_eq!(tree.get_alias(b"f"), Err(Number(43)));
/// assert_eq!(tree.resolve_use(b"\x02\x03own\x03lib\x01\x01f\x00", false), Err(Number(40)));
/// ```
pub struct Tree {
    pub(crate) opened: [u16; TREE_OPENED],
    pub(crate) cells: [u16; TREE_CELLS],
    pub(crate) visible: [u8; ENTRIES],
    pub(crate) scopes: [u16; ENTRIES],
    pub(crate) marks: [u16; ENTRIES],
    pub(crate) n0: [u64; ENTRIES],
    pub(crate) n1: [u64; ENTRIES],
    pub(crate) n2: [u64; ENTRIES],
    pub(crate) n3: [u64; ENTRIES],
}

fn accepted(number: u8) -> Result<(), Number> {
    match number {
        0 => Ok(()),
        _ => Err(Number(number)),
    }
}

impl Tree {
    /// No entry, no open module.
    pub const fn new() -> Self {
        Tree {
            opened: [0; TREE_OPENED],
            cells: [0; TREE_CELLS],
            visible: [0; ENTRIES],
            scopes: [0; ENTRIES],
            marks: [0; ENTRIES],
            n0: [0; ENTRIES],
            n1: [0; ENTRIES],
            n2: [0; ENTRIES],
            n3: [0; ENTRIES],
        }
    }

    /// A module more in the innermost open one, opened.
    pub fn enter(&mut self, name: &[u8], is_public: bool, mark: u16) -> Result<(), Number> {
        accepted(exports::declare(
            self,
            Declares::Module,
            name,
            is_public,
            mark,
        ))
    }

    /// The innermost open module is left.
    pub fn exit(&mut self) -> Result<(), Number> {
        accepted(exports::exit(self))
    }

    /// A type alias more in the innermost open module.
    pub fn insert_alias(&mut self, name: &[u8], is_public: bool, mark: u16) -> Result<(), Number> {
        accepted(exports::declare(
            self,
            Declares::Alias,
            name,
            is_public,
            mark,
        ))
    }

    /// An enum, a type, more there.
    pub fn insert_enum(&mut self, name: &[u8], is_public: bool, mark: u16) -> Result<(), Number> {
        accepted(exports::declare(
            self,
            Declares::Enum,
            name,
            is_public,
            mark,
        ))
    }

    /// A function more there.
    pub fn insert_function(
        &mut self,
        name: &[u8],
        is_public: bool,
        mark: u16,
    ) -> Result<(), Number> {
        accepted(exports::declare(
            self,
            Declares::Function,
            name,
            is_public,
            mark,
        ))
    }

    /// A use in the bundle's form: a count of segments, the segments, a count of elements, each element a name and an alias, empty for
    /// none. The path is led by `crate`. Its elements are imported into the innermost open module.
    pub fn resolve_use(&mut self, decl: &[u8], is_public: bool) -> Result<(), Number> {
        accepted(exports::resolve_use(self, decl, is_public))
    }

    /// The mark of the type of that name in the innermost open module.
    pub fn get_alias(&self, name: &[u8]) -> Result<usize, Number> {
        let mut mark = 0;
        accepted(exports::get_alias(self, name, &mut mark)).map(|()| mark)
    }

    /// The mark of the function of that name in the innermost open module.
    pub fn get_function(&self, name: &[u8]) -> Result<usize, Number> {
        let mut mark = 0;
        accepted(exports::get_function(self, name, &mut mark)).map(|()| mark)
    }

    /// The entries in the order made. `rows` is lent for them.
    pub fn entries<'a>(&self, rows: &'a mut [u64; ROWS]) -> impl Iterator<Item = Entry> + 'a {
        let mut count = 0;
        let number = exports::rows(self, rows, &mut count);
        let length = if number == 0 { count * ROW } else { 0 };
        rows[..length.min(ROWS)].chunks_exact(ROW).map(entry)
    }
}

impl Default for Tree {
    fn default() -> Self {
        Self::new()
    }
}
