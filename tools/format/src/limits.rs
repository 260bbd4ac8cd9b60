//! The version and every limit, in one place.

/// Byte 0 of a bundle and of an image.
pub const VERSION: u8 = 1;
/// Version and length ahead of the counted bytes.
pub const HEADER: usize = 3;
/// The most that the 2-byte length of the header, of a file's items or of an item can say.
pub const LENGTH: usize = 65_535;

pub const FOLDERS: usize = 64;
pub const REMAPPINGS: usize = 32;
pub const FILES: usize = 64;
/// Items of all files, nested ones included.
pub const ITEMS: usize = 1_024;
/// Uses of all files, nested ones included.
pub const USES: usize = 256;
pub const SEGMENTS: usize = 16;
pub const ELEMENTS: usize = 32;
/// An inline module directly in a file has depth 1.
pub const DEPTH: usize = 8;

/// Bytes of a string, and so of a remapping's name.
pub const STRING: usize = 255;
/// Bytes of a remapping section: a count, then three strings of each.
pub const SECTION: usize = 1 + REMAPPINGS * 3 * (1 + STRING);

/// Bytes of a component and of an identifier.
pub const NAME: usize = 32;
/// Components of a path.
pub const COMPONENTS: usize = 16;
/// Bytes of a path.
pub const PATH: usize = 255;

/// Units of a graph given directly, and ids in all of its lists.
pub const GRAPH_UNITS: usize = 64;
pub const GRAPH_IDS: usize = 256;

/// Entries of a tree, units included.
pub const ENTRIES: usize = 1_024;
/// Segments of a path in the image or of a tree use.
pub const TREE_SEGMENTS: usize = SEGMENTS + 1;
/// Open modules of a tree.
pub const OPEN: usize = DEPTH + 1;
