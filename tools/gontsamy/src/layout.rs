//! Limits, and where each part of an answer stands. The same names stand in include/gontsamy.h; a test compares the two with the
//! source of the proved exports.

/// The most files of a bundle, and so units of a program.
pub const FILES: usize = 64;
/// The most entries of a tree.
pub const ENTRIES: usize = 1_024;
/// The longest bundle: its header, and what two bytes count.
pub const BUNDLE: usize = 65_538;
/// Bytes that hold every report.
pub const REPORT: usize = 4_096;
/// Bytes that hold every image.
pub const IMAGE: usize = 65_538;
/// Bytes that hold every remapping section.
pub const REMAPPINGS: usize = 24_577;

/// The most units of a graph given directly.
pub const UNITS: usize = 64;
/// The most ids in all of its lists.
pub const IDS: usize = 256;

/// The kind of a resolution that leads to a folder; no refusal's number.
pub const FOLDER: u8 = 255;

/// An answer: the place of a refusal.
pub const ANSWER_PLACE: usize = 0;
/// The length of the report.
pub const ANSWER_REPORT: usize = 1;
/// How many units there are.
pub const ANSWER_UNITS: usize = 2;
/// The length of the image.
pub const ANSWER_IMAGE: usize = 3;
/// How many entries the tree has.
pub const ANSWER_ENTRIES: usize = 4;
/// By id the place of a unit's file among the bundle's files.
pub const ANSWER_FILES: usize = 5;
/// The ids in linked order.
pub const ANSWER_IDS: usize = ANSWER_FILES + FILES;
/// Numbers of an answer.
pub const ANSWER: usize = ANSWER_IDS + FILES;

/// A row of the tree: 1 type, 2 function, 3 module.
pub const ROW_KIND: usize = 0;
/// 1 where the entry is public.
pub const ROW_PUBLIC: usize = 1;
/// The module that holds it: 0 the root, else the number of its row plus one.
pub const ROW_SCOPE: usize = 2;
/// The mark of its declaration.
pub const ROW_MARK: usize = 3;
/// 0 of a declaration, else the number of the row that was imported plus one.
pub const ROW_ORIGIN: usize = 4;
/// Of an imported module: the module that it shows, as in `ROW_SCOPE`.
pub const ROW_SHOWN: usize = 5;
/// Of an imported module: among how many first rows it shows what the module holds.
pub const ROW_TIME: usize = 6;
/// The name's 32 bytes in four numbers, big-endian, zero past its end.
pub const ROW_NAME: usize = 7;
/// Numbers of a row.
pub const ROW: usize = 11;
/// Numbers of the rows of every tree.
pub const ROWS: usize = ROW * ENTRIES;

/// The arrays of a tree that are no entry's own: the open modules, and cells.
pub const TREE_OPENED: usize = 11;
/// What the entries and the index have in one array.
pub const TREE_CELLS: usize = 7_168;
