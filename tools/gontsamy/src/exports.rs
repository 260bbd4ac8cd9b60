//! The exports of the proved library one by one: slices and arrays in, a number out. A slice passes as a pointer and a length, an array
//! as a pointer; the library keeps none, and no export has a `requires`, so every call is safe. What each leaves in what it is lent
//! stands in include/gontsamy.h.

use crate::layout::{ENTRIES, IDS, TREE_CELLS, TREE_OPENED, UNITS};
use crate::tree::Tree;

/// The nine arrays of a tree, lent.
macro_rules! tree_calls {
    ($($name:ident($($argument:ident: $kind:ty),*);)*) => {
        extern "C" {
            $(fn $name(
                opened: *mut [u16; TREE_OPENED],
                cells: *mut [u16; TREE_CELLS],
                visible: *mut [u8; ENTRIES],
                scopes: *mut [u16; ENTRIES],
                marks: *mut [u16; ENTRIES],
                n0: *mut [u64; ENTRIES],
                n1: *mut [u64; ENTRIES],
                n2: *mut [u64; ENTRIES],
                n3: *mut [u64; ENTRIES],
                $($argument: $kind),*
            ) -> u8;)*
        }
    };
}

tree_calls! {
    gontsamy_enter(name: *const u8, name_length: usize, is_public: u8, mark: u16);
    gontsamy_exit();
    gontsamy_insert_alias(name: *const u8, name_length: usize, is_public: u8, mark: u16);
    gontsamy_insert_enum(name: *const u8, name_length: usize, is_public: u8, mark: u16);
    gontsamy_insert_function(name: *const u8, name_length: usize, is_public: u8, mark: u16);
    gontsamy_resolve_use(decl: *const u8, decl_length: usize, is_public: u8);
}

/// The same for calls that only read.
macro_rules! tree_questions {
    ($($name:ident($($argument:ident: $kind:ty),*);)*) => {
        extern "C" {
            $(fn $name(
                opened: *const [u16; TREE_OPENED],
                cells: *const [u16; TREE_CELLS],
                visible: *const [u8; ENTRIES],
                scopes: *const [u16; ENTRIES],
                marks: *const [u16; ENTRIES],
                n0: *const [u64; ENTRIES],
                n1: *const [u64; ENTRIES],
                n2: *const [u64; ENTRIES],
                n3: *const [u64; ENTRIES],
                $($argument: $kind),*
            ) -> u8;)*
        }
    };
}

tree_questions! {
    gontsamy_get_alias(name: *const u8, name_length: usize, mark: *mut usize);
    gontsamy_get_function(name: *const u8, name_length: usize, mark: *mut usize);
    gontsamy_rows(rows: *mut u64, rows_length: usize, count: *mut usize);
}

extern "C" {
    fn gontsamy_link(
        bundle: *const u8,
        bundle_length: usize,
        report: *mut u8,
        report_length: usize,
        image: *mut u8,
        image_length: usize,
        answer: *mut usize,
        answer_length: usize,
        rows: *mut u64,
        rows_length: usize,
    ) -> u8;
    fn gontsamy_order(
        bundle: *const u8,
        bundle_length: usize,
        report: *mut u8,
        report_length: usize,
        answer: *mut usize,
        answer_length: usize,
    ) -> u8;
    fn gontsamy_check(bundle: *const u8, bundle_length: usize, place: *mut usize) -> u8;
    fn gontsamy_remappings(
        list: *const u8,
        list_length: usize,
        out: *mut u8,
        out_length: usize,
        told: *mut usize,
    ) -> u8;
    fn gontsamy_resolve(
        bundle: *const u8,
        bundle_length: usize,
        importer: *const u8,
        importer_length: usize,
        decl: *const u8,
        decl_length: usize,
        index: *mut usize,
        left: *mut usize,
        place: *mut usize,
    ) -> u8;
    fn gontsamy_linearize(
        start: *const [u16; UNITS],
        length: *const [u16; UNITS],
        ids: *const [u16; IDS],
        units: usize,
        count: usize,
        ordered: *mut [u16; UNITS],
        ordered_length: *mut usize,
    ) -> u8;
}

/// `gontsamy_link`.
pub fn link(
    bundle: &[u8],
    report: &mut [u8],
    image: &mut [u8],
    answer: &mut [usize],
    rows: &mut [u64],
) -> u8 {
    // SAFETY: pointers and lengths are those of slices that live through the call, and the export has no `requires`.
    unsafe {
        gontsamy_link(
            bundle.as_ptr(),
            bundle.len(),
            report.as_mut_ptr(),
            report.len(),
            image.as_mut_ptr(),
            image.len(),
            answer.as_mut_ptr(),
            answer.len(),
            rows.as_mut_ptr(),
            rows.len(),
        )
    }
}

/// `gontsamy_order`.
pub fn order(bundle: &[u8], report: &mut [u8], answer: &mut [usize]) -> u8 {
    // SAFETY: as above.
    unsafe {
        gontsamy_order(
            bundle.as_ptr(),
            bundle.len(),
            report.as_mut_ptr(),
            report.len(),
            answer.as_mut_ptr(),
            answer.len(),
        )
    }
}

/// `gontsamy_check`.
pub fn check(bundle: &[u8], place: &mut usize) -> u8 {
    // SAFETY: as above.
    unsafe { gontsamy_check(bundle.as_ptr(), bundle.len(), place) }
}

/// `gontsamy_remappings`.
pub fn remappings(list: &[u8], out: &mut [u8], told: &mut usize) -> u8 {
    // SAFETY: as above.
    unsafe { gontsamy_remappings(list.as_ptr(), list.len(), out.as_mut_ptr(), out.len(), told) }
}

/// What `gontsamy_resolve` tells beside its number; what it does not tell stays.
#[derive(Clone, Copy, Debug, Default, PartialEq, Eq)]
pub struct Found {
    /// Which file or folder.
    pub index: usize,
    /// How many of the last segments are left.
    pub left: usize,
    /// The place of a refusal.
    pub place: usize,
}

/// `gontsamy_resolve`.
pub fn resolve(bundle: &[u8], importer: &[u8], decl: &[u8], found: &mut Found) -> u8 {
    // SAFETY: as above.
    unsafe {
        gontsamy_resolve(
            bundle.as_ptr(),
            bundle.len(),
            importer.as_ptr(),
            importer.len(),
            decl.as_ptr(),
            decl.len(),
            &mut found.index,
            &mut found.left,
            &mut found.place,
        )
    }
}

/// `gontsamy_linearize`.
pub fn linearize(
    graph: &crate::Graph,
    ordered: &mut [u16; UNITS],
    ordered_length: &mut usize,
) -> u8 {
    // SAFETY: as above.
    unsafe {
        gontsamy_linearize(
            &graph.start,
            &graph.length,
            &graph.ids,
            graph.units,
            graph.count,
            ordered,
            ordered_length,
        )
    }
}

/// A call of that name on the arrays of a tree.
macro_rules! on {
    ($tree:ident, $name:ident, $($argument:expr),*) => {{
        let Tree { opened, cells, visible, scopes, marks, n0, n1, n2, n3 } = $tree;
        // SAFETY: the arrays have the lengths that the export's source names, and live through the call; slices as above.
        unsafe { $name(opened, cells, visible, scopes, marks, n0, n1, n2, n3, $($argument),*) }
    }};
}

/// A declaration: a module that is opened, a type alias, an enum or a function.
#[derive(Clone, Copy, Debug, PartialEq, Eq)]
pub(crate) enum Declares {
    Module,
    Alias,
    Enum,
    Function,
}

pub(crate) fn declare(
    tree: &mut Tree,
    what: Declares,
    name: &[u8],
    is_public: bool,
    mark: u16,
) -> u8 {
    let (at, length, bit) = (name.as_ptr(), name.len(), u8::from(is_public));
    match what {
        Declares::Module => on!(tree, gontsamy_enter, at, length, bit, mark),
        Declares::Alias => on!(tree, gontsamy_insert_alias, at, length, bit, mark),
        Declares::Enum => on!(tree, gontsamy_insert_enum, at, length, bit, mark),
        Declares::Function => on!(tree, gontsamy_insert_function, at, length, bit, mark),
    }
}

pub(crate) fn exit(tree: &mut Tree) -> u8 {
    on!(tree, gontsamy_exit,)
}

pub(crate) fn resolve_use(tree: &mut Tree, decl: &[u8], is_public: bool) -> u8 {
    on!(
        tree,
        gontsamy_resolve_use,
        decl.as_ptr(),
        decl.len(),
        u8::from(is_public)
    )
}

pub(crate) fn get_alias(tree: &Tree, name: &[u8], mark: &mut usize) -> u8 {
    on!(tree, gontsamy_get_alias, name.as_ptr(), name.len(), mark)
}

pub(crate) fn get_function(tree: &Tree, name: &[u8], mark: &mut usize) -> u8 {
    on!(tree, gontsamy_get_function, name.as_ptr(), name.len(), mark)
}

pub(crate) fn rows(tree: &Tree, rows: &mut [u64], count: &mut usize) -> u8 {
    on!(tree, gontsamy_rows, rows.as_mut_ptr(), rows.len(), count)
}
