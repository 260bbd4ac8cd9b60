/* The proved linker of SimplicityHL module files, as a library (crates/host; `tools/archives.sh host` writes target/staticlib/libhost.a).
 *
 * No call allocates, keeps a pointer, or is unsafe because of what was called before. Any bytes may be handed over. A pointer may be null
 * where its length is 0; one without a length points at an array of the length that is named here. Buffers must not overlap. The archive
 * needs memcpy and memset alone. x86-64 Linux; a link takes up to 288 KB of stack (docs/BENCHMARKS.md).
 *
 * A call returns 0, or a number that refuses: GONTSAMY_CUT and so on below. What each means and what to do is in docs/NUMBERS.md.
 */
#ifndef GONTSAMY_H
#define GONTSAMY_H

#include <stddef.h>
#include <stdint.h>

#ifdef __cplusplus
extern "C" {
#endif

/* Limits. */
#define GONTSAMY_FILES 64         /* files of a bundle, and so units of a program */
#define GONTSAMY_ENTRIES 1024     /* entries of a tree */
#define GONTSAMY_BUNDLE 65538     /* bytes of the longest bundle */
#define GONTSAMY_REPORT 4096      /* bytes that hold every report */
#define GONTSAMY_IMAGE 65538      /* bytes that hold every image */
#define GONTSAMY_REMAPPINGS 24577 /* bytes that hold every remapping section */
#define GONTSAMY_UNITS 64         /* units of a graph given directly */
#define GONTSAMY_IDS 256          /* ids in all of its lists */

/* An answer of gontsamy_link and gontsamy_order, number by number. */
#define GONTSAMY_ANSWER_PLACE 0    /* the place of a refusal */
#define GONTSAMY_ANSWER_REPORT 1   /* the length of the report */
#define GONTSAMY_ANSWER_UNITS 2    /* how many units there are */
#define GONTSAMY_ANSWER_IMAGE 3    /* the length of the image */
#define GONTSAMY_ANSWER_ENTRIES 4  /* how many entries the tree has */
#define GONTSAMY_ANSWER_FILES 5    /* by id the place of a unit's file among the bundle's files */
#define GONTSAMY_ANSWER_IDS (GONTSAMY_ANSWER_FILES + GONTSAMY_FILES) /* the ids in linked order */
#define GONTSAMY_ANSWER (GONTSAMY_ANSWER_IDS + GONTSAMY_FILES)       /* its length */

/* A row of the tree, number by number; entries in the order made, units among them. */
#define GONTSAMY_ROW_KIND 0    /* 1 type, 2 function, 3 module */
#define GONTSAMY_ROW_PUBLIC 1  /* 1 where it is public */
#define GONTSAMY_ROW_SCOPE 2   /* 0 at the root, else the row of the module that holds it, plus one */
#define GONTSAMY_ROW_MARK 3    /* the mark of its declaration */
#define GONTSAMY_ROW_ORIGIN 4  /* 0 of a declaration, else the row that was imported, plus one */
#define GONTSAMY_ROW_SHOWN 5   /* of an imported module: the module that it shows, as in ROW_SCOPE */
#define GONTSAMY_ROW_TIME 6    /* and among how many first rows it shows what that module holds */
#define GONTSAMY_ROW_NAME 7    /* the name's 32 bytes in four numbers, big-endian, zero past its end */
#define GONTSAMY_ROW 11        /* its length */
#define GONTSAMY_ROWS (GONTSAMY_ROW * GONTSAMY_ENTRIES) /* numbers that hold every tree */

/* Links a bundle: units, order, image and tree.
 *
 * Returns 0 and
 * - a report, where answer[GONTSAMY_ANSWER_REPORT] is not 0: its records (number, 2-byte place; after 26 a count and ids) stand at the
 *   start of `report`, and image and rows are as they were; or
 * - a linked program: the image at the start of `image`, its length, the units and the order in `answer`, and the tree in `rows`.
 * Or returns a number, with its place in answer[GONTSAMY_ANSWER_PLACE]; report, image and rows are as they were.
 *
 * `answer` wants GONTSAMY_ANSWER numbers and `rows` GONTSAMY_ROWS: where one is shorter the call returns GONTSAMY_SMALL_BUFFER and
 * nothing is written at all. Bytes and numbers past what is given are as they were. */
uint8_t gontsamy_link(const uint8_t *bundle, size_t bundle_length,
                      uint8_t *report, size_t report_length,
                      uint8_t *image, size_t image_length,
                      size_t *answer, size_t answer_length,
                      uint64_t *rows, size_t rows_length);

/* Tests a bundle by the numbers 1 to 13 alone: 0, and `place` is as it was; or a number, with its place in `place`. */
uint8_t gontsamy_check(const uint8_t *bundle, size_t bundle_length, size_t *place);

/* Reads a remapping list, lines `context:name=target` or `name=target`, into the remapping section of a bundle: a count byte, then of
 * each line with content, in their order, the strings context, name and target. docs/SPECIFICATION.md 10 has the form of a line.
 *
 * Returns 0: the section stands at the start of `out`, its length in `told`, and bytes of `out` past it are as they were. Or returns a
 * number, with its place in `told`, an offset in the list, and all of `out` is as it was:
 * - GONTSAMY_TOO_MANY: 32 lines with content came before this one; the place is its first byte;
 * - GONTSAMY_BAD_LINE: a line has no `=`; its first byte;
 * - GONTSAMY_BAD_PATH: a context is no path; the line's first byte. Or a target is none; the byte after the `=`;
 * - GONTSAMY_ODD_NAME: a name is over 255 bytes; the name's first byte;
 * - GONTSAMY_SMALL_BUFFER: the list is good and its section longer than `out`; 0. GONTSAMY_REMAPPINGS bytes always suffice.
 *
 * Names that are no identifiers, lines of the same context and name, and paths that are listed nowhere are written: the call that takes
 * the bundle refuses them. */
uint8_t gontsamy_remappings(const uint8_t *list, size_t list_length,
                            uint8_t *out, size_t out_length, size_t *told);

/* Resolves a use of a listed file: 0 for a file and GONTSAMY_FOLDER for a folder, with its place among the bundle's files or folders in
 * `index` and the number of segments left in `left`; or a number, with its place in `place`. What is not told is as it was. `use` is in
 * the bundle's form: a count of segments, and the segments. */
#define GONTSAMY_FOLDER 255
uint8_t gontsamy_resolve(const uint8_t *bundle, size_t bundle_length,
                         const uint8_t *importer, size_t importer_length,
                         const uint8_t *use, size_t use_length,
                         size_t *index, size_t *left, size_t *place);

/* The linked order of a bundle, without assembly, tree and image: what gontsamy_link answers after its steps 1 to 4.
 *
 * Returns 0 and a report or the units and their order, or a number, all in `answer` as gontsamy_link lays it out, image and entries 0.
 * `answer` wants GONTSAMY_ANSWER numbers: where it is shorter the call returns GONTSAMY_SMALL_BUFFER and nothing is written. */
uint8_t gontsamy_order(const uint8_t *bundle, size_t bundle_length,
                       uint8_t *report, size_t report_length,
                       size_t *answer, size_t answer_length);

/* The linked order of a graph given directly. Unit u, below `units`, lists the ids from start[u] on, length[u] of them, among the first
 * `count` of `ids`; three arrays of GONTSAMY_UNITS, GONTSAMY_UNITS and GONTSAMY_IDS numbers.
 *
 * Returns 0 and the order, or GONTSAMY_RING and a ring: the ids at the start of the GONTSAMY_UNITS numbers of `ordered`, zeros behind
 * them, and how many they are in `ordered_length`. Or returns GONTSAMY_TOO_MANY, GONTSAMY_CUT (a list that passes `count`) or
 * GONTSAMY_UNKNOWN_UNIT, and both are as they were. */
uint8_t gontsamy_linearize(const uint16_t *start, const uint16_t *length, const uint16_t *ids, size_t units, size_t count,
                           uint16_t *ordered, size_t *ordered_length);

/* A module tree that the caller holds. Zeros are a tree with no entry and no open module; what the arrays hold else is the library's
 * business, and gontsamy_tree_rows tells it. */
#define GONTSAMY_TREE_OPENED 11
#define GONTSAMY_TREE_CELLS 7168
typedef struct gontsamy_tree {
    uint16_t opened[GONTSAMY_TREE_OPENED];
    uint16_t cells[GONTSAMY_TREE_CELLS];
    uint8_t visible[GONTSAMY_ENTRIES];
    uint16_t scopes[GONTSAMY_ENTRIES];
    uint16_t marks[GONTSAMY_ENTRIES];
    uint64_t n0[GONTSAMY_ENTRIES], n1[GONTSAMY_ENTRIES], n2[GONTSAMY_ENTRIES], n3[GONTSAMY_ENTRIES];
} gontsamy_tree;

/* The exports: each takes the nine arrays of a tree. Use the functions over a gontsamy_tree below. */
uint8_t gontsamy_enter(uint16_t *opened, uint16_t *cells, uint8_t *visible, uint16_t *scopes, uint16_t *marks,
                       uint64_t *n0, uint64_t *n1, uint64_t *n2, uint64_t *n3,
                       const uint8_t *name, size_t name_length, uint8_t is_public, uint16_t mark);
uint8_t gontsamy_exit(uint16_t *opened, uint16_t *cells, uint8_t *visible, uint16_t *scopes, uint16_t *marks,
                      uint64_t *n0, uint64_t *n1, uint64_t *n2, uint64_t *n3);
uint8_t gontsamy_insert_alias(uint16_t *opened, uint16_t *cells, uint8_t *visible, uint16_t *scopes, uint16_t *marks,
                              uint64_t *n0, uint64_t *n1, uint64_t *n2, uint64_t *n3,
                              const uint8_t *name, size_t name_length, uint8_t is_public, uint16_t mark);
uint8_t gontsamy_insert_enum(uint16_t *opened, uint16_t *cells, uint8_t *visible, uint16_t *scopes, uint16_t *marks,
                             uint64_t *n0, uint64_t *n1, uint64_t *n2, uint64_t *n3,
                             const uint8_t *name, size_t name_length, uint8_t is_public, uint16_t mark);
uint8_t gontsamy_insert_function(uint16_t *opened, uint16_t *cells, uint8_t *visible, uint16_t *scopes, uint16_t *marks,
                                 uint64_t *n0, uint64_t *n1, uint64_t *n2, uint64_t *n3,
                                 const uint8_t *name, size_t name_length, uint8_t is_public, uint16_t mark);
uint8_t gontsamy_resolve_use(uint16_t *opened, uint16_t *cells, uint8_t *visible, uint16_t *scopes, uint16_t *marks,
                             uint64_t *n0, uint64_t *n1, uint64_t *n2, uint64_t *n3,
                             const uint8_t *use, size_t use_length, uint8_t is_public);
uint8_t gontsamy_get_alias(const uint16_t *opened, const uint16_t *cells, const uint8_t *visible,
                           const uint16_t *scopes, const uint16_t *marks, const uint64_t *n0,
                           const uint64_t *n1, const uint64_t *n2, const uint64_t *n3,
                           const uint8_t *name, size_t name_length, size_t *mark);
uint8_t gontsamy_get_function(const uint16_t *opened, const uint16_t *cells, const uint8_t *visible,
                              const uint16_t *scopes, const uint16_t *marks, const uint64_t *n0,
                              const uint64_t *n1, const uint64_t *n2, const uint64_t *n3,
                              const uint8_t *name, size_t name_length, size_t *mark);
uint8_t gontsamy_rows(const uint16_t *opened, const uint16_t *cells, const uint8_t *visible,
                      const uint16_t *scopes, const uint16_t *marks, const uint64_t *n0,
                      const uint64_t *n1, const uint64_t *n2, const uint64_t *n3,
                      uint64_t *rows, size_t rows_length, size_t *count);

/* THE TREE CALLS. Each returns 0, or a number, and then the tree is as it was, whatever its arrays hold. On a tree that calls from zeros
 * left, number and tree are those of the definition. A mark is the caller's: get_alias and get_function give it back, and an entry's row
 * has it. `is_public` is 1 for a public entry; any other is private. */

/* A module more in the innermost open one, opened. */
static inline uint8_t gontsamy_tree_enter(gontsamy_tree *tree, const uint8_t *name, size_t name_length, uint8_t is_public, uint16_t mark)
{
    return gontsamy_enter(tree->opened, tree->cells, tree->visible, tree->scopes, tree->marks, tree->n0, tree->n1, tree->n2, tree->n3,
                     name, name_length, is_public, mark);
}

/* The innermost open module is left; GONTSAMY_NOT_INSIDE where none is open. */
static inline uint8_t gontsamy_tree_exit(gontsamy_tree *tree)
{
    return gontsamy_exit(tree->opened, tree->cells, tree->visible, tree->scopes, tree->marks, tree->n0, tree->n1, tree->n2, tree->n3);
}

/* A type alias more in the innermost open module. */
static inline uint8_t gontsamy_tree_insert_alias(gontsamy_tree *tree, const uint8_t *name, size_t name_length, uint8_t is_public, uint16_t mark)
{
    return gontsamy_insert_alias(tree->opened, tree->cells, tree->visible, tree->scopes, tree->marks, tree->n0, tree->n1, tree->n2, tree->n3,
                     name, name_length, is_public, mark);
}

/* An enum, a type, more there. */
static inline uint8_t gontsamy_tree_insert_enum(gontsamy_tree *tree, const uint8_t *name, size_t name_length, uint8_t is_public, uint16_t mark)
{
    return gontsamy_insert_enum(tree->opened, tree->cells, tree->visible, tree->scopes, tree->marks, tree->n0, tree->n1, tree->n2, tree->n3,
                     name, name_length, is_public, mark);
}

/* A function more there. */
static inline uint8_t gontsamy_tree_insert_function(gontsamy_tree *tree, const uint8_t *name, size_t name_length, uint8_t is_public, uint16_t mark)
{
    return gontsamy_insert_function(tree->opened, tree->cells, tree->visible, tree->scopes, tree->marks, tree->n0, tree->n1, tree->n2, tree->n3,
                     name, name_length, is_public, mark);
}

/* A use, whose path is led by `crate`, in the bundle's form: a count of segments, the segments, a count of elements, each element a name and
 * an alias, empty for none. Its elements are imported into the innermost open module. */
static inline uint8_t gontsamy_tree_resolve_use(gontsamy_tree *tree, const uint8_t *use, size_t use_length, uint8_t is_public)
{
    return gontsamy_resolve_use(tree->opened, tree->cells, tree->visible, tree->scopes, tree->marks, tree->n0, tree->n1, tree->n2, tree->n3,
                     use, use_length, is_public);
}

/* The mark of the type of that name in the innermost open module, in `mark`; GONTSAMY_NO_ITEM where there is none, and it is as it was. */
static inline uint8_t gontsamy_tree_get_alias(const gontsamy_tree *tree, const uint8_t *name, size_t name_length, size_t *mark)
{
    return gontsamy_get_alias(tree->opened, tree->cells, tree->visible, tree->scopes, tree->marks, tree->n0, tree->n1, tree->n2, tree->n3,
                     name, name_length, mark);
}

/* The same of the function of that name. */
static inline uint8_t gontsamy_tree_get_function(const gontsamy_tree *tree, const uint8_t *name, size_t name_length, size_t *mark)
{
    return gontsamy_get_function(tree->opened, tree->cells, tree->visible, tree->scopes, tree->marks, tree->n0, tree->n1, tree->n2, tree->n3,
                     name, name_length, mark);
}

/* The tree's entries in `rows`, GONTSAMY_ROW numbers each, and how many they are in `count`. GONTSAMY_SMALL_BUFFER where `rows` has less
 * than GONTSAMY_ROWS numbers, GONTSAMY_TREE_FULL where the arrays are no tree: both as they were. */
static inline uint8_t gontsamy_tree_rows(const gontsamy_tree *tree, uint64_t *rows, size_t rows_length, size_t *count)
{
    return gontsamy_rows(tree->opened, tree->cells, tree->visible, tree->scopes, tree->marks, tree->n0, tree->n1, tree->n2, tree->n3,
                     rows, rows_length, count);
}

/* The numbers. */
#define GONTSAMY_CUT 1
#define GONTSAMY_VERSION 2
#define GONTSAMY_TOO_MANY 3
#define GONTSAMY_BAD_PATH 4
#define GONTSAMY_BAD_NAME 5
#define GONTSAMY_BAD_KIND 6
#define GONTSAMY_TWICE 7
#define GONTSAMY_ORPHAN 8
#define GONTSAMY_NOWHERE 9
#define GONTSAMY_NO_FOLDER 10
#define GONTSAMY_RESERVED 11
#define GONTSAMY_ODD_NAME 12
#define GONTSAMY_SAME_REMAPPING 13
#define GONTSAMY_SMALL_BUFFER 14
#define GONTSAMY_LONG_IMAGE 15
#define GONTSAMY_EMPTY_USE 20
#define GONTSAMY_UNKNOWN_LIBRARY 21
#define GONTSAMY_NO_LIBRARY_FILE 22
#define GONTSAMY_NO_FILE 23
#define GONTSAMY_OWN_FILE 24
#define GONTSAMY_NO_ROOT 25
#define GONTSAMY_RING 26
#define GONTSAMY_NO_MAIN 27
#define GONTSAMY_FOREIGN_ENUM 28
#define GONTSAMY_UNKNOWN_UNIT 29
#define GONTSAMY_NO_CRATE_WORD 40
#define GONTSAMY_NO_MODULE 41
#define GONTSAMY_PRIVATE_MODULE 42
#define GONTSAMY_NO_ITEM 43
#define GONTSAMY_PRIVATE_ITEM 44
#define GONTSAMY_CLASH 45
#define GONTSAMY_ALIAS_MAIN 46
#define GONTSAMY_MODULE_TWICE 47
#define GONTSAMY_TYPE_TWICE 48
#define GONTSAMY_FUNCTION_TWICE 49
#define GONTSAMY_NOT_INSIDE 50
#define GONTSAMY_TREE_FULL 51
#define GONTSAMY_BAD_LINE 52

#ifdef __cplusplus
}
#endif

#endif
