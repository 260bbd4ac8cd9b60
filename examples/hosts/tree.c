/* A host in C that fills a module tree call by call: a module with a function, and a use of it at the root.
 *
 *     cc -std=c11 -Iinclude examples/hosts/tree.c target/staticlib/libhost.a -o tree-c && ./tree-c
 */
#include <inttypes.h>
#include <stdio.h>

#include "gontsamy.h"

/* A string of the source as bytes and their number. */
#define BYTES(text) (const uint8_t *)(text), sizeof(text) - 1

static gontsamy_tree tree; /* zeros: no entry */
static uint64_t rows[GONTSAMY_ROWS];

int main(void)
{
    size_t mark = 0, count = 0;
    printf("enter %d\n", gontsamy_tree_enter(&tree, BYTES("lib"), 1, 10));
    printf("function %d\n", gontsamy_tree_insert_function(&tree, BYTES("f"), 1, 11));
    printf("function again %d\n", gontsamy_tree_insert_function(&tree, BYTES("f"), 1, 12));
    printf("type %d\n", gontsamy_tree_insert_alias(&tree, BYTES("T"), 0, 13));
    printf("enum %d\n", gontsamy_tree_insert_enum(&tree, BYTES("E"), 1, 14));
    printf("exit %d\n", gontsamy_tree_exit(&tree));
    printf("exit at the root %d\n", gontsamy_tree_exit(&tree));
    /* use crate::lib::{f as g}, then the same led by another word, then of a private type */
    printf("use %d\n", gontsamy_tree_resolve_use(&tree, BYTES("\2\5crate\3lib\1\1f\1g"), 0));
    printf("use of no crate %d\n", gontsamy_tree_resolve_use(&tree, BYTES("\2\3own\3lib\1\1f\1h"), 0));
    printf("use of a private type %d\n", gontsamy_tree_resolve_use(&tree, BYTES("\2\5crate\3lib\1\1T\0"), 0));
    printf("get function %d", gontsamy_tree_get_function(&tree, BYTES("g"), &mark));
    printf(" %zu\n", mark);
    printf("get type %d\n", gontsamy_tree_get_alias(&tree, BYTES("T"), &mark));
    printf("rows %d", gontsamy_tree_rows(&tree, rows, GONTSAMY_ROWS, &count));
    printf(" %zu\n", count);
    for (size_t i = 0; i < count; i++) {
        const uint64_t *row = rows + i * GONTSAMY_ROW;
        printf("%" PRIu64 " in %" PRIu64 " from %" PRIu64 ", mark %" PRIu64 "\n", row[GONTSAMY_ROW_KIND],
               row[GONTSAMY_ROW_SCOPE], row[GONTSAMY_ROW_ORIGIN], row[GONTSAMY_ROW_MARK]);
    }
    return 0;
}
