/* A host in C: links the bundle of a file and prints its units, or why it is refused.
 *
 *     cc -std=c11 -Iinclude examples/hosts/link.c target/staticlib/libhost.a -o link-c && ./link-c CARD
 */
#include <stdio.h>
#include <string.h>

#include "gontsamy.h"

static uint8_t bundle[GONTSAMY_BUNDLE + 1], report[GONTSAMY_REPORT], image[GONTSAMY_IMAGE];
static size_t answer[GONTSAMY_ANSWER];
static uint64_t rows[GONTSAMY_ROWS];

int main(int count, char **words)
{
    FILE *file = count == 2 ? fopen(words[1], "rb") : NULL;
    if (file == NULL) {
        fprintf(stderr, "usage: link-c BUNDLE\n");
        return 2;
    }
    size_t length = fread(bundle, 1, sizeof bundle, file);
    fclose(file);

    uint8_t number = gontsamy_link(bundle, length, report, sizeof report, image, sizeof image,
                                   answer, GONTSAMY_ANSWER, rows, GONTSAMY_ROWS);
    if (number != 0) {
        printf("no %d %zu\n", number, answer[GONTSAMY_ANSWER_PLACE]);
        return 1;
    }
    size_t end = answer[GONTSAMY_ANSWER_REPORT];
    for (size_t at = 0; at < end; at += 3) {
        printf("no %d %d\n", report[at], report[at + 1] * 256 + report[at + 2]);
        if (report[at] == GONTSAMY_RING) {
            printf("ring");
            for (size_t id = at + 4; id < end; id++)
                printf(" %d", report[id]);
            printf("\n");
            break;
        }
    }
    if (end != 0)
        return 1;
    printf("ok %zu\n", answer[GONTSAMY_ANSWER_UNITS]);
    for (size_t at = 0; at < answer[GONTSAMY_ANSWER_UNITS]; at++) {
        size_t id = answer[GONTSAMY_ANSWER_IDS + at];
        printf("unit %zu is file %zu\n", id, answer[GONTSAMY_ANSWER_FILES + id]);
    }
    printf("%zu entries, image of %zu bytes\n", answer[GONTSAMY_ANSWER_ENTRIES], answer[GONTSAMY_ANSWER_IMAGE]);
    return 0;
}
