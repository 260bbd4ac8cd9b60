/* A host in C that reads a remapping list and prints its remappings, or why it is refused.
 *
 *     cc -std=c11 -Iinclude examples/hosts/remappings.c target/staticlib/libhost.a -o remappings-c && ./remappings-c LIST
 */
#include <stdio.h>

#include "gontsamy.h"

static uint8_t list[65536], section[GONTSAMY_REMAPPINGS];

/* Prints the string at `at` and what follows it; the place after it. */
static size_t string(size_t at, const char *end)
{
    printf("%.*s%s", section[at], (const char *)section + at + 1, end);
    return at + 1 + section[at];
}

int main(int count, char **words)
{
    FILE *file = count == 2 ? fopen(words[1], "rb") : NULL;
    if (file == NULL) {
        fprintf(stderr, "usage: remappings-c LIST\n");
        return 2;
    }
    size_t length = fread(list, 1, sizeof list, file);
    fclose(file);
    if (length == sizeof list) {
        fprintf(stderr, "the list is too long for this host\n");
        return 2;
    }

    size_t told = 0;
    uint8_t number = gontsamy_remappings(list, length, section, sizeof section, &told);
    if (number != 0) {
        printf("no %d %zu\n", number, told);
        return 1;
    }
    /* In a bundle the section stands as it is, between the folders and the files. */
    for (size_t at = 1; at < told;)
        at = string(string(string(at, " "), " "), "\n");
    return 0;
}
