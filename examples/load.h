/* What every example begins with: the layout file that its command line names, loaded into a node. */
#ifndef LOAD_H
#define LOAD_H

#include <inttypes.h>
#include <stdio.h>

#include "mondgurt.h"

/* 1 if the node is loaded; if not, says why on standard error. */
static int load(mondgurt_node *node, int count, char **words)
{
    static uint8_t file[MONDGURT_FILE + 1]; /* so that a longer file is refused */
    if (count != 2) {
        fprintf(stderr, "usage: %s LAYOUT\n", words[0]);
        return 0;
    }
    FILE *from = fopen(words[1], "rb");
    if (from == NULL) {
        perror(words[1]);
        return 0;
    }
    size_t length = fread(file, 1, sizeof file, from);
    int failed = ferror(from);
    fclose(from);
    if (failed) {
        fprintf(stderr, "%s: it cannot be read\n", words[1]);
        return 0;
    }
    uint32_t answer = mondgurt_load(node, file, length);
    if (answer != 0) {
        fprintf(stderr, "%s: refused %s record %" PRIu32, words[1], mondgurt_refusal_name(answer), MONDGURT_RECORD(answer));
        if (MONDGURT_BYTE(answer) != 0)
            fprintf(stderr, " byte %" PRIu32, MONDGURT_BYTE(answer));
        fputs("\n", stderr);
    }
    return answer == 0;
}

#endif
