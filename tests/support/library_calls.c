/* Calls the library for C as its reader asks: each call is three lengths of 8 bytes, of the words, of the files and of the room,
   the least byte first, and then the words and the files. For each it writes the status as a byte, the length of the whole text
   as 8 bytes, and the room. Each piece of memory has exactly the size that is asked for, and bytes around it that have to stay
   as they are; a call that writes to them ends this with status 9. */
#include "finder.h"

#include <stdio.h>
#include <stdlib.h>
#include <string.h>

enum { AROUND = 64, MARK = 0xa5, BROKEN = 9 };

/* Reads bytes whole, or ends. */
static void take(void *to, size_t count) {
    if (fread(to, 1, count, stdin) != count) {
        exit(2);
    }
}

/* Memory of this size between marks. */
static uint8_t *marked(size_t size) {
    uint8_t *at = malloc(size + 2 * AROUND);
    if (at == NULL) {
        exit(3);
    }
    memset(at, MARK, size + 2 * AROUND);
    return at + AROUND;
}

/* Gives memory back, whose marks have to stand. */
static void give_back(uint8_t *at, size_t size) {
    for (size_t k = 0; k < AROUND; k++) {
        if (at[-(ptrdiff_t)k - 1] != MARK || at[size + k] != MARK) {
            exit(BROKEN);
        }
    }
    free(at - AROUND);
}

static uint8_t *taken(size_t size) {
    uint8_t *at = marked(size);
    take(at, size);
    return at;
}

int main(void) {
    uint64_t sizes[3];
    while (fread(sizes, 1, sizeof sizes, stdin) == sizeof sizes) {
        uint8_t *words = taken(sizes[0]), *files = taken(sizes[1]), *text = marked(sizes[2]);
        size_t length = 0;
        uint8_t status = finder_call(words, sizes[0], files, sizes[1], text, sizes[2], &length);
        uint64_t whole = length;
        fwrite(&status, 1, 1, stdout);
        fwrite(&whole, 1, sizeof whole, stdout);
        fwrite(text, 1, sizes[2], stdout);
        fflush(stdout);
        give_back(words, sizes[0]);
        give_back(files, sizes[1]);
        give_back(text, sizes[2]);
    }
    return 0;
}
