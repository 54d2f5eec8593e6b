/* The command finder over its library: the same words, texts and statuses.

       make && build/command find --kind=conj --target=jupiter --second=saturn --observer=earth --frame=ecl ../de405-2000.asc

   It reads the files that the words name: each word that is no option, and that of `--cert=`. */
#include "finder.h"

#include <stdio.h>
#include <stdlib.h>
#include <string.h>

/* Bytes that grow. */
struct bytes {
    uint8_t *at;
    size_t length;
};

/* Makes room for so many bytes more at the end, and returns where they begin. */
static uint8_t *grow(struct bytes *bytes, size_t count) {
    uint8_t *at = realloc(bytes->at, bytes->length + count + 1);
    if (at == NULL) {
        fputs("finder: out of memory\n", stderr);
        exit(FINDER_OUT_OF_MEMORY);
    }
    bytes->at = at;
    bytes->length += count;
    return at + bytes->length - count;
}

/* Adds a word, with the byte 0 that ends it. */
static void add_word(struct bytes *words, const char *word) {
    memcpy(grow(words, strlen(word) + 1), word, strlen(word) + 1);
}

/* Adds a file, if it can be read whole: its name, its length in 8 bytes, and its bytes. */
static void add_file(struct bytes *files, const char *name) {
    struct bytes content = {0};
    uint8_t part[65536];
    FILE *file = fopen(name, "rb");
    if (file == NULL) {
        return;
    }
    for (size_t count; (count = fread(part, 1, sizeof part, file)) > 0;) {
        memcpy(grow(&content, count), part, count);
    }
    if (!ferror(file)) {
        add_word(files, name);
        uint8_t *size = grow(files, 8);
        for (int at = 0; at < 8; at++) {
            size[at] = (uint8_t)((uint64_t)content.length >> (8 * at));
        }
        if (content.length > 0) {
            memcpy(grow(files, content.length), content.at, content.length);
        }
    }
    fclose(file);
    free(content.at);
}

int main(int count, char **given) {
    struct bytes words = {0}, files = {0}, text = {0};
    size_t length = 1 << 20;
    enum finder_status status;
    int has_ended = 0;
    for (int at = 1; at < count; at++) {
        add_word(&words, given[at]);
        if (has_ended || (at > 1 && given[at][0] != '-')) {
            add_file(&files, given[at]);
        } else if (strncmp(given[at], "--cert=", 7) == 0) {
            add_file(&files, given[at] + 7);
        }
        has_ended = has_ended || strcmp(given[at], "--") == 0;
    }
    grow(&words, 0);
    grow(&files, 0);
    do {
        text.length = 0;
        grow(&text, length);
        status = finder_call(words.at, words.length, files.at, files.length, text.at, text.length, &length);
    } while (status == FINDER_NO_ROOM);
    if (fwrite(text.at, 1, length, status == FINDER_REPORTED ? stdout : stderr) != length || fflush(stdout) != 0) {
        fputs("finder: write fault\n", stderr);
        status = FINDER_NO_ROOM;
    }
    free(words.at);
    free(files.at);
    free(text.at);
    return (int)status;
}
