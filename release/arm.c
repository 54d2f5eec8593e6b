/* What the program calls of C, beside the C library, on 64-bit ARM. The toolchain has these seven functions compiled for
   x86-64 alone; here they are for ARM, and do the same. No proof covers them: tests/support/arm_functions.c tries each. */
#include <errno.h>
#include <stdbool.h>
#include <stddef.h>
#include <stdlib.h>

/* Memory that was asked for: whether there was any, and where it begins. Without any the place is one that nobody may use,
   since no pointer is null. */
struct tried {
    bool is_given;
    void *place;
};

static char nothing;
static int count;
static char **words;

static struct tried tried(void *place) {
    return (struct tried){place != NULL, place != NULL ? place : &nothing};
}

/* Memory of this size in bytes, or, of none, of the alignment, so that its place is its own. malloc aligns to 16 bytes, and
   no more is asked for. */
struct tried rattle_alloc(size_t size, size_t alignment) {
    return tried(malloc(size != 0 ? size : alignment));
}

/* The same memory with another size; its first bytes stay, and it may move. If there is none, it stays as it was. */
struct tried rattle_realloc(void *place, size_t kept, size_t size, size_t alignment) {
    (void)kept;
    return tried(realloc(place, size != 0 ? size : alignment));
}

void rattle_dealloc(void *place) {
    free(place);
}

/* The error of the last call of the C library that failed in this thread. */
int rattle_errno(void) {
    return errno;
}

void rattle_set_errno(int error) {
    errno = error;
}

/* Keeps the command line; the C library calls it before main. */
__attribute__((constructor)) static void keep(int given, char **first, char **environment) {
    (void)environment;
    count = given;
    words = first;
}

/* The number of words of the command line, its first, the program's name, among them. */
size_t rattle_arg_count(void) {
    return (size_t)count;
}

/* Puts a word of the command line at the start of so many bytes, and returns its length: -1 if there is no such word, and
   -2 if it is longer; then all bytes are those of its start. */
ptrdiff_t rattle_arg(size_t number, char *bytes, size_t room) {
    size_t length = 0;
    if (number >= (size_t)count || words[number] == NULL) {
        return -1;
    }
    for (const char *word = words[number]; word[length] != '\0'; length++) {
        if (length == room) {
            return -2;
        }
        bytes[length] = word[length];
    }
    return (ptrdiff_t)length;
}
