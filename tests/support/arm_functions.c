/* Tries the seven functions of release/arm.c, to which it is linked, and ends with status 0 if each does what it is for:

       arm_functions a '' é 'one two'

   tests/system/test_arm.py starts it so. Each thing that is not as it has to be is a line. */
#include <errno.h>
#include <malloc.h>
#include <stdbool.h>
#include <stddef.h>
#include <stdint.h>
#include <stdio.h>
#include <string.h>
#include <unistd.h>

struct tried {
    bool is_given;
    unsigned char *place;
};

struct tried rattle_alloc(size_t size, size_t alignment);
struct tried rattle_realloc(void *place, size_t kept, size_t size, size_t alignment);
void rattle_dealloc(void *place);
int rattle_errno(void);
void rattle_set_errno(int error);
size_t rattle_arg_count(void);
ptrdiff_t rattle_arg(size_t number, char *bytes, size_t room);

/* More bytes than any address space of the machine has. */
static const size_t TOO_MANY = (size_t)1 << 62;
static const char *const WORDS[] = {"a", "", "\xc3\xa9", "one two"};
enum { COUNT = sizeof WORDS / sizeof *WORDS, ROOM = 16, UNTOUCHED = '#' };

static int faults;

static void expect(bool is_so, const char *what) {
    if (!is_so) {
        printf("not so: %s\n", what);
        faults++;
    }
}

static bool is_aligned(const void *place) {
    return (uintptr_t)place % 16 == 0;
}

static void try_alloc(void) {
    struct tried one = rattle_alloc(100, 8);
    struct tried other = rattle_alloc(100, 16);
    struct tried empty = rattle_alloc(0, 8);
    struct tried none = rattle_alloc(TOO_MANY, 1);
    expect(one.is_given && other.is_given && empty.is_given, "rattle_alloc gives memory, also of no bytes");
    expect(is_aligned(one.place) && is_aligned(other.place), "rattle_alloc aligns to 16 bytes");
    memset(one.place, 1, 100);
    memset(other.place, 2, 100);
    expect(one.place[0] == 1 && one.place[99] == 1, "rattle_alloc gives memory that is not given twice");
    expect(empty.place != NULL && empty.place != one.place && empty.place != other.place, "memory of no bytes has a place of its own");
    expect(!none.is_given && none.place != NULL, "rattle_alloc says that there is no memory, and its place is not null");
    rattle_dealloc(one.place);
    rattle_dealloc(other.place);
    rattle_dealloc(empty.place);
}

static void try_realloc(void) {
    struct tried one = rattle_alloc(100, 8);
    struct tried none;
    for (int i = 0; i < 100; i++) {
        one.place[i] = (unsigned char)i;
    }
    one = rattle_realloc(one.place, 100, 1000000, 8);
    expect(one.is_given && is_aligned(one.place), "rattle_realloc gives more memory");
    one.place[999999] = 1;
    none = rattle_realloc(one.place, 1000000, TOO_MANY, 8);
    expect(!none.is_given && none.place != NULL, "rattle_realloc says that there is no memory, and its place is not null");
    one = rattle_realloc(one.place, 1000000, 50, 8);
    expect(one.is_given, "rattle_realloc gives less memory, also where it failed before");
    for (int i = 0; i < 50; i++) {
        expect(one.place[i] == i, "rattle_realloc keeps the bytes");
    }
    one = rattle_realloc(one.place, 50, 0, 8);
    expect(one.is_given && one.place != NULL, "rattle_realloc gives memory of no bytes, and does not free it");
    rattle_dealloc(one.place);
}

/* How many bytes are given and not given back, as the C library counts them; it counts small ones that it keeps too. */
static size_t bytes_in_use(void) {
    struct mallinfo2 found = mallinfo2();
    return found.uordblks + found.hblkhd;
}

static void try_dealloc(void) {
    static const size_t SIZES[] = {5000, 10000000};
    for (size_t i = 0; i < sizeof SIZES / sizeof *SIZES; i++) {
        size_t before = bytes_in_use();
        struct tried one = rattle_alloc(SIZES[i], 8);
        expect(bytes_in_use() > before, "memory that is given is counted");
        rattle_dealloc(one.place);
        expect(bytes_in_use() == before, "rattle_dealloc gives memory back");
    }
}

static void try_errno(void) {
    errno = 0;
    expect(rattle_errno() == 0, "rattle_errno is 0 before any error");
    (void)!read(-1, &faults, 0);
    expect(rattle_errno() == EBADF, "rattle_errno is the error of a read");
    errno = ENOSPC;
    expect(rattle_errno() == ENOSPC && errno == ENOSPC, "rattle_errno is errno, and changes nothing");
    rattle_set_errno(EACCES);
    expect(errno == EACCES && rattle_errno() == EACCES, "rattle_set_errno sets errno");
}

/* Whether a word is put into so many bytes as it has to be, and nothing past them is touched. */
static bool is_put(size_t number, const char *word, size_t room) {
    char bytes[ROOM];
    size_t length = strlen(word);
    size_t written = length < room ? length : room;
    memset(bytes, UNTOUCHED, ROOM);
    if (rattle_arg(number, bytes, room) != (length <= room ? (ptrdiff_t)length : -2) || memcmp(bytes, word, written) != 0) {
        return false;
    }
    for (size_t i = written; i < ROOM; i++) {
        if (bytes[i] != UNTOUCHED) {
            return false;
        }
    }
    return true;
}

static void try_arguments(void) {
    char bytes[ROOM];
    expect(rattle_arg_count() == COUNT + 1, "rattle_arg_count is the number of words");
    for (size_t i = 0; i < COUNT; i++) {
        for (size_t room = 0; room < ROOM; room++) {
            expect(is_put(i + 1, WORDS[i], room), "rattle_arg puts a word, or so much of it as there is room for");
        }
    }
    expect(rattle_arg(COUNT + 1, bytes, ROOM) == -1, "rattle_arg says that there is no word past the last");
    expect(rattle_arg(SIZE_MAX, bytes, ROOM) == -1, "rattle_arg says that there is no word of the greatest number");
    expect(rattle_arg(0, bytes, 0) == -2, "rattle_arg has the name of the program as its first word");
}

int main(void) {
    try_alloc();
    try_realloc();
    try_dealloc();
    try_errno();
    try_arguments();
    return faults != 0;
}
