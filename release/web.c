/* What the module of the page calls of C: a heap, and the arithmetic of 128 bits that the compiler calls for. A module of
   WebAssembly has no C library. No proof covers them: the stored cases are run over them by tests/system/test_web.py.

   The heap keeps free blocks in lists by size. A block has 2^CLASS bytes, of which the first 16 hold its class. */
typedef __SIZE_TYPE__ size_t;
typedef __UINT64_TYPE__ uint64_t;
typedef __INT64_TYPE__ int64_t;

enum { HEAD = 16, LEAST_CLASS = 5, MOST_CLASS = 38, PAGE = 65536 };

/* Memory that was asked for: 1 and its place, or 0 and a place that nobody may use, since no pointer is null. */
struct tried {
    uint64_t is_given;
    void *place;
};

extern unsigned char __heap_base;
static char nothing[HEAD] __attribute__((aligned(16)));
static size_t top;
static size_t end;
static void *free_blocks[MOST_CLASS + 1];

/* The class of the least block that holds so many bytes behind its head, or one more than there is. */
static unsigned class_of(size_t size) {
    unsigned class = LEAST_CLASS;
    while (class <= MOST_CLASS && ((size_t)1 << class) - HEAD < size) {
        class++;
    }
    return class;
}

static size_t *head_of(void *place) {
    return (size_t *)((char *)place - HEAD);
}

/* Whether memory reaches to this place, if need be after it has grown. */
static bool reaches(size_t place) {
    if (top == 0) {
        top = ((size_t)&__heap_base + HEAD - 1) & ~(size_t)(HEAD - 1);
        end = __builtin_wasm_memory_size(0) * PAGE;
    }
    if (place <= end) {
        return true;
    }
    size_t pages = (place - end + PAGE - 1) / PAGE;
    if (__builtin_wasm_memory_grow(0, pages) == (size_t)-1) {
        return false;
    }
    end += pages * PAGE;
    return true;
}

/* A block of so many bytes, aligned to 16, or null. */
void *take_block(size_t size) {
    unsigned class = class_of(size);
    if (class > MOST_CLASS || !reaches(0)) {
        return nullptr;
    }
    void *place = free_blocks[class];
    if (place != nullptr) {
        free_blocks[class] = *(void **)place;
        return place;
    }
    if (!reaches(top + ((size_t)1 << class))) {
        return nullptr;
    }
    place = (char *)top + HEAD;
    *head_of(place) = class;
    top += (size_t)1 << class;
    return place;
}

void give_block(void *place) {
    size_t class = *head_of(place);
    *(void **)place = free_blocks[class];
    free_blocks[class] = place;
}

static struct tried tried(void *place) {
    return (struct tried){place != nullptr, place != nullptr ? place : nothing};
}

/* Memory of this size, or, of none, of the alignment, so that its place is its own. No more than 16 is asked for as one. */
struct tried rattle_alloc(size_t size, size_t alignment) {
    return tried(take_block(size != 0 ? size : alignment));
}

/* The same memory with another size; its first bytes stay, and it may move. If there is none, it stays as it was. */
struct tried rattle_realloc(void *place, size_t kept, size_t size, size_t alignment) {
    size_t wanted = size != 0 ? size : alignment;
    if (wanted <= ((size_t)1 << *head_of(place)) - HEAD) {
        return tried(place);
    }
    void *moved = take_block(wanted);
    if (moved != nullptr) {
        __builtin_memcpy(moved, place, kept < wanted ? kept : wanted);
        give_block(place);
    }
    return tried(moved);
}

void rattle_dealloc(void *place) {
    give_block(place);
}

int memcmp(const void *one, const void *other, size_t count) {
    const unsigned char *left = one;
    const unsigned char *right = other;
    for (size_t at = 0; at < count; at++) {
        if (left[at] != right[at]) {
            return left[at] < right[at] ? -1 : 1;
        }
    }
    return 0;
}

typedef unsigned __int128 wide;

static wide joined(uint64_t high, uint64_t low) {
    return (wide)high << 64 | low;
}

/* The product of two numbers of 128 bits, without what goes past them. */
wide __multi3(wide one, wide other) {
    uint64_t a = (uint64_t)one, b = (uint64_t)other, mask = 0xffffffff;
    uint64_t low = (a & mask) * (b & mask);
    uint64_t middle = (a >> 32) * (b & mask) + (low >> 32);
    uint64_t other_middle = (a & mask) * (b >> 32) + (middle & mask);
    uint64_t high = (a >> 32) * (b >> 32) + (middle >> 32) + (other_middle >> 32);
    high += (uint64_t)(one >> 64) * b + a * (uint64_t)(other >> 64);
    return joined(high, other_middle << 32 | (low & mask));
}

/* The three shifts of 128 bits, by 0 to 127. */
wide __ashlti3(wide number, int count) {
    uint64_t low = (uint64_t)number, high = (uint64_t)(number >> 64);
    if (count >= 64) {
        return joined(low << (count - 64), 0);
    }
    return count == 0 ? number : joined(high << count | low >> (64 - count), low << count);
}

wide __lshrti3(wide number, int count) {
    uint64_t low = (uint64_t)number, high = (uint64_t)(number >> 64);
    if (count >= 64) {
        return high >> (count - 64);
    }
    return count == 0 ? number : joined(high >> count, low >> count | high << (64 - count));
}

wide __ashrti3(wide number, int count) {
    uint64_t low = (uint64_t)number;
    int64_t high = (int64_t)(number >> 64);
    if (count >= 64) {
        return joined((uint64_t)(high >> 63), (uint64_t)(high >> (count - 64)));
    }
    return count == 0 ? number : joined((uint64_t)(high >> count), low >> count | (uint64_t)high << (64 - count));
}
