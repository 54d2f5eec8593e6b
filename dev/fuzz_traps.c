/* The program as a target of AFL++, by dev/fuzz, which preloads this library. It needs no other build of the program.

   Coverage: dev/fuzz lists where the blocks of the program's code begin. A trap is put at each, in memory. A run that comes
   there first marks the block in the fuzzer's map, and puts the byte back. So a run costs a trap for each block that it
   reaches, and the runs are made by `fork` from one process, as AFL++ asks of a target.

   An input is the words of a command line, a line each, and then each file behind a line that holds the byte 0x1c alone. The
   words @1, @2 .. stand for the names of these files, also behind an `=`. What the program wrote is looked at: a line on
   standard error and a status but 0, or a text on standard output and the status 0. Anything else is a fault, as a signal
   is.

   FUZZ_BLOCKS=FILE    the offsets of the blocks from where the program lies, as 32-bit numbers */
#define _GNU_SOURCE
#include <dlfcn.h>
#include <fcntl.h>
#include <link.h>
#include <signal.h>
#include <stdint.h>
#include <stdio.h>
#include <stdlib.h>
#include <string.h>
#include <sys/mman.h>
#include <sys/shm.h>
#include <sys/syscall.h>
#include <sys/wait.h>
#include <ucontext.h>
#include <unistd.h>

enum { MAX_INPUT = 1 << 20, MAX_WORDS = 64, MAX_WORD = 4096, MAX_FILES = 8, MAX_NAME = 64, MAX_BLOCKS = 1 << 17 };
/* Where AFL++ and its target talk, and how large the map is that both share. */
enum { FROM_FUZZER = 198, TO_FUZZER = 199, MAP_SIZE = 1 << 16, TRAP = 0xcc };

typedef int entry(int, char **, char **);

static entry *program_main;
static const ElfW(Dyn) * dynamic;
static uint8_t *base, *map, kept[MAX_BLOCKS];
static uint32_t blocks[MAX_BLOCKS];
static size_t block_count;
static int out, err, is_run;
static char input[MAX_INPUT + 1], names[MAX_FILES][MAX_NAME], expanded[MAX_WORDS][MAX_WORD];

/* Ends this process at once. */
__attribute__((noreturn)) static void leave(int status) {
    for (;;) {
        syscall(SYS_exit_group, status);
    }
}

/* Which block begins at an offset; the blocks are in order. */
static size_t block_at(uint32_t offset) {
    size_t low = 0, high = block_count;
    while (low < high) {
        size_t middle = (low + high) / 2;
        if (blocks[middle] < offset) {
            low = middle + 1;
        } else {
            high = middle;
        }
    }
    return low;
}

/* Marks a block that is reached, puts its byte back, and has it run. */
static void reach(int number, siginfo_t *what, void *context) {
    greg_t *at = &((ucontext_t *)context)->uc_mcontext.gregs[REG_RIP];
    uint32_t offset = (uint32_t)((uint8_t *)*at - 1 - base);
    size_t block = block_at(offset);
    (void)number, (void)what;
    if (block == block_count || blocks[block] != offset) {
        abort();
    }
    map[block % MAP_SIZE] = 1;
    base[offset] = kept[block];
    *at -= 1;
}

/* Finds where the program lies, and makes its code writable. */
static int find_program(struct dl_phdr_info *info, size_t size, void *nothing) {
    (void)size, (void)nothing;
    base = (uint8_t *)info->dlpi_addr;
    for (int at = 0; at < info->dlpi_phnum; at++) {
        const ElfW(Phdr) *part = &info->dlpi_phdr[at];
        if (part->p_type == PT_DYNAMIC) {
            dynamic = (const ElfW(Dyn) *)(base + part->p_vaddr);
        }
        if (part->p_type == PT_LOAD && part->p_flags & PF_X) {
            uintptr_t begin = (uintptr_t)(base + part->p_vaddr) & ~(uintptr_t)4095;
            uintptr_t end = (uintptr_t)(base + part->p_vaddr + part->p_memsz);
            if (mprotect((void *)begin, end - begin, PROT_READ | PROT_WRITE | PROT_EXEC)) {
                leave(1);
            }
        }
    }
    return 1;
}

/* Puts a trap at each block. */
static void set_traps(const char *list) {
    struct sigaction action = {.sa_sigaction = reach, .sa_flags = SA_SIGINFO | SA_NODEFER};
    int file = open(list, O_RDONLY | O_CLOEXEC);
    ssize_t length = read(file, blocks, sizeof blocks);
    const char *shared = getenv("__AFL_SHM_ID");
    map = shared ? shmat(atoi(shared), NULL, 0) : calloc(1, MAP_SIZE);
    if (length <= 0 || map == (void *)-1 || sigaction(SIGTRAP, &action, NULL)) {
        leave(1);
    }
    close(file);
    block_count = (size_t)length / sizeof blocks[0];
    for (size_t at = 0; at < block_count; at++) {
        kept[at] = base[blocks[at]];
        base[blocks[at]] = TRAP;
    }
    map[0] = 1;
}

/* Forks a process for each run that the fuzzer asks for, and returns in it; without a fuzzer it returns at once. */
static void serve_forks(void) {
    uint32_t word = 0;
    if (write(TO_FUZZER, &word, sizeof word) != sizeof word) {
        return;
    }
    while (read(FROM_FUZZER, &word, sizeof word) == sizeof word) {
        int status = 0;
        pid_t child = fork();
        if (child == 0) {
            close(FROM_FUZZER);
            close(TO_FUZZER);
            return;
        }
        if (child < 0 || write(TO_FUZZER, &child, sizeof child) != sizeof child || waitpid(child, &status, 0) < 0 ||
            write(TO_FUZZER, &status, sizeof status) != sizeof status) {
            leave(1);
        }
    }
    leave(0);
}

/* A file in memory with these bytes; its number. */
static int file_of(const char *bytes, size_t length) {
    int file = memfd_create("input", 0);
    if (file < 0 || write(file, bytes, length) != (ssize_t)length) {
        leave(0);
    }
    return file;
}

/* Where the next line with the separator alone is, with the line feed before it, or the end. */
static char *next_separator(char *at, char *end) {
    char *found = at < end ? memmem(at, (size_t)(end - at), "\n\x1c\n", 3) : NULL;
    return found ? found : end;
}

/* Puts the files of the input into memory, and returns the end of its words. */
static char *take_files(char *end) {
    char *words_end = next_separator(input, end);
    char *at = words_end;
    for (int number = 0; at < end && number < MAX_FILES; number++) {
        char *begin = at + 3;
        at = next_separator(begin, end);
        snprintf(names[number], MAX_NAME, "/proc/self/fd/%d", file_of(begin, (size_t)(at - begin)));
    }
    return words_end;
}

/* A word, or the same with the name of the file for which it stands. */
static char *word_of(char *word, int place) {
    char *at = strrchr(word, '@');
    if (!at || at[1] < '1' || at[1] > '0' + MAX_FILES || at[2] || (at > word && at[-1] != '=')) {
        return word;
    }
    snprintf(expanded[place], MAX_WORD, "%.*s%s", (int)(at - word), word, names[at[1] - '1']);
    return expanded[place];
}

/* The words of the input: how many there are. */
static int take_words(char *end, char **words) {
    int count = 0;
    char *at = input;
    *end = 0;
    words[count++] = "finder";
    while (at < end && count < MAX_WORDS) {
        char *stop = memchr(at, '\n', (size_t)(end - at));
        if (stop) {
            *stop = 0;
        }
        words[count] = word_of(at, count);
        count++;
        at = stop ? stop + 1 : end;
    }
    words[count] = NULL;
    return count;
}

/* The bytes that were written to an output, and the last of them. */
static off_t written(int file, char *last) {
    off_t size = lseek(file, 0, SEEK_END);
    if (size > 0 && pread(file, last, 1, size - 1) != 1) {
        leave(0);
    }
    return size;
}

/* Whether an output has one line. */
static int is_line(int file, off_t size) {
    char text[65536];
    ssize_t count = pread(file, text, sizeof text, 0);
    return count == size && memchr(text, '\n', (size_t)count) == text + count - 1;
}

/* Has the program take these words: it does so before its main begins. */
static void give_words(int count, char **words, char **environment) {
    entry **begin = NULL;
    size_t size = 0;
    for (const ElfW(Dyn) *it = dynamic; it->d_tag != DT_NULL; it++) {
        if (it->d_tag == DT_INIT_ARRAY) {
            begin = (entry **)(base + it->d_un.d_ptr);
        } else if (it->d_tag == DT_INIT_ARRAYSZ) {
            size = it->d_un.d_val / sizeof *begin;
        }
    }
    for (size_t at = 0; begin && at < size; at++) {
        begin[at](count, words, environment);
    }
}

/* Ends the run, by a signal where what the program wrote does not fit its status. */
static void judge(int status) {
    char last = 0, last_error = 0;
    off_t out_size = written(out, &last), err_size = written(err, &last_error);
    int is_good = status == 0 && err_size == 0 && out_size > 0 && last == '\n';
    int is_refused = status >= 2 && status <= 10 && out_size == 0 && err_size > 0 && is_line(err, err_size);
    if (!is_good && !is_refused) {
        abort();
    }
    leave(0);
}

/* (the program ends by this call, with its status) */
void _exit(int status) {
    if (is_run) {
        judge(status);
    }
    leave(status);
}

static int run_input(int count, char **arguments, char **environment) {
    char *words[MAX_WORDS + 1];
    dl_iterate_phdr(find_program, NULL);
    set_traps(getenv("FUZZ_BLOCKS"));
    serve_forks();
    int file = count > 1 ? open(arguments[1], O_RDONLY) : 0;
    ssize_t length = file < 0 ? -1 : read(file, input, MAX_INPUT);
    out = memfd_create("out", 0);
    err = memfd_create("err", 0);
    if (length < 0 || out < 0 || err < 0 || dup2(out, 1) < 0 || dup2(err, 2) < 0) {
        leave(0);
    }
    int word_count = take_words(take_files(input + length), words);
    is_run = 1;
    give_words(word_count, words, environment);
    judge(program_main(word_count, words, environment));
    return 0;
}

int __libc_start_main(entry *main, int count, char **words, void (*init)(void), void (*fini)(void),
                      void (*loader_fini)(void), void *stack_end) {
    int (*real)(entry *, int, char **, void (*)(void), void (*)(void), void (*)(void), void *);
    *(void **)&real = dlsym(RTLD_NEXT, "__libc_start_main");
    program_main = main;
    return real(getenv("FUZZ_BLOCKS") ? run_input : main, count, words, init, fini, loader_fini, stack_end);
}
