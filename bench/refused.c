/* Preloaded into a program: refuses one of its requests of memory, or one of the threads that it wants to make, and tells
 * at its end how many of each there were, over all threads, and how many threads were left then.
 *
 * REFUSE_MEMORY and REFUSE_THREAD are the numbers, from 1, of what is refused; 0 or nothing refuses none. REFUSE_THREADS_FROM
 * refuses every thread from this number on. REFUSED_TOLD names the file that the counts are written to. */
#define _GNU_SOURCE
#include <dlfcn.h>
#include <errno.h>
#include <fcntl.h>
#include <pthread.h>
#include <stdatomic.h>
#include <stdio.h>
#include <stdlib.h>
#include <string.h>
#include <sys/syscall.h>
#include <time.h>
#include <unistd.h>

extern void *__libc_malloc(size_t size);
extern void *__libc_calloc(size_t count, size_t size);
extern void *__libc_realloc(void *old, size_t size);
extern void *__libc_memalign(size_t alignment, size_t size);

static atomic_ulong requests, threads;
static unsigned long refused_request, refused_thread, refused_threads_from;
static atomic_int counting;

static unsigned long number_of(const char *name) {
    const char *text = getenv(name);
    return text ? strtoul(text, NULL, 10) : 0;
}

__attribute__((constructor)) static void begin(void) {
    refused_request = number_of("REFUSE_MEMORY");
    refused_thread = number_of("REFUSE_THREAD");
    refused_threads_from = number_of("REFUSE_THREADS_FROM");
    atomic_store(&counting, 1);
}

static int is_refused(void) {
    if (!atomic_load(&counting)) return 0;
    if (atomic_fetch_add(&requests, 1) + 1 != refused_request) return 0;
    errno = ENOMEM;
    return 1;
}

void *malloc(size_t size) { return is_refused() ? NULL : __libc_malloc(size); }

void *calloc(size_t count, size_t size) { return is_refused() ? NULL : __libc_calloc(count, size); }

void *realloc(void *old, size_t size) { return is_refused() ? NULL : __libc_realloc(old, size); }

void *memalign(size_t alignment, size_t size) { return is_refused() ? NULL : __libc_memalign(alignment, size); }

void *aligned_alloc(size_t alignment, size_t size) { return is_refused() ? NULL : __libc_memalign(alignment, size); }

int posix_memalign(void **place, size_t alignment, size_t size) {
    if (is_refused()) return ENOMEM;
    void *got = __libc_memalign(alignment, size);
    if (!got) return ENOMEM;
    *place = got;
    return 0;
}

int pthread_create(pthread_t *thread, const pthread_attr_t *attributes, void *(*run)(void *), void *argument) {
    static int (*make)(pthread_t *, const pthread_attr_t *, void *(*)(void *), void *);
    if (!make) *(void **)&make = dlsym(RTLD_NEXT, "pthread_create");
    unsigned long number = atomic_fetch_add(&threads, 1) + 1;
    if (number == refused_thread || (refused_threads_from && number >= refused_threads_from)) return EAGAIN;
    return make(thread, attributes, run, argument);
}

/* How many threads the process has, by the entries of its folder of tasks, less "." and "..". */
static long tasks(void) {
    char entries[8192];
    long count = 0, length;
    int folder = open("/proc/self/task", O_RDONLY | O_DIRECTORY);
    while ((length = syscall(SYS_getdents64, folder, entries, sizeof entries)) > 0)
        for (long at = 0; at < length; at += *(unsigned short *)(entries + at + 16)) count++;
    close(folder);
    return count - 2;
}

/* A thread that was joined may still be listed for a moment. */
static long tasks_left(void) {
    struct timespec pause = {0, 1000000};
    for (int turn = 0; turn < 1000 && tasks() > 1; turn++) nanosleep(&pause, NULL);
    return tasks();
}

__attribute__((destructor)) static void end(void) {
    const char *name = getenv("REFUSED_TOLD");
    if (!atomic_exchange(&counting, 0) || !name) return;
    char line[128];
    int length = snprintf(line, sizeof line, "%lu %lu %ld\n", atomic_load(&requests), atomic_load(&threads), tasks_left());
    int told = open(name, O_WRONLY | O_CREAT | O_TRUNC, 0666);
    if (write(told, line, length) != length) abort();
    close(told);
}

/* A program may end without destructors. */
void _exit(int status) {
    end();
    syscall(SYS_exit_group, status);
    __builtin_unreachable();
}
