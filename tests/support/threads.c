/* Counts the threads that a program starts. tests/support/threads.py compiles and preloads it, so that it takes the program's
   calls of pthread_create: each appends a byte to the file FINDER_THREADS, and starts the thread. */
#define _GNU_SOURCE
#include <dlfcn.h>
#include <fcntl.h>
#include <pthread.h>
#include <stdlib.h>
#include <unistd.h>

typedef int create(pthread_t *, const pthread_attr_t *, void *(*)(void *), void *);

int pthread_create(pthread_t *thread, const pthread_attr_t *attributes, void *(*start)(void *), void *argument) {
    create *next = (create *)dlsym(RTLD_NEXT, "pthread_create");
    int file = open(getenv("FINDER_THREADS"), O_WRONLY | O_APPEND | O_CREAT, 0600);
    if (file < 0 || write(file, "t", 1) != 1 || close(file) != 0) {
        abort();
    }
    return next(thread, attributes, start, argument);
}
