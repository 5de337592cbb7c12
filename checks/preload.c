/* Preloaded before a program, refuses one allocation or the start of one thread, and counts what the program takes.

   REFUSE=N          refuses allocation N, the first being 1, and says so in a line on standard error
   REFUSE_THREAD=N   refuses the start of thread N, and says so
   COUNT=1           at _exit, by which programs of the Rattle kit end, prints a line on standard error: the allocations
                     and their bytes; the bytes held then and at most; the files open then */
#define _GNU_SOURCE
#include <dlfcn.h>
#include <errno.h>
#include <fcntl.h>
#include <malloc.h>
#include <pthread.h>
#include <stdarg.h>
#include <stdatomic.h>
#include <stddef.h>
#include <stdio.h>
#include <stdlib.h>
#include <sys/syscall.h>
#include <unistd.h>

extern void *__libc_malloc(size_t);
extern void *__libc_calloc(size_t, size_t);
extern void *__libc_realloc(void *, size_t);
extern void __libc_free(void *);

static atomic_long calls, starts, bytes, held, most, files;

static int is_number(atomic_long *count, const char *name) {
    const char *number = getenv(name);
    return atomic_fetch_add(count, 1) + 1 == (number ? atol(number) : 0);
}

static void say(const char *text, size_t size) {
    if (write(2, text, size) < 0) abort();
}

static int is_refused(size_t size) {
    static const char said[] = "an allocation was refused\n";
    atomic_fetch_add(&bytes, (long)size);
    if (!is_number(&calls, "REFUSE")) return 0;
    say(said, sizeof said - 1);
    errno = ENOMEM;
    return 1;
}

static long size_of(void *block) { return block ? (long)malloc_usable_size(block) : 0; }

static void *add(void *block) {
    long size = size_of(block), now = atomic_fetch_add(&held, size) + size;
    long before = atomic_load(&most);
    while (before < now && !atomic_compare_exchange_weak(&most, &before, now)) {}
    return block;
}

void *malloc(size_t size) { return is_refused(size) ? NULL : add(__libc_malloc(size)); }

void *calloc(size_t number, size_t size) {
    return is_refused(number * size) ? NULL : add(__libc_calloc(number, size));
}

void *realloc(void *old, size_t size) {
    if (is_refused(size)) return NULL;
    long before = size_of(old);
    void *block = __libc_realloc(old, size);
    if (block || !size) atomic_fetch_sub(&held, before);
    return add(block);
}

void free(void *block) {
    atomic_fetch_sub(&held, size_of(block));
    __libc_free(block);
}

int pthread_create(pthread_t *thread, const pthread_attr_t *how, void *(*run)(void *), void *with) {
    static const char said[] = "a thread was refused\n";
    int (*start)(pthread_t *, const pthread_attr_t *, void *(*)(void *), void *) = dlsym(RTLD_NEXT, "pthread_create");
    if (!is_number(&starts, "REFUSE_THREAD")) return start(thread, how, run, with);
    say(said, sizeof said - 1);
    return EAGAIN;
}

int open(const char *path, int how, ...) {
    va_list rest;
    va_start(rest, how);
    int mode = how & O_CREAT ? va_arg(rest, int) : 0;
    va_end(rest);
    int file = (int)syscall(SYS_openat, AT_FDCWD, path, how, mode);
    if (file >= 0) atomic_fetch_add(&files, 1);
    return file;
}

int close(int file) {
    int (*closes)(int) = (int (*)(int))dlsym(RTLD_NEXT, "close");
    int status = closes(file);
    if (status == 0) atomic_fetch_sub(&files, 1);
    return status;
}

void _exit(int status) {
    char line[200];
    int size = snprintf(line, sizeof line, "allocations=%ld bytes=%ld held=%ld most=%ld files=%ld\n", calls, bytes, held,
                        most, files);
    if (getenv("COUNT")) say(line, (size_t)size);
    syscall(SYS_exit_group, status);
    __builtin_unreachable();
}
