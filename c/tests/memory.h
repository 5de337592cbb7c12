/*
 * Memory for a test, linked with --wrap=malloc,--wrap=calloc,--wrap=realloc,--wrap=free. Allocations are counted and can be
 * refused, and those of 0 bytes give none. Each block has guard bytes behind it, which are looked at when it is freed; realloc
 * always moves a block; the bytes of a new or freed block are garbage. With EXACT, for valgrind and AddressSanitizer, blocks are those of the system.
 */
#ifndef MEMORY_H
#define MEMORY_H

#include <stdatomic.h>
#include <stdint.h>
#include <stdio.h>
#include <stdlib.h>
#include <string.h>

#define LOOK(holds) ((holds) ? (void)0 : wrong(__FILE__, __LINE__, #holds))

static void wrong(const char *file, int line, const char *what) {
    fprintf(stderr, "%s:%d: %s\n", file, line, what);
    exit(1);
}

static int is_filled(const void *start, size_t size, unsigned char byte) {
    const unsigned char *bytes = start;
    return size == 0 || (bytes[0] == byte && memcmp(bytes, bytes + 1, size - 1) == 0);
}

static long refused = -1;       /* the number of allocations that go well before one is refused; below 0: none is */
static int is_refused_on = 0;   /* whether all after that one are refused too */
static int was_refused = 0;     /* whether one was */
static atomic_long asked, held; /* allocations, and blocks that are not freed */
static atomic_size_t bytes_held; /* the bytes of these blocks */

void *__real_malloc(size_t size);
void *__real_calloc(size_t count, size_t size);
void *__real_realloc(void *block, size_t size);
void __real_free(void *block);
void *__wrap_malloc(size_t size);
void *__wrap_calloc(size_t count, size_t size);
void *__wrap_realloc(void *block, size_t size);
void __wrap_free(void *block);

static int is_refused(void) {
    asked++;
    if (refused != 0) {
        if (refused > 0) refused--;
        return 0;
    }
    if (!is_refused_on) refused = -1;
    was_refused = 1;
    return 1;
}

#ifdef EXACT

#include <malloc.h>

static void *counted(void *block) {
    held += block != NULL;
    bytes_held += malloc_usable_size(block);
    return block;
}

void *__wrap_malloc(size_t size) { return is_refused() ? NULL : counted(__real_malloc(size)); }
void *__wrap_calloc(size_t count, size_t size) { return is_refused() ? NULL : counted(__real_calloc(count, size)); }
void *__wrap_realloc(void *block, size_t size) {
    if (is_refused()) return NULL;
    held -= block != NULL;
    bytes_held -= malloc_usable_size(block);
    return counted(__real_realloc(block, size));
}
void __wrap_free(void *block) {
    held -= block != NULL;
    bytes_held -= malloc_usable_size(block);
    __real_free(block);
}

#else

enum { BEFORE = 16, BEHIND = 64, NEW = 0xCD, GUARD = 0x5C, FREED = 0xDD };

static void *block_of(size_t size) {
    unsigned char *start = __real_malloc(BEFORE + size + BEHIND);
    LOOK(start != NULL);
    memcpy(start, &size, sizeof size);
    memset(start + BEFORE, NEW, size);
    memset(start + BEFORE + size, GUARD, BEHIND);
    held += 1;
    bytes_held += size;
    return start + BEFORE;
}

static size_t size_of(const void *block) {
    size_t size;
    memcpy(&size, (const unsigned char *)block - BEFORE, sizeof size);
    return size;
}

void *__wrap_malloc(size_t size) { return is_refused() || size == 0 ? NULL : block_of(size); }
void *__wrap_calloc(size_t count, size_t size) {
    return is_refused() ? NULL : memset(block_of(count * size), 0, count * size);
}
void *__wrap_realloc(void *block, size_t size) {
    if (is_refused()) return NULL;
    void *other = size == 0 ? NULL : block_of(size);
    if (block == NULL) return other;
    if (size > 0) memcpy(other, block, size < size_of(block) ? size : size_of(block));
    __wrap_free(block);
    return other;
}
void __wrap_free(void *block) {
    if (block == NULL) return;
    size_t size = size_of(block);
    LOOK(is_filled((unsigned char *)block + size, BEHIND, GUARD));
    memset(block, FREED, size);
    held -= 1;
    bytes_held -= size;
    __real_free((unsigned char *)block - BEFORE);
}

#endif
#endif
