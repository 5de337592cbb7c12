/*
 * How long, with how much stack and memory, the library answers the graphs of a planar_code file, also of up to 1,200 vertices.
 *
 *     speed OUTER DRAWING MEMORY ROUNDS FILE
 *
 * OUTER and DRAWING are numbers of planarbend.h; MEMORY is "object" or "malloc". After a byte 0, a record has entries of two
 * bytes. It prints the nanoseconds of the processor that a graph took in the fastest of ROUNDS rounds; the sum of all bends; of
 * more than one round also the longest time of a graph and the greatest stack of a call; and the memory that the object then
 * keeps, both in bytes.
 */
#define _GNU_SOURCE
#include <malloc.h>
#include <pthread.h>
#include <stdio.h>
#include <stdlib.h>
#include <string.h>
#include <time.h>

#include "planarbend.h"

enum { HEADER = 15, STACK = 1 << 20, FILLED = 0xA5 };

static planarbend_turns turns[PLANARBEND_MAX_DARTS];
static int32_t vertex_prices[PLANARBEND_MAX_VERTICES], face_prices[PLANARBEND_MAX_FACES];
static uint32_t corner_starts[PLANARBEND_MAX_EDGES + 1];
static planarbend_point points[PLANARBEND_MAX_VERTICES], corners[PLANARBEND_MAX_BENDS];
static uint8_t angles[PLANARBEND_MAX_DARTS];
#define LIST(name) .name = name, .name##_room = sizeof name / sizeof *name
static const planarbend_lists lists = {.size = sizeof lists, LIST(angles), LIST(turns), LIST(vertex_prices), LIST(face_prices),
                                       LIST(points), LIST(corner_starts), LIST(corners)};
static uint16_t entries[1 << 17];
static _Alignas(4096) unsigned char stack[STACK];
static planarbend *object;
static planarbend_counts counts;
static double took;

static double nanoseconds(void) {
    struct timespec now;
    clock_gettime(CLOCK_THREAD_CPUTIME_ID, &now);
    return 1e9 * (double)now.tv_sec + (double)now.tv_nsec;
}

static size_t allocated(void) {
    struct mallinfo2 seen = mallinfo2();
    return seen.uordblks + seen.hblkhd;
}

/* Sets the record that these bytes begin with, and returns how many bytes it has. */
static size_t set_record(planarbend_request *request, const uint8_t *bytes, size_t size) {
    size_t is_wide = bytes[0] == 0, at = is_wide, count = 0, left = 1;
    for (; left > 0 && at + is_wide < size && count < sizeof entries / sizeof *entries; at += 1 + is_wide) {
        entries[count] = (uint16_t)(bytes[at] | (is_wide ? bytes[at + 1] << 8 : 0));
        left = count == 0 ? entries[0] : left - (entries[count] == 0);
        count++;
    }
    request->record8 = is_wide ? NULL : bytes;
    request->record8_count = is_wide ? 0 : count;
    request->record16 = is_wide ? entries : NULL;
    request->record16_count = is_wide ? count : 0;
    return at;
}

/* Calls, and notes how long it took. */
static void *call(void *request) {
    double start = nanoseconds();
    if (planarbend_layout(object, request, &counts, &lists, NULL) != PLANARBEND_OK) counts.bends = 0;
    took = nanoseconds() - start;
    return NULL;
}

/* Calls on a stack that was filled, and returns how much of it was written. */
static size_t stack_of(planarbend_request *request) {
    pthread_t thread;
    pthread_attr_t options;
    size_t unused = 0;
    memset(stack, FILLED, STACK);
    pthread_attr_init(&options);
    pthread_attr_setstack(&options, stack, STACK);
    if (pthread_create(&thread, &options, call, request) != 0 || pthread_join(thread, NULL) != 0) exit(2);
    while (unused < STACK && stack[unused] == FILLED) unused++;
    return STACK - unused;
}

int main(int count, char **words) {
    FILE *file = count == 6 ? fopen(words[5], "rb") : NULL;
    if (file == NULL || fseek(file, 0, SEEK_END) != 0) return 2;
    size_t size = (size_t)ftell(file), most_stack = 0;
    uint8_t *bytes = malloc(size);
    rewind(file);
    if (bytes == NULL || size < HEADER || fread(bytes, 1, size, file) != size) return 2;
    size_t before = allocated();
    if (strcmp(words[3], "object") == 0 && planarbend_new(&object) != PLANARBEND_OK) return 2;
    planarbend_request request = {.size = sizeof request, .outer = atoi(words[1]), .drawing = atoi(words[2])};
    double least = 1e18, longest = 0;
    unsigned long bends = 0, graphs = 0;
    for (int round = atoi(words[4]) > 1 ? -1 : 0; round < atoi(words[4]) || round == 0; round++) {
        double start = nanoseconds();
        bends = graphs = 0;
        for (size_t at = HEADER; at < size; graphs++) {
            at += set_record(&request, bytes + at, size - at);
            size_t used = round < 0 ? stack_of(&request) : 0;
            if (used > most_stack) most_stack = used;
            if (round < 0 && took > longest) longest = took;
            if (round >= 0 && planarbend_layout(object, &request, &counts, &lists, NULL) == PLANARBEND_OK) bends += counts.bends;
        }
        double spent = nanoseconds() - start;
        if (round >= 0 && spent < least) least = spent;
    }
    printf("took=%.0f longest=%.0f bends=%lu stack=%zu memory=%zu\n", graphs > 0 ? least / (double)graphs : 0, longest, bends,
           most_stack, allocated() - before);
    planarbend_free(object);
    free(bytes);
    return 0;
}
