/*
 * Prints what the library answers to the graphs of a planar_code file, in the form of `planarbend layout --json`, but for
 * the last line; without a drawing the member "points" is null and "drawn" is "no".
 *
 *     answers OUTER DRAWING MEMORY THREADS FILE
 *
 * OUTER and DRAWING are numbers of planarbend.h. MEMORY is "object" or "malloc". Each of the threads, 1 to 64, answers all
 * graphs with an object of its own, and all must say the same: the status is 3 where they do not.
 */
#define _POSIX_C_SOURCE 200809L
#include <pthread.h>
#include <stdio.h>
#include <stdlib.h>
#include <string.h>

#include "planarbend.h"

enum { HEADER = 15, MOST_THREADS = 64 };

struct text {
    char *bytes;
    size_t length, room;
};

struct work {
    const uint8_t *records;
    size_t size;
    int outer, drawing, with_object;
    struct text text;
};

static void fail(const char *why) {
    fprintf(stderr, "answers: %s\n", why);
    exit(2);
}

static void put(struct text *text, const char *word) {
    size_t length = strlen(word);
    if (text->length + length + 1 > text->room) {
        text->room = 2 * (text->length + length + 1);
        text->bytes = realloc(text->bytes, text->room);
        if (text->bytes == NULL) fail("out of memory");
    }
    memcpy(text->bytes + text->length, word, length + 1);
    text->length += length;
}

static void put_number(struct text *text, long number) {
    char word[32];
    snprintf(word, sizeof word, "%ld", number);
    put(text, word);
}

static void put_at(struct text *text, const char *key, long number) {
    put(text, key);
    put_number(text, number);
}

static void put_points(struct text *text, const planarbend_point *points, size_t from, size_t to) {
    put(text, "[");
    for (size_t at = from; at < to; at++) {
        put(text, at > from ? ",[" : "[");
        put_number(text, points[at].x);
        put(text, ",");
        put_number(text, points[at].y);
        put(text, "]");
    }
    put(text, "]");
}

static void put_prices(struct text *text, const int32_t *prices, size_t count) {
    put(text, "[");
    for (size_t at = 0; at < count; at++) {
        if (at > 0) put(text, ",");
        put_number(text, prices[at]);
    }
    put(text, "]");
}

static void put_graph(struct text *text, long graph, const planarbend_counts *counts, const planarbend_lists *lists, int drawing) {
    put(text, "{\"angles\":[");
    for (size_t dart = 0; dart < 2 * (size_t)counts->edges; dart++) {
        if (dart > 0) put(text, ",");
        put_number(text, lists->angles[dart]);
    }
    put_at(text, "],\"bends\":", counts->bends);
    put(text, drawing ? ",\"drawn\":\"yes\"" : ",\"drawn\":\"no\"");
    put_at(text, ",\"f\":", counts->faces);
    put_at(text, ",\"file\":1,\"graph\":", graph);
    put_at(text, ",\"m\":", counts->edges);
    put_at(text, ",\"n\":", counts->vertices);
    if (drawing) {
        put(text, ",\"points\":{\"corners\":[");
        for (size_t edge = 0; edge < counts->edges; edge++) {
            if (edge > 0) put(text, ",");
            put_points(text, lists->corners, lists->corner_starts[edge], lists->corner_starts[edge + 1]);
        }
        put(text, "],\"vertices\":");
        put_points(text, lists->points, 0, counts->vertices);
        put(text, "}");
        if (counts->corners != counts->bends || lists->corner_starts[counts->edges] != counts->corners) fail("corners");
    } else {
        put(text, ",\"points\":null");
    }
    put(text, ",\"prices\":{\"faces\":");
    put_prices(text, lists->face_prices, counts->faces);
    put(text, ",\"vertices\":");
    put_prices(text, lists->vertex_prices, counts->vertices);
    put(text, "},\"status\":\"ok\",\"turns\":[");
    for (size_t dart = 0; dart < 2 * (size_t)counts->edges; dart++) {
        put(text, dart > 0 ? ",\"" : "\"");
        for (uint32_t left = lists->turns[dart].left; left > 0; left--) put(text, "L");
        for (uint32_t right = lists->turns[dart].right; right > 0; right--) put(text, "R");
        put(text, "\"");
    }
    put(text, "]}\n");
}

static void put_refused(struct text *text, long graph, int result) {
    put_at(text, "{\"file\":1,\"graph\":", graph);
    if (result == PLANARBEND_MEMORY) {
        put(text, ",\"status\":\"memory\"}\n");
    } else {
        put(text, ",\"rule\":\"");
        put(text, planarbend_word(result));
        put(text, "\",\"status\":\"refused\"}\n");
    }
}

/* How many bytes the record has that these begin with. */
static size_t record_size(const uint8_t *bytes, size_t size) {
    size_t lists = bytes[0], at = 1;
    while (lists > 0 && at < size)
        if (bytes[at++] == 0) lists--;
    return at;
}

/* Memory for a list, with other bytes than a call writes. */
static void *list_of(size_t size) {
    void *list = malloc(size);
    if (list == NULL) fail("out of memory");
    return memset(list, 0xA5, size);
}

/* Lists for graphs with at most these counts. */
static planarbend_lists lists_for(planarbend_counts most) {
    planarbend_lists lists = {.size = sizeof lists};
#define MAKE(name, items) lists.name##_room = (items), lists.name = list_of(lists.name##_room * sizeof *lists.name)
    MAKE(angles, 2 * most.edges);
    MAKE(turns, 2 * most.edges);
    MAKE(vertex_prices, most.vertices);
    MAKE(face_prices, most.faces);
    MAKE(points, most.vertices);
    MAKE(corner_starts, most.edges + 1);
    MAKE(corners, most.corners);
    return lists;
}

static void free_lists(const planarbend_lists *lists) {
    free(lists->angles), free(lists->turns), free(lists->vertex_prices), free(lists->face_prices);
    free(lists->points), free(lists->corner_starts), free(lists->corners);
}

static void *run(void *given) {
    struct work *work = given;
    planarbend *object = NULL;
    if (work->with_object && planarbend_new(&object) != PLANARBEND_OK) fail("no object");
    planarbend_lists lists = lists_for(planarbend_room(255));
    long graph = 0;
    for (size_t at = 0; at < work->size;) {
        size_t size = record_size(work->records + at, work->size - at);
        planarbend_counts counts;
        planarbend_request request = {.size = sizeof request, .record8 = work->records + at, .record8_count = size,
                                      .outer = work->outer, .drawing = work->drawing};
        int result = planarbend_layout(object, &request, &counts, &lists, NULL);
        if (result == PLANARBEND_OK) put_graph(&work->text, ++graph, &counts, &lists, work->drawing != PLANARBEND_DRAWING_NONE);
        else if (result == PLANARBEND_ROOM || result == PLANARBEND_ARGUMENT || result == PLANARBEND_NOT_A_RECORD) fail(planarbend_word(result));
        else put_refused(&work->text, ++graph, result);
        at += size;
    }
    free_lists(&lists);
    planarbend_free(object);
    return NULL;
}

static uint8_t *read_all(const char *name, size_t *size) {
    FILE *file = fopen(name, "rb");
    if (file == NULL || fseek(file, 0, SEEK_END) != 0) fail(name);
    long end = ftell(file);
    uint8_t *bytes = malloc((size_t)end + 1);
    rewind(file);
    if (bytes == NULL || fread(bytes, 1, (size_t)end, file) != (size_t)end || end < HEADER) fail(name);
    fclose(file);
    *size = (size_t)end;
    return bytes;
}

int main(int count, char **words) {
    if (count != 6) fail("wants OUTER DRAWING MEMORY THREADS FILE");
    int threads = atoi(words[4]);
    if (threads < 1 || threads > MOST_THREADS) fail("1 to 64 threads");
    size_t size;
    uint8_t *bytes = read_all(words[5], &size);
    struct work works[MOST_THREADS];
    pthread_t running[MOST_THREADS];
    for (int at = 0; at < threads; at++) {
        struct work work = {bytes + HEADER, size - HEADER, atoi(words[1]), atoi(words[2]), strcmp(words[3], "object") == 0, {NULL, 0, 0}};
        works[at] = work;
        if (pthread_create(&running[at], NULL, run, &works[at]) != 0) fail("no thread");
    }
    int status = 0;
    for (int at = 0; at < threads; at++) {
        pthread_join(running[at], NULL);
        if (works[at].text.length != works[0].text.length
            || (works[0].text.length > 0 && memcmp(works[at].text.bytes, works[0].text.bytes, works[0].text.length) != 0)) status = 3;
    }
    if (works[0].text.length > 0) fwrite(works[0].text.bytes, 1, works[0].text.length, stdout);
    for (int at = 0; at < threads; at++) free(works[at].text.bytes);
    free(bytes);
    return fflush(stdout) != 0 ? 2 : status;
}
