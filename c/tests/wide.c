/*
 * Records with entries of 16 bits and more than 255 vertices: cycles, and cycles with a leaf at each vertex, whose fewest bends
 * are known. It looks at counts, results, conditions, cuts and memory, and ends by status 0 or names the line that is wrong.
 */
#define _POSIX_C_SOURCE 200809L
#include <pthread.h>

#include "bounds.h"
#include "memory.h"

enum { MOST = PLANARBEND_MAX_VERTICES, LONGEST = 65535, STACK = 256 << 10, ROOM = 5 << 20 };

static uint16_t record[LONGEST + 1];
static size_t entries;
static planarbend_counts counts;
static uint8_t in_vertices[PLANARBEND_MAX_VERTICES], in_faces[PLANARBEND_MAX_FACES];
static planarbend_cut cut = {.size = sizeof cut, .vertices = in_vertices, .vertices_room = sizeof in_vertices, .faces = in_faces,
                             .faces_room = sizeof in_faces};

static void add(unsigned entry) { record[entries++] = (uint16_t)entry; }

/* A cycle; with leaves, each vertex of it has one, on the side of the face that the first darts have on their left. */
static void make_cycle(unsigned sides, int with_leaves) {
    entries = 0;
    add(with_leaves ? 2 * sides : sides);
    for (unsigned vertex = 1; vertex <= sides; vertex++) {
        add(vertex % sides + 1);
        add(vertex == 1 ? sides : vertex - 1);
        if (with_leaves) add(sides + vertex);
        add(0);
    }
    for (unsigned vertex = 1; with_leaves && vertex <= sides; vertex++) add(vertex), add(0);
}

static int called(planarbend *object, int outer, int drawing, const struct conditions *conditions) {
    planarbend_request request = {.size = sizeof request, .record16 = record, .record16_count = entries, .outer = outer,
                                  .drawing = drawing};
    memset(&counts, 0xA5, sizeof counts);
    if (conditions != NULL) {
        request.turns = conditions->turns, request.turns_count = conditions->turns_count;
        request.angles = conditions->angles, request.angles_count = conditions->angles_count;
        request.inner = conditions->inner, request.inner_count = conditions->inner_count;
    }
    return planarbend_layout(object, &request, &counts, NULL, &cut);
}

static void look_at_counts(planarbend *object, unsigned vertices, unsigned edges, unsigned faces, unsigned bends) {
    for (int outer = 0; outer <= 1; outer++)
        for (int drawing = 0; drawing <= 2; drawing++) {
            LOOK(called(object, outer, drawing, NULL) == PLANARBEND_OK);
            LOOK(counts.vertices == vertices && counts.edges == edges && counts.faces == faces && counts.bends == bends);
            LOOK(counts.corners == (drawing == PLANARBEND_DRAWING_NONE ? 0 : bends));
        }
}

static void look_at_sizes(planarbend *object) {
    for (unsigned vertices = 250; vertices <= MOST; vertices += vertices < 260 ? 1 : vertices < 1180 ? 92 : 4) {
        make_cycle(vertices, 0);
        look_at_counts(object, vertices, vertices, 2, 0);
        if (vertices % 2) continue;
        make_cycle(vertices / 2, 1); /* a right angle more outside than inside at each of four vertices, or a bend */
        look_at_counts(object, vertices, vertices, 2, 0);
    }
}

/* More vertices than the maximum, whatever follows, are too many; the rest is one record or not. */
static void look_at_results(planarbend *object) {
    make_cycle(MOST, 0);
    LOOK(called(object, 0, 0, NULL) == PLANARBEND_OK);
    entries--;
    LOOK(called(object, 0, 0, NULL) == PLANARBEND_NOT_A_RECORD);
    entries += 2, record[entries - 1] = 0;
    LOOK(called(object, 0, 0, NULL) == PLANARBEND_NOT_A_RECORD);
    for (unsigned order = MOST + 1; order <= 65535; order = order * 3 / 2) {
        record[0] = (uint16_t)order;
        LOOK(called(object, 0, 0, NULL) == PLANARBEND_LARGE);
        entries = 1;
        LOOK(called(object, 0, 0, NULL) == PLANARBEND_LARGE);
    }
    record[0] = 0;
    LOOK(called(object, 0, 0, NULL) == PLANARBEND_NOT_A_RECORD);
    entries = 0;
    LOOK(called(object, 0, 0, NULL) == PLANARBEND_NOT_A_RECORD);
    LOOK(called(object, 2, 0, NULL) == PLANARBEND_ARGUMENT && called(object, 0, 3, NULL) == PLANARBEND_ARGUMENT);
    make_cycle(MOST, 0);
    record[2] = MOST + 1;
    LOOK(called(object, 0, 0, NULL) == PLANARBEND_RANGE);
    record[2] = 1;
    LOOK(called(object, 0, 0, NULL) == PLANARBEND_LOOP);
}

/* A record has at most 65,535 entries. More are not copied: no memory is asked for. */
static void look_at_longest(planarbend *object) {
    entries = 0;
    while (entries < LONGEST - 1) add(1);
    add(0);
    LOOK(called(object, 0, 0, NULL) == PLANARBEND_LOOP);
    record[entries - 1] = 1, add(0);
    long before = asked;
    LOOK(called(object, 0, 0, NULL) == PLANARBEND_NOT_A_RECORD);
    record[0] = MOST + 1;
    LOOK(called(object, 0, 0, NULL) == PLANARBEND_LARGE);
    LOOK(asked == before);
}

/* A triangle far from vertex 1, on a path: its edges cannot all be straight, and the cut names its vertices or faces. */
static void look_at_conditions(planarbend *object) {
    const unsigned last = MOST - 2;
    const planarbend_turns_along sides[] = {{MOST - 2, MOST - 1, 0}, {MOST, MOST - 1, 0}, {MOST, MOST - 2, 0}};
    const planarbend_turns_along many[] = {{1, 2, 6004}, {MOST - 2, MOST - 1, 1200}, {3, 2, 1}}, nowhere = {1, MOST, 0};
    const planarbend_angle_at angles[] = {{2, 1, 4}, {MOST - 1, MOST - 2, 1}};
    const struct conditions straight = {sides, 3, NULL, 0, NULL, 0}, two = {sides, 2, angles, 2, NULL, 0};
    const struct conditions none = {&nowhere, 1, NULL, 0, NULL, 0}, most = {many, 2, NULL, 0, NULL, 0};
    const struct conditions more = {many, 3, NULL, 0, NULL, 0};
    entries = 0;
    add(MOST);
    for (unsigned vertex = 1; vertex < last; vertex++) {
        if (vertex > 1) add(vertex - 1);
        add(vertex + 1), add(0);
    }
    add(last - 1), add(last + 1), add(last + 2), add(0);
    add(last), add(last + 2), add(0);
    add(last), add(last + 1), add(0);
    memset(in_vertices, 0xA5, sizeof in_vertices), memset(in_faces, 0xA5, sizeof in_faces);
    LOOK(called(object, 0, 2, &two) == PLANARBEND_OK && counts.bends == 1);
    LOOK(called(object, 0, 0, &most) == PLANARBEND_OK && counts.bends >= 7204);
    LOOK(called(object, 0, 0, &more) == PLANARBEND_ARGUMENT);
    LOOK(called(object, 0, 2, &none) == PLANARBEND_NO_EDGE);
    LOOK(is_filled(in_vertices, sizeof in_vertices, 0xA5) && is_filled(in_faces, sizeof in_faces, 0xA5));
    LOOK(called(object, 0, 2, &straight) == PLANARBEND_NO_SHAPE && cut.outer_face == 0);
    for (int at = 0; at < PLANARBEND_MAX_VERTICES; at++) LOOK(in_vertices[at] <= 1);
    for (int at = 0; at < PLANARBEND_MAX_FACES; at++) LOOK(in_faces[at] == (at == 1));
}

/* An object's memory is bounded, and a second call of the same graph allocates nothing. */
static void look_at_memory(void) {
    planarbend *object;
    LOOK(planarbend_new(&object) == PLANARBEND_OK);
    for (int round = 0; round < 3; round++) {
        make_cycle(MOST / 2, 1);
        long before = asked;
        for (int drawing = 0; drawing <= 2; drawing++) LOOK(called(object, 1, drawing, NULL) == PLANARBEND_OK);
        LOOK(round < 2 || asked == before);
        LOOK(held <= 2 && bytes_held <= ROOM);
    }
    planarbend_free(object);
    was_refused = 1;
    make_cycle(300, 0);
    for (long nth = 0; was_refused; nth++) {
        was_refused = 0, refused = nth;
        int result = called(NULL, 0, 2, NULL);
        LOOK(result == (was_refused ? PLANARBEND_MEMORY : PLANARBEND_OK) || result == PLANARBEND_OK);
        refused = -1;
        LOOK(held == 0);
    }
}

static void *look_at_all(void *nothing) {
    planarbend *object;
    LOOK(planarbend_new(&object) == PLANARBEND_OK);
    look_at_sizes(object);
    look_at_results(object);
    look_at_results(NULL);
    look_at_longest(object);
    look_at_longest(NULL);
    look_at_conditions(object);
    look_at_conditions(NULL);
    planarbend_free(object);
    look_at_memory();
    return nothing;
}

/* All calls are made on a thread with a stack of 256 KB and what the thread itself takes. */
int main(void) {
    pthread_attr_t attributes;
    pthread_t thread;
    LOOK(pthread_attr_init(&attributes) == 0 && pthread_attr_setstacksize(&attributes, STACK + (32 << 10)) == 0);
    LOOK(pthread_create(&thread, &attributes, look_at_all, NULL) == 0 && pthread_join(thread, NULL) == 0);
    LOOK(held == 0);
    puts("passed");
    return 0;
}
