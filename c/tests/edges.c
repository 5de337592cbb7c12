/*
 * The edges of the calls: null pointers, lists of every length, bytes that are no record, each rule, the largest records, each
 * allocation refused, and graphs of growing size on one object. It ends by status 0, or names the line that is wrong.
 *
 *     edges FILE...    planar_code files, of which the last graphs are taken
 */
#include <limits.h>

#include "calls.h"

static struct answer good, one;

static const uint8_t EDGE[] = {2, 2, 0, 1, 0};
static const uint8_t TRIANGLE[] = {3, 2, 3, 0, 3, 1, 0, 1, 2, 0};
static const planarbend_turns_along STRAIGHT[] = {{1, 2, 0}, {3, 2, 0}, {1, 3, 0}};
static const planarbend_dart ACROSS[] = {{1, 2}, {2, 1}}; /* one of them has each face on its left */

static struct call call_of(planarbend *object, const uint8_t *record, size_t size, int outer, int drawing,
                           const struct conditions *conditions) {
    struct call call = {object, record, size, outer, drawing, conditions, 0, 0, 0, 0};
    return call;
}

/* The result of a call, with all lists. */
static int result_of(struct call call) {
    set_rooms(&one, 0, 1);
    return ask(&call, &one);
}

static void look_at_words(void) {
    const char *words[] = {"ok",     "range", "loop",     "multi",   "asymmetric", "edgeless", "degree", "disconnected", "genus",
                           "record", "memory", "room",    "argument", "noshape",   "noedge",   "noouter", "wide",  "large",
                           "conflict"};
    for (int result = 0; result <= PLANARBEND_CONFLICT; result++) LOOK(strcmp(planarbend_word(result), words[result]) == 0);
    LOOK(planarbend_word(-1) == NULL && planarbend_word(INT_MIN) == NULL);
    LOOK(planarbend_word(PLANARBEND_CONFLICT + 1) == NULL && planarbend_word(INT_MAX) == NULL);
    LOOK(strcmp(planarbend_version(), VERSION) == 0 && strcmp(PLANARBEND_VERSION, VERSION) == 0);
    int major, minor, patch;
    LOOK(sscanf(VERSION, "%d.%d.%d", &major, &minor, &patch) == 3);
    LOOK(PLANARBEND_VERSION_NUMBER == 10000 * major + 100 * minor + patch);
}

/* The numbers and fields of the header, which programs are compiled with. */
static void look_at_numbers(void) {
    LOOK(PLANARBEND_OUTER_FIRST == 0 && PLANARBEND_OUTER_BEST == 1);
    LOOK(PLANARBEND_DRAWING_NONE == 0 && PLANARBEND_DRAWING_QUICK == 1 && PLANARBEND_DRAWING_SHORT == 2);
    LOOK(PLANARBEND_MAX_VERTICES == 1200 && PLANARBEND_MAX_EDGES == 2400 && PLANARBEND_MAX_DARTS == 4800);
    LOOK(PLANARBEND_MAX_FACES == 1202 && PLANARBEND_MAX_BENDS == 7204);
    LOOK(PLANARBEND_MAX_VERTICES8 == 255 && PLANARBEND_MAX_RECORD8 == 1 + 255 * 255);
    LOOK(offsetof(planarbend_dart, from) == 0 && offsetof(planarbend_dart, to) == 2);
    LOOK(offsetof(planarbend_turns_along, from) == 0 && offsetof(planarbend_turns_along, to) == 2);
    LOOK(offsetof(planarbend_turns_along, turns) == 4 && sizeof(planarbend_turns_along) == 6);
    LOOK(offsetof(planarbend_angle_at, from) == 0 && offsetof(planarbend_angle_at, to) == 2);
    LOOK(offsetof(planarbend_angle_at, angle) == 4 && sizeof(planarbend_angle_at) == 6);
    LOOK(offsetof(planarbend_request, size) == 0 && sizeof(planarbend_request) == 12 * sizeof(size_t));
    LOOK(offsetof(planarbend_lists, size) == 0 && sizeof(planarbend_lists) == 15 * sizeof(size_t));
    LOOK(offsetof(planarbend_cut, size) == 0 && sizeof(planarbend_cut) == 6 * sizeof(size_t));
    LOOK(offsetof(planarbend_turns, left) == 0 && offsetof(planarbend_turns, right) == 4);
    LOOK(offsetof(planarbend_point, x) == 0 && offsetof(planarbend_point, y) == 2);
}

/* Bounds for the counts of a graph, by its number of vertices. */
static void look_at_bounds(void) {
    for (uint32_t vertices = 0; vertices < 1300; vertices++) {
        const planarbend_counts room = planarbend_room(vertices), none = {0, 0, 0, 0, 0, 0};
        const planarbend_counts most = {vertices, 2 * vertices, vertices + 2, 6 * vertices + 4, 0, 6 * vertices + 4};
        int is_known = vertices > 0 && vertices <= PLANARBEND_MAX_VERTICES;
        LOOK(memcmp(&room, is_known ? &most : &none, sizeof room) == 0);
    }
    LOOK(planarbend_room(UINT32_MAX).vertices == 0 && planarbend_room(0x80000000u).edges == 0);
}

/* ---- results */

/* Every way to ask for a record that is not laid out has this result. */
static void look_at_refused(planarbend *object, const uint8_t *record, size_t size, int result) {
    const planarbend_dart nowhere = {9, 9};
    const planarbend_turns_along no_edge = {9, 9, 0};
    const planarbend_angle_at angles[] = {{1, 2, 1}, {1, 2, 9}};
    const struct conditions asked[] = {{NULL, 0, NULL, 0, NULL, 0}, {STRAIGHT, 1, angles, 1, ACROSS, 1},
                                       {&no_edge, 1, NULL, 0, &nowhere, 1}, {NULL, 0, angles, 2, NULL, 0}};
    for (int way = -1; way < 4; way++)
        for (int outer = 0; outer <= 1; outer++)
            for (int drawing = 0; drawing <= 2; drawing++) {
                const struct conditions *conditions = way < 0 ? NULL : asked + way;
                LOOK(result_of(call_of(NULL, record, size, outer, drawing, conditions)) == result);
                LOOK(result_of(call_of(object, record, size, outer, drawing, conditions)) == result);
            }
}

static void look_at_rules(planarbend *object) {
    static const struct {
        int rule;
        size_t size;
        uint8_t record[32];
    } broken[] = {
        {PLANARBEND_RANGE, 5, {2, 3, 0, 1, 0}},
        {PLANARBEND_LOOP, 3, {1, 1, 0}},
        {PLANARBEND_MULTI, 7, {2, 2, 2, 0, 1, 1, 0}},
        {PLANARBEND_ASYMMETRIC, 4, {2, 2, 0, 0}},
        {PLANARBEND_EDGELESS, 2, {1, 0}},
        {PLANARBEND_DEGREE, 17, {6, 2, 3, 4, 5, 6, 0, 1, 0, 1, 0, 1, 0, 1, 0, 1, 0}},
        {PLANARBEND_DISCONNECTED, 9, {4, 2, 0, 1, 0, 4, 0, 3, 0}},
        /* the complete graph on four vertices, in the torus */
        {PLANARBEND_GENUS, 17, {4, 2, 3, 4, 0, 1, 3, 4, 0, 1, 2, 4, 0, 1, 2, 3, 0}},
        {PLANARBEND_NOT_A_RECORD, 1, {0}},
        {PLANARBEND_NOT_A_RECORD, 4, {2, 2, 0, 1}},
        {PLANARBEND_NOT_A_RECORD, 6, {2, 2, 0, 1, 0, 0}},
    };
    for (size_t at = 0; at < sizeof broken / sizeof *broken; at++)
        look_at_refused(object, broken[at].record, broken[at].size, broken[at].rule);
}

/* The largest records: all 255 vertices with all others as neighbours. */
static void look_at_largest(planarbend *object) {
    static uint8_t record[PLANARBEND_MAX_RECORD8 + 1];
    size_t at = 0;
    memset(record, 0, sizeof record);
    record[at++] = 255;
    for (int vertex = 1; vertex <= 255; vertex++, at++)
        for (int neighbour = 1; neighbour <= 255; neighbour++)
            if (neighbour != vertex) record[at++] = (uint8_t)neighbour;
    LOOK(at == PLANARBEND_MAX_RECORD8);
    LOOK(result_of(call_of(object, record, at, 0, 2, NULL)) == PLANARBEND_DEGREE);
    LOOK(result_of(call_of(object, record, at - 1, 0, 2, NULL)) == PLANARBEND_NOT_A_RECORD);
    LOOK(result_of(call_of(object, record, at + 1, 0, 2, NULL)) == PLANARBEND_NOT_A_RECORD);
    record[at - 2] = 1;
    LOOK(result_of(call_of(object, record, at, 0, 2, NULL)) == PLANARBEND_MULTI);
    record[at - 2] = 255;
    LOOK(result_of(call_of(object, record, at, 0, 2, NULL)) == PLANARBEND_LOOP);
    record[at - 1] = 254, record[at] = 0; /* a list of 255 */
    LOOK(result_of(call_of(object, record, at + 1, 0, 2, NULL)) == PLANARBEND_NOT_A_RECORD);
}

static void look_at_arguments(planarbend *object) {
    const struct conditions none = {NULL, 0, NULL, 0, NULL, 0};
    const planarbend_angle_at angle = {1, 2, 1};
    const struct conditions nulls[] = {{NULL, 1, &angle, 1, ACROSS, 1}, {STRAIGHT, 1, NULL, 1, ACROSS, 1},
                                       {STRAIGHT, 1, &angle, 1, NULL, 1}};
    const int numbers[] = {INT_MIN, -3, -2, -1, 0, 1, 2, 3, 4, 256, 65536, INT_MAX};
    for (size_t outer = 0; outer < sizeof numbers / sizeof *numbers; outer++)
        for (size_t drawing = 0; drawing < sizeof numbers / sizeof *numbers; drawing++) {
            int is_known = numbers[outer] >= 0 && numbers[outer] <= 1 && numbers[drawing] >= 0 && numbers[drawing] <= 2;
            int result = is_known ? PLANARBEND_OK : PLANARBEND_ARGUMENT;
            LOOK(result_of(call_of(object, EDGE, sizeof EDGE, numbers[outer], numbers[drawing], NULL)) == result);
            LOOK(result_of(call_of(object, EDGE, sizeof EDGE, numbers[outer], numbers[drawing], &none)) == result);
        }
    LOOK(result_of(call_of(object, NULL, 5, 0, 0, NULL)) == PLANARBEND_ARGUMENT);
    LOOK(result_of(call_of(object, NULL, 0, 0, 0, NULL)) == PLANARBEND_NOT_A_RECORD);
    LOOK(result_of(call_of(object, EDGE, 0, 0, 0, NULL)) == PLANARBEND_NOT_A_RECORD);
    for (int way = 0; way < 3; way++)
        LOOK(result_of(call_of(object, TRIANGLE, sizeof TRIANGLE, 0, 1, nulls + way)) == PLANARBEND_ARGUMENT);
    planarbend_request request = {.size = sizeof request, .record8 = EDGE, .record8_count = sizeof EDGE, .drawing = 1};
    for (int kind = 0; kind < LISTS; kind++) {
        planarbend_lists lists = {.size = sizeof lists};
        planarbend_counts counts;
        size_t room = MOST_DARTS;
        memset(&counts, UNTOUCHED, sizeof counts);
        memcpy((char *)&lists + KINDS[kind].room, &room, sizeof room);
        LOOK(planarbend_layout(object, &request, &counts, &lists, NULL) == PLANARBEND_ARGUMENT);
        look_untouched(&counts, sizeof counts);
    }
    LOOK(planarbend_new(NULL) == PLANARBEND_ARGUMENT);
    planarbend_free(NULL);
}

/* A request whose members are all 0 but its size and its record. */
static void look_at_defaults(planarbend *object) {
    planarbend_counts counts;
    planarbend_request request = {.size = sizeof request, .record8 = TRIANGLE, .record8_count = sizeof TRIANGLE};
    LOOK(planarbend_layout(object, &request, &counts, NULL, NULL) == PLANARBEND_OK);
    LOOK(counts.vertices == 3 && counts.edges == 3 && counts.faces == 2 && counts.bends == 1 && counts.corners == 0);
    planarbend_lists lists = {.size = sizeof lists};
    planarbend_cut cut = {.size = sizeof cut};
    LOOK(planarbend_layout(object, &request, NULL, &lists, &cut) == PLANARBEND_OK);
    request.turns = STRAIGHT, request.turns_count = 3;
    LOOK(planarbend_layout(object, &request, NULL, &lists, &cut) == PLANARBEND_NO_SHAPE && cut.outer_face == 0);
    request.size--;
    LOOK(planarbend_layout(object, &request, NULL, NULL, NULL) == PLANARBEND_ARGUMENT);
}

/* The marks of a cut in lists of every length: the inner face of a triangle cannot turn far enough. */
static void look_at_cuts(planarbend *object) {
    planarbend_request request = {.size = sizeof request, .record8 = TRIANGLE, .record8_count = sizeof TRIANGLE,
                                  .turns = STRAIGHT, .turns_count = 3};
    for (size_t vertices = 0; vertices < 6; vertices++)
        for (size_t faces = 0; faces < 6; faces++) {
            uint8_t marks[2][8];
            memset(marks, UNTOUCHED, sizeof marks);
            planarbend_cut cut = {.size = sizeof cut, .vertices = marks[0], .vertices_room = vertices, .faces = marks[1],
                                  .faces_room = faces};
            LOOK(planarbend_layout(object, &request, NULL, NULL, &cut) == PLANARBEND_NO_SHAPE && cut.outer_face == 0);
            for (size_t at = 0; at < 8; at++) {
                LOOK(marks[0][at] == (at < vertices ? 0 : UNTOUCHED));
                LOOK(marks[1][at] == (at >= faces ? UNTOUCHED : at == 1));
            }
        }
}

/* Counts, lists and cut are written with or without the others. */
static void look_at_parts(planarbend *object) {
    const struct conditions asked[] = {{STRAIGHT, 2, NULL, 0, NULL, 0}, {STRAIGHT, 3, NULL, 0, NULL, 0}};
    for (int drawing = 0; drawing <= 2; drawing++)
        for (int way = 0; way < 3; way++)
            for (int left_out = 0; left_out < 8; left_out++) {
                struct call call = call_of(object, TRIANGLE, sizeof TRIANGLE, 0, drawing, way == 0 ? NULL : asked + way - 1);
                set_rooms(&good, 0, 1);
                LOOK(ask(&call, &good) == (way == 2 ? PLANARBEND_NO_SHAPE : PLANARBEND_OK));
                call.without_counts = left_out & 1, call.without_lists = left_out >> 1 & 1, call.without_cut = left_out >> 2;
                LOOK(result_of(call) == good.result);
                if (!call.without_counts) LOOK(memcmp(&one.counts, &good.counts, sizeof one.counts) == 0);
                if (!call.without_lists) LOOK(memcmp(one.places, good.places, PLACES) == 0);
                else look_untouched(one.places, PLACES);
                if (call.without_cut) continue;
                LOOK(memcmp(&one.marks, &good.marks, sizeof one.marks) == 0 && one.cut.outer_face == good.cut.outer_face);
            }
}

/* Straight edges and inner faces of a triangle. */
static void look_at_conditions(planarbend *object) {
    struct call call = call_of(object, TRIANGLE, sizeof TRIANGLE, 0, 1, NULL);
    struct conditions asked = {STRAIGHT, 0, NULL, 0, ACROSS, 0};
    call.conditions = &asked;
    for (asked.turns_count = 0; asked.turns_count <= 3; asked.turns_count++) {
        LOOK(result_of(call) == (asked.turns_count < 3 ? PLANARBEND_OK : PLANARBEND_NO_SHAPE));
        if (one.result == PLANARBEND_OK) LOOK(one.counts.bends == 1);
    }
    asked.turns_count = 0, asked.inner_count = 1;
    LOOK(result_of(call) == PLANARBEND_OK);
    uint32_t outer = one.counts.outer_face;
    asked.inner = ACROSS + 1;
    LOOK(result_of(call) == PLANARBEND_OK && one.counts.outer_face + outer == 1);
    asked.inner = ACROSS, asked.inner_count = 2;
    LOOK(result_of(call) == PLANARBEND_NO_OUTER);
}

/* Every pair of numbers, of 8 bits and more, as the ends of an edge, of an angle or of a face. */
static void look_at_names(planarbend *object) {
    static const uint16_t numbers[] = {0, 1, 2, 3, 4, 255, 256, 257, 258, 259, 511, 32767, 32768, 65281, 65535};
    enum { NUMBERS = sizeof numbers / sizeof *numbers };
    struct call call = call_of(object, TRIANGLE, sizeof TRIANGLE, 0, 1, NULL);
    for (int pair = 0; pair < NUMBERS * NUMBERS; pair++) {
        uint16_t from = numbers[pair / NUMBERS], to = numbers[pair % NUMBERS];
        const planarbend_turns_along turns[] = {{1, 2, 0}, {from, to, 0}};
        const planarbend_angle_at angle = {from, to, 1};
        const planarbend_dart face = {from, to};
        const struct conditions asked[] = {{turns, 2, NULL, 0, NULL, 0}, {NULL, 0, &angle, 1, NULL, 0}, {NULL, 0, NULL, 0, &face, 1}};
        int is_edge = from >= 1 && from <= 3 && to >= 1 && to <= 3 && from != to;
        for (int way = 0; way < 3; way++) {
            call.conditions = asked + way;
            LOOK(result_of(call) == (is_edge ? PLANARBEND_OK : PLANARBEND_NO_EDGE));
        }
    }
}

/* A cycle 1, 2, 3, 4 whose inner face is on the left of 1-2, 2-3, 3-4 and 4-1. */
static const uint8_t SQUARE[] = {4, 2, 4, 0, 3, 1, 0, 4, 2, 0, 1, 3, 0};

/* The result of a square with these conditions, its inner face inside. */
static int square_with(planarbend *object, const planarbend_turns_along *turns, size_t turns_count,
                       const planarbend_angle_at *angles, size_t angles_count) {
    const struct conditions asked = {turns, turns_count, angles, angles_count, ACROSS, 1};
    return result_of(call_of(object, SQUARE, sizeof SQUARE, 0, 1, &asked));
}

/* Angles and turns of a square, with the fewest bends by hand. */
static void look_at_given(planarbend *object) {
    for (uint16_t angle = 0; angle < 400; angle += angle < 8 ? 1 : 31) {
        const planarbend_angle_at angles[] = {{1, 2, angle}};
        LOOK(square_with(object, NULL, 0, angles, 1) == (angle >= 1 && angle <= 3 ? PLANARBEND_OK
            : angle == 4 ? PLANARBEND_NO_SHAPE : PLANARBEND_ARGUMENT));
        if (one.result != PLANARBEND_OK) continue;
        LOOK(one.counts.bends == (uint32_t)(angle == 3 ? 2 : angle == 2 ? 1 : 0) && one.lists.angles[0] == angle);
    }
    for (int turns = -40; turns <= 40; turns++) {
        const planarbend_turns_along along[] = {{1, 2, (int16_t)turns}, {2, 1, (int16_t)-turns}, {1, 2, (int16_t)turns}};
        LOOK(square_with(object, along, 3, NULL, 0) == PLANARBEND_OK);
        const planarbend_turns *found = &one.lists.turns[0];
        LOOK(found->left == (uint32_t)(turns > 0 ? turns : 0) && found->right == (uint32_t)(turns < 0 ? -turns : 0));
        /* the four angles inside are 1 to 3, so the edges turn 0 to 8 times to the left in all */
        LOOK(one.counts.bends == (uint32_t)(turns < 0 ? -2 * turns : turns > 8 ? 2 * turns - 8 : turns));
    }
}

/* Conditions that differ, and the order of what is refused. */
static void look_at_conflicts(planarbend *object) {
    static const planarbend_turns_along turns[] = {{1, 2, 2}, {2, 1, -2}, {2, 1, 2}, {1, 2, 0}, {1, 3, 0}};
    static const planarbend_angle_at angles[] = {{1, 2, 1}, {1, 2, 1}, {1, 2, 2}, {3, 2, 3}, {1, 3, 1}, {1, 2, 5}};
    static const planarbend_turns_along many[] = {{1, 2, 7204}, {2, 3, 1}, {1, 2, 7204}, {1, 2, INT16_MIN}, {1, 2, INT16_MAX}};
    LOOK(square_with(object, turns, 2, angles, 2) == PLANARBEND_OK);
    LOOK(square_with(object, turns, 3, NULL, 0) == PLANARBEND_CONFLICT);
    LOOK(square_with(object, turns + 2, 2, NULL, 0) == PLANARBEND_CONFLICT);
    LOOK(square_with(object, NULL, 0, angles, 3) == PLANARBEND_CONFLICT);
    LOOK(square_with(object, NULL, 0, angles + 2, 2) == PLANARBEND_NO_SHAPE); /* 2 inside and 3 outside of 4 in all */
    LOOK(square_with(object, turns + 2, 3, NULL, 0) == PLANARBEND_NO_EDGE);
    LOOK(square_with(object, turns + 2, 2, angles + 4, 1) == PLANARBEND_NO_EDGE);
    LOOK(square_with(object, turns + 2, 3, angles + 5, 1) == PLANARBEND_ARGUMENT); /* an angle that is none comes first */
    LOOK(square_with(object, many, 1, NULL, 0) == PLANARBEND_ROOM && one.counts.bends == 2 * 7204 - 8);
    LOOK(square_with(object, many, 2, NULL, 0) == PLANARBEND_ARGUMENT);
    LOOK(square_with(object, many, 3, NULL, 0) == PLANARBEND_ARGUMENT);
    LOOK(square_with(object, many + 3, 1, NULL, 0) == PLANARBEND_ARGUMENT);
    LOOK(square_with(object, many + 4, 1, NULL, 0) == PLANARBEND_ARGUMENT);
    LOOK(square_with(object, many + 3, 2, NULL, 0) == PLANARBEND_CONFLICT);
    struct conditions asked = {turns, 3, NULL, 0, ACROSS, 2};
    struct call call = call_of(object, SQUARE, sizeof SQUARE, 0, 1, &asked);
    LOOK(result_of(call) == PLANARBEND_CONFLICT);
    asked.turns = many, asked.turns_count = 2;
    LOOK(result_of(call) == PLANARBEND_ARGUMENT);
    asked.turns_count = 1;
    LOOK(result_of(call) == PLANARBEND_NO_OUTER);
}

/* ---- the length of lists and of records */

/* Each list alone with every room from 0 to one more than it needs, and all with a room too little in one. */
static void look_at_rooms(struct call call) {
    set_rooms(&good, 0, 1);
    LOOK(ask(&call, &good) == PLANARBEND_OK);
    for (int kind = 0; kind < LISTS; kind++) {
        size_t need = need_of(kind, &good.counts, call.drawing);
        for (size_t room = 0; room <= need + 1; room++)
            for (int with_others = 0; with_others < 2; with_others++) {
                set_rooms(&one, 0, with_others);
                one.rooms[kind] = room;
                ask(&call, &one);
                LOOK(one.result == (room > 0 && room < need ? PLANARBEND_ROOM : PLANARBEND_OK));
                LOOK(memcmp(&one.counts, &good.counts, sizeof one.counts) == 0);
                if (one.result != PLANARBEND_OK || need == 0 || room == 0) continue;
                size_t list = KINDS[kind].list;
                void *found, *wanted;
                memcpy(&found, (char *)&one.lists + list, sizeof found);
                memcpy(&wanted, (char *)&good.lists + list, sizeof wanted);
                LOOK(memcmp(found, wanted, need * KINDS[kind].item) == 0);
            }
    }
}

/* Each beginning of a record, and the record with each byte more, in memory of just that size. */
static void look_at_sizes(planarbend *object, const uint8_t *record, size_t size) {
    for (size_t length = 0; length <= size + 1; length++) {
        uint8_t *bytes = __real_malloc(length + (length == 0));
        LOOK(bytes != NULL);
        memcpy(bytes, record, length < size ? length : size);
        int more = length == size + 1;
        for (int byte = 0; byte < (more ? 256 : 1); byte += 51) {
            if (more) bytes[size] = (uint8_t)byte;
            const planarbend_request request = {.size = sizeof request, .record8 = bytes, .record8_count = length};
            int result = planarbend_layout(object, &request, NULL, NULL, NULL);
            LOOK(length == size ? result <= PLANARBEND_GENUS : result == PLANARBEND_NOT_A_RECORD);
        }
        __real_free(bytes);
    }
}

/* ---- memory */

static planarbend *new_object(int is_used) {
    planarbend *object;
    LOOK(planarbend_new(&object) == PLANARBEND_OK);
    const planarbend_request request = {.size = sizeof request, .record8 = TRIANGLE, .record8_count = sizeof TRIANGLE, .drawing = 2};
    if (is_used) LOOK(planarbend_layout(object, &request, NULL, NULL, NULL) == PLANARBEND_OK);
    return object;
}

/* One allocation refused after another, or all from one on, until a call meets none. Each call ends with PLANARBEND_MEMORY or
   with the same answer, and so does the next one, with no refusal. */
static void look_at_memory(struct call call, long step) {
    long before = held;
    call.object = NULL;
    set_rooms(&good, 0, 1);
    ask(&call, &good);
    for (int way = 0; way < 6; way++) {
        was_refused = 1;
        for (long nth = 0; was_refused; nth += step) {
            call.object = way % 3 == 0 ? NULL : new_object(way % 3 == 2);
            refused = nth, is_refused_on = way >= 3, was_refused = 0;
            result_of(call);
            refused = -1;
            LOOK(is_same(&one, &good) || (was_refused && one.result == PLANARBEND_MEMORY));
            result_of(call);
            LOOK(is_same(&one, &good));
            if (way % 3 == 0) LOOK(held == before);
            planarbend_free(call.object);
            LOOK(held == before);
        }
    }
}

static void look_at_no_object(void) {
    planarbend *object = (planarbend *)&good;
    refused = 0;
    LOOK(planarbend_new(&object) == PLANARBEND_MEMORY && object == NULL);
    refused = -1;
}

/* With an object, the same call asks the system for nothing from the second time on; without, all memory is freed. */
static void look_at_object(struct call call) {
    long before = held;
    size_t bytes = bytes_held;
    call.object = NULL;
    result_of(call);
    LOOK(held == before);
    call.object = new_object(0);
    for (int round = 0; round < 4; round++) {
        long until = asked;
        result_of(call);
        LOOK(round < 1 || asked == until);
        LOOK(held <= before + 2 && bytes_held <= bytes + (1 << 20));
    }
    planarbend_free(call.object);
    LOOK(held == before);
}

/* A path, or two paths side by side with an edge from each vertex to its neighbour. */
static size_t strip(uint8_t *record, int length, int width) {
    size_t at = 0;
    record[at++] = (uint8_t)(length * width);
    for (int row = 0; row < width; row++)
        for (int place = 0; place < length; place++, at++) {
            int vertex = row * length + place + 1;
            record[at] = 0;
            if (row > 0) record[at++] = (uint8_t)(vertex - length);
            if (place + 1 < length) record[at++] = (uint8_t)(vertex + 1);
            if (row + 1 < width) record[at++] = (uint8_t)(vertex + length);
            if (place > 0) record[at++] = (uint8_t)(vertex - 1);
            record[at] = 0;
        }
    return at;
}

/* Graphs of growing size on one object. */
static void look_at_growth(int runs) {
    uint32_t seed = 1;
    const struct conditions straight = {STRAIGHT, 1, NULL, 0, NULL, 0};
    for (int run = 0; run < runs; run++) {
        struct call call = call_of(new_object(0), NULL, 0, run % 2, run / 2 % 3, run / 6 % 2 == 0 ? NULL : &straight);
        for (int step = 0; step < 12; step++) {
            uint8_t record[MOST_VERTICES * 5];
            seed = seed * 1103515245 + 12345;
            int size = 2 + (int)(21 * (step * 1024 + (seed >> 16) % 1024) / 1024), width = 1 + (int)(seed >> 28) % 2;
            call.size = strip(record, size / width > 1 ? size / width : 2, width);
            call.record = record;
            LOOK(result_of(call) == PLANARBEND_OK && one.counts.bends == 0);
        }
        planarbend_free(call.object);
    }
}

/* ---- */

static void look_at_graph(planarbend *object, const uint8_t *record, size_t size, int is_small) {
    const planarbend_dart first = {1, record[1]};
    const planarbend_turns_along turns[] = {{1, record[1], 0}, {record[1], 1, 0}, {2, 99, 0}};
    const planarbend_angle_at angle = {1, record[1], 1};
    const struct conditions asked[] = {{turns, 1, NULL, 0, NULL, 0}, {NULL, 0, NULL, 0, &first, 1}, {turns, 3, NULL, 0, NULL, 0},
                                       {turns, 2, &angle, 1, NULL, 0}};
    for (int way = -1; way < 4; way++)
        for (int drawing = 0; drawing <= 2; drawing++) {
            struct call call = call_of(object, record, size, (way + drawing) % 2 != 0, drawing, way < 0 ? NULL : asked + way);
            look_at_object(call);
            if (is_small || (way <= 0 && drawing == 2)) look_at_memory(call, is_small ? 1 : 37);
            if (way < 0 && (is_small || drawing == 1)) look_at_rooms(call);
        }
    look_at_sizes(object, record, size);
}

int main(int count, char **words) {
    look_at_words();
    look_at_numbers();
    look_at_bounds();
    look_at_no_object();
    for (int way = 0; way < 2; way++) {
        planarbend *object = way == 0 ? NULL : new_object(0);
        look_at_rules(object);
        look_at_largest(object);
        look_at_arguments(object);
        look_at_parts(object);
        look_at_defaults(object);
        look_at_cuts(object);
        look_at_conditions(object);
        look_at_names(object);
        look_at_given(object);
        look_at_conflicts(object);
        planarbend_free(object);
    }
    const struct conditions straight = {STRAIGHT, 3, NULL, 0, NULL, 0};
    look_at_memory(call_of(NULL, TRIANGLE, sizeof TRIANGLE, 0, 1, &straight), 1);
    look_at_growth(96);
    look_at_graph(NULL, EDGE, sizeof EDGE, 1);
    look_at_graph(NULL, TRIANGLE, sizeof TRIANGLE, 1);
    planarbend *object = new_object(0);
    long graphs = 0;
    for (int file = 1; file < count; file++) {
        size_t size;
        uint8_t *bytes = read_all(words[file], &size);
        size_t at = HEADER, length = record_size(bytes + at, size - at);
        for (; at + length < size; length = record_size(bytes + at, size - at)) at += length;
        look_at_graph(object, bytes + at, length, bytes[at] < 9);
        graphs++;
        __real_free(bytes);
    }
    planarbend_free(object);
    LOOK(held == 0);
    printf("%ld graphs\n", graphs);
    return 0;
}
