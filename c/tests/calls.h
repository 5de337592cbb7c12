/*
 * Calls of the library whose lists lie between guard bytes. Each call is looked at: it writes what planarbend.h says of its
 * result, and nothing else.
 */
#ifndef CALLS_H
#define CALLS_H

#include <stddef.h>

#include "bounds.h"
#include "memory.h"

enum { LISTS = 7, DRAWN = 4, MOST_CORNERS = 6000, MORE = 3, UNTOUCHED = 0xA5, APART = 64, PLACES = 48 << 10, HEADER = 15 };

static const struct {
    size_t list, room, item, most;
} KINDS[LISTS] = {
#define KIND(name, type, most) {offsetof(planarbend_lists, name), offsetof(planarbend_lists, name##_room), sizeof(type), most}
    KIND(angles, uint8_t, MOST_DARTS),
    KIND(turns, planarbend_turns, MOST_DARTS),
    KIND(vertex_prices, int32_t, MOST_VERTICES),
    KIND(face_prices, int32_t, MOST_FACES),
    KIND(points, planarbend_point, MOST_VERTICES), /* DRAWN: from here on only with a drawing */
    KIND(corner_starts, uint32_t, MOST_EDGES + 1),
    KIND(corners, planarbend_point, MOST_CORNERS),
};

struct call {
    planarbend *object;
    const uint8_t *record;
    size_t size;
    int outer, drawing;
    const struct conditions *conditions; /* null if there are none */
    int without_counts, without_lists, without_cut;
    int is_wide; /* whether the entries of the record have 16 bits */
};

struct answer {
    int result;
    size_t rooms[LISTS];
    planarbend_lists lists;
    planarbend_counts counts;
    planarbend_cut cut;
    struct {
        uint8_t before[APART], vertices[MOST_VERTICES], apart[APART], faces[MOST_FACES], behind[APART];
    } marks;
    _Alignas(8) uint8_t places[PLACES];
};

/* How many items of a list are written with PLANARBEND_OK if there is room. */
static size_t need_of(int kind, const planarbend_counts *counts, int drawing) {
    const size_t needs[LISTS] = {2 * (size_t)counts->edges, 2 * (size_t)counts->edges, counts->vertices, counts->faces,
                                 counts->vertices, (size_t)counts->edges + 1, counts->corners};
    return kind >= DRAWN && drawing == PLANARBEND_DRAWING_NONE ? 0 : needs[kind];
}

static void set_rooms(struct answer *answer, size_t room, int with_most) {
    for (int kind = 0; kind < LISTS; kind++) answer->rooms[kind] = with_most ? KINDS[kind].most + MORE : room;
}

/* Gives each list its place. */
static void place_lists(struct answer *answer) {
    size_t at = APART;
    memset(&answer->lists, 0, sizeof answer->lists);
    answer->lists.size = sizeof answer->lists;
    for (int kind = 0; kind < LISTS; kind++) {
        void *list = answer->places + at;
        char *lists = (char *)&answer->lists;
        if (answer->rooms[kind] > 0) memcpy(lists + KINDS[kind].list, &list, sizeof list);
        memcpy(lists + KINDS[kind].room, &answer->rooms[kind], sizeof(size_t));
        at = (at + answer->rooms[kind] * KINDS[kind].item + 2 * APART) / APART * APART;
        LOOK(at < PLACES);
    }
}

static void look_untouched(const void *bytes, size_t size) { LOOK(is_filled(bytes, size, UNTOUCHED)); }

/* All bytes of the places but those of the items that were written. */
static void look_at_places(const struct call *call, const struct answer *answer) {
    size_t from = 0, at = APART;
    for (int kind = 0; kind < LISTS; kind++) {
        size_t room = answer->rooms[kind];
        size_t written = answer->result == PLANARBEND_OK && room > 0 && !call->without_lists
            ? need_of(kind, &answer->counts, call->drawing) : 0;
        LOOK(written <= room);
        look_untouched(answer->places + from, at - from);
        from = at + written * KINDS[kind].item;
        at = (at + room * KINDS[kind].item + 2 * APART) / APART * APART;
    }
    look_untouched(answer->places + from, PLACES - from);
}

static void look_at_result(const struct call *call, const struct answer *answer) {
    if (answer->result == PLANARBEND_OK || answer->result == PLANARBEND_ROOM) {
        int is_short = 0;
        for (int kind = 0; kind < LISTS && !call->without_counts; kind++) {
            size_t room = answer->rooms[kind];
            is_short |= room > 0 && room < need_of(kind, &answer->counts, call->drawing);
        }
        if (!call->without_counts) LOOK((answer->result == PLANARBEND_ROOM) == (is_short && !call->without_lists));
    } else {
        look_untouched(&answer->counts, sizeof answer->counts);
    }
    if (call->without_counts) look_untouched(&answer->counts, sizeof answer->counts);
    if (!call->without_counts || answer->result != PLANARBEND_OK) look_at_places(call, answer);
    look_untouched(answer->marks.before, APART);
    look_untouched(answer->marks.apart, APART);
    look_untouched(answer->marks.behind, APART);
    if (answer->result == PLANARBEND_NO_SHAPE && !call->without_cut) return;
    look_untouched(&answer->marks, sizeof answer->marks);
    look_untouched(&answer->cut.outer_face, sizeof answer->cut.outer_face);
}

/* What a call asks for. */
static planarbend_request request_of(const struct call *call) {
    static uint16_t entries[PLANARBEND_MAX_RECORD8 + 1];
    planarbend_request request = {.size = sizeof request, .outer = call->outer, .drawing = call->drawing};
    if (call->is_wide) {
        LOOK(call->size <= PLANARBEND_MAX_RECORD8);
        for (size_t at = 0; at < call->size; at++) entries[at] = call->record[at];
        request.record16 = entries, request.record16_count = call->size;
    } else {
        request.record8 = call->record, request.record8_count = call->size;
    }
    if (call->conditions == NULL) return request;
    const struct conditions *asked_for = call->conditions;
    request.turns = asked_for->turns, request.turns_count = asked_for->turns_count;
    request.angles = asked_for->angles, request.angles_count = asked_for->angles_count;
    request.inner = asked_for->inner, request.inner_count = asked_for->inner_count;
    return request;
}

/* Gives a cut its lists. */
static void place_cut(struct answer *answer) {
    planarbend_cut *cut = &answer->cut;
    memset(cut, UNTOUCHED, sizeof *cut);
    cut->size = sizeof *cut;
    cut->vertices = answer->marks.vertices, cut->vertices_room = sizeof answer->marks.vertices;
    cut->faces = answer->marks.faces, cut->faces_room = sizeof answer->marks.faces;
}

/* Calls the library. The rooms of the answer say how long its lists are. */
static int ask(const struct call *call, struct answer *answer) {
    memset(&answer->counts, UNTOUCHED, sizeof answer->counts);
    memset(&answer->marks, UNTOUCHED, sizeof answer->marks);
    memset(answer->places, UNTOUCHED, sizeof answer->places);
    place_lists(answer);
    place_cut(answer);
    const planarbend_lists before = answer->lists;
    const planarbend_cut cut_before = answer->cut;
    const planarbend_request request = request_of(call);
    planarbend_counts *counts = call->without_counts ? NULL : &answer->counts;
    const planarbend_lists *lists = call->without_lists ? NULL : &answer->lists;
    planarbend_cut *cut = call->without_cut ? NULL : &answer->cut;
    answer->result = planarbend_layout(call->object, &request, counts, lists, cut);
    LOOK(memcmp(&cut_before, &answer->cut, offsetof(planarbend_cut, outer_face)) == 0);
    LOOK(memcmp(&before, &answer->lists, sizeof before) == 0);
    look_at_result(call, answer);
    return answer->result;
}

/* Whether two answers are the same in all that was written. */
static int is_same(const struct answer *one, const struct answer *other) {
    return one->result == other->result && memcmp(&one->counts, &other->counts, sizeof one->counts) == 0
        && memcmp(&one->marks, &other->marks, sizeof one->marks) == 0 && one->cut.outer_face == other->cut.outer_face
        && memcmp(one->places, other->places, sizeof one->places) == 0;
}

/* ---- planar_code */

/* The size of the record that begins these bytes. */
static size_t record_size(const uint8_t *bytes, size_t size) {
    size_t lists = bytes[0], at = 1;
    while (lists > 0 && at < size)
        if (bytes[at++] == 0) lists--;
    return at;
}

static uint8_t *read_all(const char *name, size_t *size) {
    FILE *file = fopen(name, "rb");
    LOOK(file != NULL && fseek(file, 0, SEEK_END) == 0);
    *size = (size_t)ftell(file);
    LOOK(*size >= HEADER);
    uint8_t *bytes = __real_malloc(*size);
    rewind(file);
    LOOK(bytes != NULL && fread(bytes, 1, *size, file) == *size);
    fclose(file);
    return bytes;
}

#endif
