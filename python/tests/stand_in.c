/* The library as planarbend.h has it, but with the answer that the record asks for: [1, RESULT, 0], or 0 for an edge
   that turns twice to the left. Of conditions it knows only one request. A cut marks the vertices 1 and 5 and the face 3.
   test_layouts.py compiles this. */
#include "planarbend.h"
#include <string.h>
static const char *const words[] = {"ok", "range", "loop", "multi", "asymmetric", "edgeless", "degree", "disconnected",
    "genus", "notarecord", "memory", "room", "argument", "noshape", "noedge", "noouter", "wide", "large", "conflict"};
static int held;
const char *planarbend_version(void) { return "7.8.9"; }
const char *planarbend_word(int result) { return words[result]; }
int planarbend_new(planarbend **made) { *made = (planarbend *)&held; return FULL; }
void planarbend_free(planarbend *freed) { held += freed == (planarbend *)&held; }
#if !OLD
planarbend_counts planarbend_room(uint32_t vertices) {
    planarbend_counts room = {vertices + 4, 2 * vertices, vertices + 3, 1, 0, 1}; /* fewer corners than there are */
    return room;
}
#endif
static int is_known(const planarbend_request *given) {
    static const planarbend_turns_along turns[] = {{1, 2, 0}, {2, 3, 0}, {3, 700, -40}};
    static const planarbend_angle_at angles[] = {{5, 6, 3}};
    static const planarbend_dart inner[] = {{4, 1}};
    return given->turns_count == 3 && memcmp(given->turns, turns, sizeof turns) == 0 && given->angles_count == 1
        && memcmp(given->angles, angles, sizeof angles) == 0 && given->inner_count == 1
        && memcmp(given->inner, inner, sizeof inner) == 0;
}
int planarbend_layout(planarbend *object, const planarbend_request *request, planarbend_counts *counts,
                      const planarbend_lists *lists, planarbend_cut *cut) {
    const uint8_t *record = request->record8;
    size_t size = request->record8_count;
    planarbend_counts found = {2, 1, 1, 2, 0, request->drawing ? 2 : 0};
    if (request->size != sizeof *request || (lists && lists->size != sizeof *lists) || (cut && cut->size != sizeof *cut)
        || object != (planarbend *)&held || request->record16_count || size != (record[0] == 1 ? 3u : 5u) || record[size - 1])
        return PLANARBEND_ARGUMENT;
    if (request->turns_count + request->angles_count + request->inner_count && !is_known(request)) return PLANARBEND_ARGUMENT;
    if (record[0] == 1 && record[1] == PLANARBEND_NO_SHAPE) {
        if (cut->vertices_room < 5 || cut->faces_room < 4) return PLANARBEND_ARGUMENT;
        cut->vertices[0] = cut->vertices[4] = cut->faces[3] = 1;
        cut->outer_face = 6;
    }
    if (record[0] == 1) return record[1];
    if (request->outer != PLANARBEND_OUTER_BEST) return PLANARBEND_ARGUMENT;
    *counts = found;
    if (!lists) return PLANARBEND_OK;
    if (lists->corners_room < found.corners) return PLANARBEND_ROOM;
    lists->angles[0] = 3; lists->angles[1] = 1;
    lists->turns[0].left = 2; lists->turns[0].right = 0;
    lists->turns[1].left = 0; lists->turns[1].right = 2;
    lists->vertex_prices[0] = -7; lists->vertex_prices[1] = 8; lists->face_prices[0] = -9;
    if (request->drawing) {
        lists->points[0].x = 1; lists->points[0].y = 20; lists->points[1].x = 300; lists->points[1].y = 65535;
        lists->corner_starts[0] = 0; lists->corner_starts[1] = 2;
        lists->corners[0].x = 5; lists->corners[0].y = 6; lists->corners[1].x = 7;
        lists->corners[1].y = (uint16_t)(8 + request->drawing);
    }
    return PLANARBEND_OK;
}
