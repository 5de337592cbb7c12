/* What a layout must be, by the definitions of docs/FORMAT.md, docs/JSON.md and planarbend.h. In C and C++. */
#ifndef LAWS_H
#define LAWS_H

#include <stdlib.h>
#include <string.h>

#include "bounds.h"

/* The graph of a record that breaks no rule, with its darts and faces. */
struct plane {
    int vertices, darts, edges, faces;
    int tail[MOST_DARTS], head[MOST_DARTS], back[MOST_DARTS], next[MOST_DARTS];
    int face[MOST_DARTS], lesser[MOST_EDGES], degree[MOST_FACES];
};

static void trace(struct plane *plane, const uint8_t *record) {
    static int number[256][256], first[257];
    memset(plane, 0, sizeof *plane);
    plane->vertices = record[0];
    for (int vertex = 1, at = 1; vertex <= plane->vertices; vertex++) {
        first[vertex] = plane->darts;
        for (; record[at] != 0; at++, plane->darts++) {
            plane->tail[plane->darts] = vertex;
            plane->head[plane->darts] = record[at];
            number[vertex][record[at]] = plane->darts;
        }
        at++;
        first[vertex + 1] = plane->darts;
    }
    for (int dart = 0; dart < plane->darts; dart++) {
        int back = plane->back[dart] = number[plane->head[dart]][plane->tail[dart]];
        plane->next[dart] = back + 1 < first[plane->tail[back] + 1] ? back + 1 : first[plane->tail[back]];
        plane->face[dart] = -1;
        if (dart < back) plane->lesser[plane->edges++] = dart;
    }
    for (int start = 0; start < plane->darts; start++) {
        if (plane->face[start] >= 0) continue;
        for (int dart = start; plane->face[dart] < 0; dart = plane->next[dart]) {
            plane->face[dart] = plane->faces;
            plane->degree[plane->faces]++;
        }
        plane->faces++;
    }
}

/* What conditions ask for: by dart its angle, or 0, whether its turns are given, and how many, to the left; and by face
   whether it is an inner one. Both darts of an edge have their turns. */
struct asked {
    uint8_t angle[MOST_DARTS], has_turns[MOST_DARTS], inner[MOST_FACES];
    int turns[MOST_DARTS];
};

/* The face with the most darts of those that may be outside, or -1. */
static int greatest_face(const struct plane *plane, const struct asked *asked) {
    int found = -1;
    for (int face = 0; face < plane->faces; face++)
        if (!asked->inner[face] && (found < 0 || plane->degree[face] > plane->degree[found])) found = face;
    return found;
}

/* ---- each of these returns what is wrong, or null */

static const char *fault_of_shape(const struct plane *plane, const struct asked *asked, const planarbend_counts *counts,
                                  const planarbend_lists *lists) {
    int at_vertex[256] = {0}, around[MOST_FACES] = {0};
    uint32_t bends = 0;
    if ((int)counts->vertices != plane->vertices || (int)counts->edges != plane->edges) return "vertices or edges";
    if ((int)counts->faces != plane->faces || (int)counts->outer_face >= plane->faces) return "faces";
    if (asked->inner[counts->outer_face]) return "the outer face must be an inner one";
    for (int dart = 0; dart < plane->darts; dart++) {
        planarbend_turns turns = lists->turns[dart], other = lists->turns[plane->back[dart]];
        if (lists->angles[dart] < 1 || lists->angles[dart] > 4) return "an angle";
        if (turns.left != other.right || turns.right != other.left || (turns.left > 0 && turns.right > 0)) return "turns";
        if (asked->has_turns[dart] && (int)turns.left - (int)turns.right != asked->turns[dart]) return "turns that are given";
        if (asked->angle[dart] > 0 && lists->angles[dart] != asked->angle[dart]) return "an angle that is given";
        at_vertex[plane->head[dart]] += lists->angles[dart];
        around[plane->face[dart]] += 2 - lists->angles[dart] + (int)turns.left - (int)turns.right;
        bends += turns.left;
    }
    for (int vertex = 1; vertex <= plane->vertices; vertex++)
        if (at_vertex[vertex] != 4) return "angles around a vertex";
    for (int face = 0; face < plane->faces; face++)
        if (around[face] != (face == (int)counts->outer_face ? -4 : 4)) return "turns around a face";
    return bends == counts->bends ? NULL : "the number of bends";
}

static const char *fault_of_prices(const struct plane *plane, const struct asked *asked, const planarbend_lists *lists) {
    for (int dart = 0; dart < plane->darts; dart++) {
        int32_t vertex = lists->vertex_prices[plane->head[dart] - 1], left = lists->face_prices[plane->face[dart]];
        int32_t right = lists->face_prices[plane->face[plane->back[dart]]];
        if (asked->angle[dart] == 0) {
            if (lists->angles[dart] < 4 && vertex < left) return "the prices at an angle below 4";
            if (lists->angles[dart] > 1 && vertex > left) return "the prices at an angle above 1";
        }
        if (asked->has_turns[dart]) continue;
        if (1 + left - right < 0) return "the prices across an edge";
        if (lists->turns[dart].left > 0 && 1 + left - right != 0) return "the prices across an edge that turns left";
    }
    return NULL;
}

struct piece {
    int left, right, low, high; /* of the edge's piece, with both ends */
    int edge, place, from, to;  /* from and to: the vertices in which it ends, or 0 */
};

/* The direction from a point to another: 0 east, 1 north, 2 west, 3 south; -1 if they are not in line. */
static int direction(planarbend_point from, planarbend_point to) {
    if ((from.x == to.x) == (from.y == to.y)) return -1;
    return from.y == to.y ? (from.x < to.x ? 0 : 2) : (from.y < to.y ? 1 : 3);
}

static struct piece piece_between(planarbend_point one, planarbend_point other) {
    struct piece piece = {one.x, other.x, one.y, other.y, 0, 0, 0, 0};
    if (other.x < one.x) piece.left = other.x, piece.right = one.x;
    if (other.y < one.y) piece.low = other.y, piece.high = one.y;
    return piece;
}

/* Whether two pieces meet in a point other than one where they may. */
static int do_meet(const struct piece *one, const struct piece *other, const planarbend_point *points) {
    int left = one->left > other->left ? one->left : other->left, right = one->right < other->right ? one->right : other->right;
    int low = one->low > other->low ? one->low : other->low, high = one->high < other->high ? one->high : other->high;
    if (left > right || low > high) return 0;
    if (left < right || low < high) return 1;
    if (one->edge == other->edge && abs(one->place - other->place) == 1) return 0;
    const int ends[2] = {one->from, one->to};
    for (int at = 0; at < 2; at++)
        if (ends[at] > 0 && (ends[at] == other->from || ends[at] == other->to))
            return points[ends[at] - 1].x != left || points[ends[at] - 1].y != low;
    return 1;
}

/* Sets the pieces and the first and last direction of each dart. */
static const char *find_pieces(const struct plane *plane, const planarbend_lists *lists, struct piece *pieces, int *count,
                               int *leaves, int *arrives) {
    *count = 0;
    for (int edge = 0; edge < plane->edges; edge++) {
        int dart = plane->lesser[edge], before = -1;
        uint32_t from = lists->corner_starts[edge], to = lists->corner_starts[edge + 1];
        planarbend_turns turns = lists->turns[dart];
        if (from > to || to - from != turns.left + turns.right) return "the number of an edge's corners";
        planarbend_point at = lists->points[plane->tail[dart] - 1];
        for (uint32_t corner = from; corner <= to; corner++) {
            planarbend_point end = corner < to ? lists->corners[corner] : lists->points[plane->head[dart] - 1];
            int now = direction(at, end);
            if (now < 0) return "a piece along no axis";
            if (before >= 0 && (now - before + 4) % 4 != (turns.left > 0 ? 1 : 3)) return "a turn";
            if (corner == from) leaves[dart] = now, arrives[plane->back[dart]] = (now + 2) % 4;
            struct piece piece = piece_between(at, end);
            piece.edge = edge, piece.place = (int)(corner - from);
            piece.from = corner == from ? plane->tail[dart] : 0, piece.to = corner == to ? plane->head[dart] : 0;
            pieces[(*count)++] = piece;
            before = now, at = end;
        }
        arrives[dart] = before, leaves[plane->back[dart]] = (before + 2) % 4;
    }
    return NULL;
}

/* Pieces of at most this many corners. */
enum { MOST_PIECES = 8192 };

static int by_left(const void *one, const void *other) {
    return ((const struct piece *)one)->left - ((const struct piece *)other)->left;
}

static const char *fault_of_drawing(const struct plane *plane, const planarbend_counts *counts, const planarbend_lists *lists,
                                    long *length) {
    static struct piece pieces[MOST_PIECES];
    static int leaves[MOST_DARTS], arrives[MOST_DARTS];
    int count;
    if (counts->corners != counts->bends || counts->corners > MOST_PIECES - MOST_EDGES) return "the number of corners";
    if (lists->corner_starts[0] != 0 || lists->corner_starts[plane->edges] != counts->corners) return "corner_starts";
    const char *fault = find_pieces(plane, lists, pieces, &count, leaves, arrives);
    if (fault != NULL) return fault;
    for (int dart = 0; dart < plane->darts; dart++)
        if ((leaves[plane->next[dart]] - arrives[dart] + 8) % 4 != (2 - lists->angles[dart] + 4) % 4) return "an angle drawn";
    *length = 0;
    qsort(pieces, (size_t)count, sizeof *pieces, by_left);
    for (int at = 0; at < count; at++) {
        *length += pieces[at].right - pieces[at].left + pieces[at].high - pieces[at].low;
        if ((uint32_t)pieces[at].right >= 3 * counts->vertices + 2 * counts->bends + 5) return "an x is too great";
        if ((uint32_t)pieces[at].high >= 3 * counts->vertices + 2 * counts->bends + 5) return "a y is too great";
        for (int other = at + 1; other < count && pieces[other].left <= pieces[at].right; other++)
            if (do_meet(&pieces[at], &pieces[other], lists->points)) return "two edges meet";
    }
    return NULL;
}

/* Whether the points alone show what is given: the turns along edges, and the angles between their first pieces. */
static const char *fault_of_given(const struct plane *plane, const struct asked *asked, const planarbend_lists *lists) {
    static int leaves[MOST_DARTS];
    for (int edge = 0; edge < plane->edges; edge++) {
        int dart = plane->lesser[edge], before = -1, turned = 0;
        planarbend_point at = lists->points[plane->tail[dart] - 1];
        for (uint32_t corner = lists->corner_starts[edge]; corner <= lists->corner_starts[edge + 1]; corner++) {
            planarbend_point end = lists->points[plane->head[dart] - 1];
            if (corner < lists->corner_starts[edge + 1]) end = lists->corners[corner];
            int now = direction(at, end);
            if (before < 0) leaves[dart] = now;
            else turned += (now - before + 4) % 4 == 1 ? 1 : -1;
            before = now, at = end;
        }
        leaves[plane->back[dart]] = (before + 2) % 4;
        if (!asked->has_turns[dart]) continue;
        int corners = (int)(lists->corner_starts[edge + 1] - lists->corner_starts[edge]);
        if (turned != asked->turns[dart] || corners != abs(turned)) return "turns that are given, drawn";
    }
    for (int dart = 0; dart < plane->darts; dart++) {
        int angle = (leaves[plane->back[dart]] - leaves[plane->next[dart]] + 3) % 4 + 1;
        if (asked->angle[dart] > 0 && angle != asked->angle[dart]) return "an angle that is given, drawn";
    }
    return NULL;
}

static const char *fault_of_cut(const struct plane *plane, const struct asked *asked, const planarbend_cut *cut) {
    int sum = 0, greatest = greatest_face(plane, asked);
    if ((int)cut->outer_face != greatest) return "the outer face of a cut";
    for (int at = 0; at < (int)cut->vertices_room; at++)
        if (cut->vertices[at] > (at < plane->vertices)) return "a vertex of a cut";
    for (int at = 0; at < (int)cut->faces_room; at++)
        if (cut->faces[at] > (at < plane->faces)) return "a face of a cut";
    for (int dart = 0; dart < plane->darts; dart++) {
        int face = plane->face[dart], across = plane->face[plane->back[dart]], head = plane->head[dart] - 1;
        int beyond = asked->angle[dart] > 0 ? asked->angle[dart] - 1 : 0;
        if (asked->angle[dart] == 0 && cut->vertices[head] && !cut->faces[face]) return "a right angle can leave a cut";
        if (!asked->has_turns[dart] && cut->faces[face] && !cut->faces[across]) return "a bend can leave a cut";
        sum -= (1 + beyond) * cut->vertices[head];
        if (cut->faces[face]) sum += beyond - (asked->has_turns[dart] ? asked->turns[dart] : 0);
    }
    for (int vertex = 0; vertex < plane->vertices; vertex++) sum += 4 * cut->vertices[vertex];
    for (int face = 0; face < plane->faces; face++)
        if (cut->faces[face]) sum += (face == greatest ? -4 : 4) - plane->degree[face];
    return sum > 0 ? NULL : "nothing has to leave a cut";
}

#endif
