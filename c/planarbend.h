/*
 * planarbend.h: lays out embedded planar graphs with horizontal and vertical edges and the fewest bends.
 *
 * A call takes one record of planar_code, without a header: the number of vertices, then for each vertex its neighbours in
 * clockwise order and a 0. For the record's embedding and the chosen outer face it computes an orthogonal representation
 * with the fewest bends, prices that prove them fewest, and points that draw it without crossings. Conditions may give
 * angles, turns of edges, and faces that stay inside. planarbend's docs/FORMAT.md and docs/JSON.md define darts, edges,
 * faces, angles, turns and prices; the names here are those of the JSON lines.
 *
 *     #include <planarbend.h>
 *     #include <stdio.h>
 *
 *     int main(void) {
 *         const uint8_t triangle[] = {3, 2, 3, 0, 3, 1, 0, 1, 2, 0};
 *         const planarbend_turns_along straight[] = {{.from = 1, .to = 2, .turns = 0}};
 *         planarbend_point points[3];
 *         planarbend_counts counts;
 *         planarbend_request request = {
 *             .size = sizeof request, .record8 = triangle, .record8_count = sizeof triangle,
 *             .drawing = PLANARBEND_DRAWING_SHORT, .turns = straight, .turns_count = 1,
 *         };
 *         planarbend_lists lists = {.size = sizeof lists, .points = points, .points_room = 3};
 *         int result = planarbend_layout(NULL, &request, &counts, &lists, NULL);
 *         if (result != PLANARBEND_OK) return puts(planarbend_word(result)), 1;
 *         printf("%u bends, vertex 1 at %u, %u\n", (unsigned)counts.bends, points[0].x, points[0].y);
 *         return 0;
 *     }
 *
 * Compile with `cc ... $(pkg-config --cflags --libs planarbend)`, and with `-Wl,-rpath,FOLDER` if the library is in a FOLDER
 * that the system does not search. In C++, set the members one after another.
 *
 * The library keeps state only in `planarbend` objects: it has no global state, and uses no threads, locks or signals. Any
 * number of threads may call it at once, each with its own object or none. A call opens and writes no file, and reports
 * errors by its result, not by errno. Do not call it from a signal handler. A call needs up to 256 KB of stack.
 *
 * A struct that the caller fills begins with its size in bytes, and members that are 0 mean a default. Later versions may
 * add members at the end; they take the sizes of all versions from 2.0.0 on.
 */
#ifndef PLANARBEND_H
#define PLANARBEND_H

#include <stddef.h>
#include <stdint.h>

#ifdef __cplusplus
extern "C" {
#endif

/* The version of this header: 10,000 for each major version, 100 for each minor one, and 1 for each patch. */
#define PLANARBEND_VERSION "2.0.0"
#define PLANARBEND_VERSION_NUMBER 20000

/* Upper bounds for a graph. Only PLANARBEND_MAX_BENDS can be exceeded, and only with conditions. */
enum {
    PLANARBEND_MAX_VERTICES = 1200,
    PLANARBEND_MAX_EDGES = 2400,
    PLANARBEND_MAX_DARTS = 4800, /* two for each edge */
    PLANARBEND_MAX_FACES = 1202,
    PLANARBEND_MAX_BENDS = 7204
};

/* Upper bounds for a record with entries of 8 bits. */
enum {
    PLANARBEND_MAX_VERTICES8 = 255,
    PLANARBEND_MAX_RECORD8 = 65026 /* entries of any record; a record that is laid out has at most 1,276 */
};

/* Results of a call. */
enum {
    /* The graph is laid out. The counts and all requested lists are written. */
    PLANARBEND_OK = 0,
    /* 1 to 8: the first rule that the record breaks. Nothing is written. */
    PLANARBEND_RANGE = 1,        /* a neighbour is greater than n */
    PLANARBEND_LOOP = 2,         /* a vertex is its own neighbour */
    PLANARBEND_MULTI = 3,        /* a list contains a neighbour twice */
    PLANARBEND_ASYMMETRIC = 4,   /* v is in u's list, and u is not in v's */
    PLANARBEND_EDGELESS = 5,     /* all lists are empty */
    PLANARBEND_DEGREE = 6,       /* a list has more than 4 neighbours */
    PLANARBEND_DISCONNECTED = 7, /* some vertex cannot be reached from vertex 1 */
    PLANARBEND_GENUS = 8,        /* the lists embed the graph in a surface other than the sphere */
    /* The entries are not exactly one record: none, a part of a record, more than a record, or, of 8 bits, a list of over
       254 items; over 65,535 entries of 16 bits are no record. */
    PLANARBEND_NOT_A_RECORD = 9,
    /* Memory ran out. This says nothing about the record. */
    PLANARBEND_MEMORY = 10,
    /* Some list is too short. The counts are written, and give the sizes needed; no list is written. */
    PLANARBEND_ROOM = 11,
    /* An unknown size, outer face or drawing, a null pointer that is not allowed, or a record in both widths. For a record
       that breaks no rule also: a given angle is not 1 to 4, or all edges together are given more than
       PLANARBEND_MAX_BENDS turns, which comes after PLANARBEND_NO_EDGE and PLANARBEND_CONFLICT. */
    PLANARBEND_ARGUMENT = 12,
    /* 13 to 16 and 18 occur only with conditions. No shape with the chosen outer face has these angles and turns
       (PLANARBEND_OUTER_BEST: with any allowed outer face). The cut is written. */
    PLANARBEND_NO_SHAPE = 13,
    /* A dart of the conditions joins two vertices that are not neighbours. */
    PLANARBEND_NO_EDGE = 14,
    /* All faces must be inner faces. */
    PLANARBEND_NO_OUTER = 15,
    /* A shape was found, but its drawing does not fit 16-bit coordinates. */
    PLANARBEND_WIDE = 16,
    /* The record has more than 1,200 vertices. Only with entries of 16 bits. */
    PLANARBEND_LARGE = 17,
    /* Two conditions on one angle, or on one edge, differ. It comes after PLANARBEND_NO_EDGE, and before
       PLANARBEND_NO_OUTER and PLANARBEND_NO_SHAPE. */
    PLANARBEND_CONFLICT = 18
};

/* The choice of outer face, among the faces that may be it. */
enum {
    PLANARBEND_OUTER_FIRST = 0, /* the face with the most darts; among several, the one with the lowest number */
    PLANARBEND_OUTER_BEST = 1   /* the face that minimises bends; among several, the one with the lowest number */
};

/* The drawing to make. */
enum {
    PLANARBEND_DRAWING_NONE = 0,  /* none, which is fastest; points, corner_starts and corners are not written */
    PLANARBEND_DRAWING_QUICK = 1, /* quick to compute */
    PLANARBEND_DRAWING_SHORT = 2  /* shorter edges; with conditions, the shape is that of a quick drawing */
};

/* A dart: an edge in the direction from one end to the other. Vertices are numbered from 1. */
typedef struct planarbend_dart {
    uint16_t from;
    uint16_t to;
} planarbend_dart;

/* A condition on the angle at the head of a dart, on its left: it is `angle` right angles, 1 to 4. */
typedef struct planarbend_angle_at {
    uint16_t from;
    uint16_t to;
    uint16_t angle;
} planarbend_angle_at;

/* A condition on the turns along a dart: it turns left `turns` times and never right, or, if `turns` is negative, right
   -`turns` times and never left. An edge with 0 turns is straight. The reverse dart has -`turns`. */
typedef struct planarbend_turns_along {
    uint16_t from;
    uint16_t to;
    int16_t turns;
} planarbend_turns_along;

/*
 * What to lay out. A pointer may be null if its count is 0.
 *
 * A condition may be given more than once, that on an edge by both its darts. The shape has the fewest bends of all that
 * keep the conditions, and the prices prove that: the condition on prices does not apply to what is given.
 */
typedef struct planarbend_request {
    size_t size; /* sizeof (planarbend_request) */
    /* The record, in entries of 8 or of 16 bits; the count of the other one is 0. */
    const uint8_t *record8;
    size_t record8_count;
    const uint16_t *record16;
    size_t record16_count;
    int outer;   /* PLANARBEND_OUTER_... */
    int drawing; /* PLANARBEND_DRAWING_... */
    /* Conditions: turns along edges, angles, and faces that must not be the outer one, each by a dart with the face on its
       left. */
    const planarbend_turns_along *turns;
    size_t turns_count;
    const planarbend_angle_at *angles;
    size_t angles_count;
    const planarbend_dart *inner;
    size_t inner_count;
} planarbend_request;

/* The counts of a layout, which also give the sizes of its lists. */
typedef struct planarbend_counts {
    uint32_t vertices;
    uint32_t edges;
    uint32_t faces;
    uint32_t bends; /* the fewest for this embedding with this outer face, and under the conditions, if any */
    uint32_t outer_face; /* the number of the outer face, from 0 */
    uint32_t corners; /* the number of points where edges turn: equal to `bends`, or 0 without a drawing */
} planarbend_counts;

/* Returns upper bounds for the counts of a graph with this many vertices, so for the sizes of its lists: room for these is
   enough without conditions. `outer_face` is 0. For no vertices, or more than PLANARBEND_MAX_VERTICES, all are 0. */
planarbend_counts planarbend_room(uint32_t vertices);

/* A point: x grows to the east, y to the north. */
typedef struct planarbend_point {
    uint16_t x;
    uint16_t y;
} planarbend_point;

/* The numbers of left and right quarter turns of a dart. One of the two is 0. */
typedef struct planarbend_turns {
    uint32_t left;
    uint32_t right;
} planarbend_turns;

/*
 * The lists that a call writes, in the caller's memory. They must not overlap one another or anything else that the call
 * reads or writes.
 *
 * `room` counts items, not bytes. A list with room 0 is not requested, and its pointer may be null. Any other list
 * needs room for the number of items given here; otherwise the call returns PLANARBEND_ROOM. Items after those written
 * are unchanged.
 */
typedef struct planarbend_lists {
    size_t size; /* sizeof (planarbend_lists) */
    /* 2 * edges items: the angle of each dart, in right angles, 1 to 4. It lies at the dart's head, on its left. */
    uint8_t *angles;
    size_t angles_room;
    /* 2 * edges items: the turns of each dart. */
    planarbend_turns *turns;
    size_t turns_room;
    /* `vertices` items, vertex 1 first, and `faces` items, face 0 first: prices that prove the bends fewest. */
    int32_t *vertex_prices;
    size_t vertex_prices_room;
    int32_t *face_prices;
    size_t face_prices_room;
    /* `vertices` items: the point of each vertex, vertex 1 first. */
    planarbend_point *points;
    size_t points_room;
    /* edges + 1 items: item e is the number of corners of all edges before edge e; the last is the number of all
       corners. */
    uint32_t *corner_starts;
    size_t corner_starts_room;
    /* `corners` items. Edge e has items corner_starts[e] to corner_starts[e + 1] - 1, along its lesser dart. */
    planarbend_point *corners;
    size_t corners_room;
} planarbend_lists;

/*
 * A cut shows why no shape has the given angles and turns: it is a set whose vertices and faces require more turns than the
 * edges leaving it can absorb.
 *
 * Item v - 1 of `vertices` is 1 if vertex v is in the set, item f of `faces` is 1 if face f is; all other items are 0,
 * also those after the last vertex or face. A list with less room has the first items; with room 0 its pointer may be null.
 *
 * If a vertex is in the set, so is the face of each of its angles that is not given, since a right angle can go there. If a
 * face is in the set, so is each face across an edge whose turns are not given. A vertex has to turn 4 minus its degree, less
 * k - 1 for each given angle k; an inner face 4 minus its degree, plus k - 1 for each given angle k of its darts, less the
 * given turns of its darts (to the left; those to the right are negative); the outer face 8 less than that. The degree of
 * a face is its number of darts. For the whole set, these sum to more than 0. The sum takes `outer_face` as the outer
 * face: of the faces that may be the outer face, the one with the most darts; among several, the one with the lowest number.
 */
typedef struct planarbend_cut {
    size_t size; /* sizeof (planarbend_cut) */
    uint8_t *vertices;
    size_t vertices_room;
    uint8_t *faces;
    size_t faces_room;
    uint32_t outer_face; /* written by the call */
} planarbend_cut;

/*
 * An object holds memory for reuse by later calls, in proportion to the largest record so far and at most 5 MB. A call
 * with it allocates nothing if an earlier call with it, with the same `outer` and `drawing`, was for a graph and conditions
 * at least as large in every respect, whose record had entries of as many bits.
 */
typedef struct planarbend planarbend;

/*
 * Makes an object in *made. It returns PLANARBEND_OK; or PLANARBEND_MEMORY, with a null pointer in *made; or
 * PLANARBEND_ARGUMENT if `made` is null.
 */
int planarbend_new(planarbend **made);

/* Frees an object. A null pointer has no effect. */
void planarbend_free(planarbend *object);

/*
 * Lays out one record, and returns one of the results.
 *
 * The call uses the memory of `object`, which only one call may use at a time. If `object` is null, the call uses malloc
 * and frees everything before it returns. `counts`, `lists` and `cut` may be null if they are not needed. The cut is
 * written only with PLANARBEND_NO_SHAPE. The call writes only what its result says, above.
 */
int planarbend_layout(planarbend *object, const planarbend_request *request, planarbend_counts *counts,
                      const planarbend_lists *lists, planarbend_cut *cut);

/*
 * Returns the word of a result: "ok", the word of a rule as in reports ("range" to "genus"), "record", "memory",
 * "room", "argument", "noshape", "noedge", "noouter", "wide", "large" or "conflict"; null for any other number. The string
 * is static: do not free it.
 */
const char *planarbend_word(int result);

/* Returns the version of the library, such as "2.0.0". The string is static: do not free it. */
const char *planarbend_version(void);

#ifdef __cplusplus
}
#endif

#endif
