/*
 * What of the library is not proved: the call of planarbend.h, texts, and the three functions by which the proved code
 * asks for memory. crates/planarbend_c has the rest.
 */
#include "planarbend.h"

#include <stdbool.h>
#include <stdlib.h>
#include <string.h>

#if defined(PLANARBEND_REFUSE)
/* For tests: malloc and realloc that refuse. */
void *planarbend_test_malloc(size_t size);
void *planarbend_test_realloc(void *block, size_t size);
#define malloc planarbend_test_malloc
#define realloc planarbend_test_realloc
#endif

/* What should be one record, in entries of 8 bits or, if it is wide, of 16. */
struct source {
    const uint8_t *bytes;
    size_t byte_count;
    const uint16_t *entries;
    size_t entry_count;
    bool is_wide;
};

struct conditions {
    const planarbend_turns_along *turns;
    size_t turns_count;
    const planarbend_angle_at *angles;
    size_t angles_count;
    const planarbend_dart *inner;
    size_t inner_count;
};

/* What the proved call is asked for. */
struct request {
    struct source source;
    uint32_t outer;
    uint32_t drawing;
    struct conditions conditions;
};

/* Where it puts what it finds. */
struct lists {
    uint8_t *angles;
    size_t angles_room;
    planarbend_turns *turns;
    size_t turns_room;
    int32_t *vertex_prices;
    size_t vertex_prices_room;
    int32_t *face_prices;
    size_t face_prices_room;
    planarbend_point *points;
    size_t points_room;
    uint32_t *corner_starts;
    size_t corner_starts_room;
    planarbend_point *corners;
    size_t corners_room;
};

/* Where it puts a cut. */
struct cut_lists {
    uint8_t *vertices;
    size_t vertices_room;
    uint8_t *faces;
    size_t faces_room;
    uint32_t outer_face;
};

/* The proved call. A list of room 0 is left out; no pointer is null. */
uint32_t planarbend_c_layout(const struct request *request, planarbend_counts *counts, struct lists *lists,
                             struct cut_lists *cut);

/* ---- memory that is kept */

enum { ALIGNMENT = 16, HEAD = ALIGNMENT, FIRST_ROOM = 16 << 10, MOST_ROOM = 5 * (1 << 20) - 256 };

#if defined(__GNUC__)
/* From a shared library too it is found without a call. */
#define QUICKLY_FOUND __attribute__((tls_model("initial-exec")))
#else
#define QUICKLY_FOUND
#endif

struct planarbend {
    unsigned char *piece;
    size_t room; /* 0 if there is no piece */
};

/*
 * The piece of memory of the object that this thread's call has; all null if it has none.
 *
 * Blocks are cut off one after another, each after its size. A call returns all of them before it ends, so each call
 * begins with the whole piece; of blocks returned before, the last one is used again. If the piece is too small, malloc
 * gives the block, and the next call finds a greater piece.
 */
static _Thread_local struct {
    unsigned char *piece;
    unsigned char *next;
    unsigned char *end; /* HEAD + ALIGNMENT bytes before the end of the piece */
    size_t outside;     /* bytes of blocks that found no room */
} lent QUICKLY_FOUND;

struct rattle_given {
    bool is_given;
    void *block;
};

struct rattle_given rattle_alloc(size_t size, size_t alignment);
struct rattle_given rattle_realloc(void *block, size_t kept, size_t size, size_t alignment);
void rattle_dealloc(void *block);

static struct rattle_given given(void *block) {
    struct rattle_given result = {block != NULL, block};
    return result;
}

/* The bytes of a block of this size with its head: a multiple of ALIGNMENT. One of 0 bytes takes a byte, to lie inside. */
static size_t whole_of(size_t size) {
    return ((size > 0 ? size : 1) + HEAD + ALIGNMENT - 1) & ~(size_t)(ALIGNMENT - 1);
}

/* Whether a block of this size may begin there. No size is greater than PTRDIFF_MAX. */
static bool has_room(const unsigned char *start, size_t size) {
    return (ptrdiff_t)size < lent.end - start;
}

static struct rattle_given block_at(unsigned char *start, size_t size) {
    size_t whole = whole_of(size);
    memcpy(start, &whole, sizeof whole);
    lent.next = start + whole;
    struct rattle_given result = {true, start + HEAD};
    return result;
}

static struct rattle_given block_outside(size_t size) {
    lent.outside += size + HEAD + ALIGNMENT;
    return given(malloc(size > 0 ? size : 1));
}

static bool is_inside(const void *block) {
    return (uintptr_t)block - (uintptr_t)lent.piece < (uintptr_t)lent.next - (uintptr_t)lent.piece;
}

/* Whether no block lies after this one, which begins there with its head. */
static bool is_last(const unsigned char *start) {
    size_t whole;
    memcpy(&whole, start, sizeof whole);
    return start + whole == lent.next;
}

struct rattle_given rattle_alloc(size_t size, size_t alignment) {
    (void)alignment; /* at most 16 */
    return has_room(lent.next, size) ? block_at(lent.next, size) : block_outside(size);
}

struct rattle_given rattle_realloc(void *block, size_t kept, size_t size, size_t alignment) {
    if (!is_inside(block)) return given(realloc(block, size > 0 ? size : 1));
    unsigned char *start = (unsigned char *)block - HEAD;
    if (is_last(start) && has_room(start, size)) return block_at(start, size);
    struct rattle_given other = rattle_alloc(size, alignment);
    if (other.is_given) {
        memcpy(other.block, block, kept);
        rattle_dealloc(block);
    }
    return other;
}

void rattle_dealloc(void *block) {
    if (!is_inside(block)) {
        free(block);
        return;
    }
    unsigned char *start = (unsigned char *)block - HEAD;
    if (is_last(start)) lent.next = start;
}

/* Lends the memory of an object, if there is one, to the calls of this thread. */
static void lend(const planarbend *object) {
    bool has_piece = object != NULL && object->room > 0;
    lent.piece = lent.next = lent.end = has_piece ? object->piece : NULL;
    if (has_piece) lent.end += object->room - HEAD - ALIGNMENT;
    lent.outside = 0;
}

/* Ends that. If the piece was too small, the object has a greater one then, or none if memory ran out. */
static void take_back(planarbend *object) {
    size_t outside = lent.outside;
    lend(NULL);
    if (object == NULL || outside == 0 || object->room == MOST_ROOM) return;
    size_t room = object->room + outside;
    room = room > MOST_ROOM / 2 ? MOST_ROOM : room < FIRST_ROOM ? FIRST_ROOM : 2 * room;
    free(object->piece);
    object->piece = malloc(room);
    object->room = object->piece == NULL ? 0 : room;
}

int planarbend_new(planarbend **made) {
    if (made == NULL) return PLANARBEND_ARGUMENT;
    *made = calloc(1, sizeof **made);
    return *made == NULL ? PLANARBEND_MEMORY : PLANARBEND_OK;
}

void planarbend_free(planarbend *object) {
    if (object == NULL) return;
    free(object->piece);
    free(object);
}

/* ---- the call */

/* Takes a list of the caller, or `nothing` for one of length 0, which is neither read nor written; false if it is null. */
#define TAKE(list, count, from, from_count, nothing) \
    (((count) = (from_count)) > 0 ? ((list) = (from)) != NULL : ((list) = (nothing)) != NULL)

/* These take over what the caller gives; false if a size or a number is unknown, or a null pointer is not allowed. */

static bool take_source(struct source *own, const planarbend_request *theirs) {
    static const uint16_t nothing;
    own->is_wide = theirs->record16_count > 0;
    return (theirs->record8_count == 0 || theirs->record16_count == 0)
        && TAKE(own->bytes, own->byte_count, theirs->record8, theirs->record8_count, (const uint8_t *)&nothing)
        && TAKE(own->entries, own->entry_count, theirs->record16, theirs->record16_count, &nothing);
}

static bool take_conditions(struct conditions *own, const planarbend_request *theirs) {
    static const planarbend_turns_along no_turns;
    static const planarbend_angle_at no_angle;
    static const planarbend_dart no_dart;
    return TAKE(own->turns, own->turns_count, theirs->turns, theirs->turns_count, &no_turns)
        && TAKE(own->angles, own->angles_count, theirs->angles, theirs->angles_count, &no_angle)
        && TAKE(own->inner, own->inner_count, theirs->inner, theirs->inner_count, &no_dart);
}

static bool take_request(struct request *own, const planarbend_request *theirs) {
    if (theirs == NULL || theirs->size != sizeof *theirs || theirs->outer < 0 || theirs->drawing < 0) return false;
    own->outer = (uint32_t)theirs->outer;
    own->drawing = (uint32_t)theirs->drawing;
    return take_source(&own->source, theirs) && take_conditions(&own->conditions, theirs);
}

#define TAKE_LIST(list) TAKE(own->list, own->list##_room, theirs->list, theirs->list##_room, nothing)

static bool take_lists(struct lists *own, const planarbend_lists *theirs) {
    static const planarbend_lists none = {.size = sizeof none};
    void *nothing = own;
    if (theirs == NULL) theirs = &none;
    return theirs->size == sizeof *theirs && TAKE_LIST(angles) && TAKE_LIST(turns) && TAKE_LIST(vertex_prices)
        && TAKE_LIST(face_prices) && TAKE_LIST(points) && TAKE_LIST(corner_starts) && TAKE_LIST(corners);
}

static bool take_cut(struct cut_lists *own, const planarbend_cut *theirs) {
    static const planarbend_cut none = {.size = sizeof none};
    void *nothing = own;
    if (theirs == NULL) theirs = &none;
    own->outer_face = 0;
    return theirs->size == sizeof *theirs && TAKE_LIST(vertices) && TAKE_LIST(faces);
}

int planarbend_layout(planarbend *object, const planarbend_request *request, planarbend_counts *counts,
                      const planarbend_lists *lists, planarbend_cut *cut) {
    struct request asked;
    struct lists own;
    struct cut_lists found;
    planarbend_counts unwanted;
    if (!take_request(&asked, request) || !take_lists(&own, lists) || !take_cut(&found, cut)) return PLANARBEND_ARGUMENT;
    lend(object);
    uint32_t result = planarbend_c_layout(&asked, counts == NULL ? &unwanted : counts, &own, &found);
    take_back(object);
    if (result == PLANARBEND_NO_SHAPE && cut != NULL) cut->outer_face = found.outer_face;
    return (int)result;
}

planarbend_counts planarbend_room(uint32_t vertices) {
    planarbend_counts counts = {0, 0, 0, 0, 0, 0};
    if (vertices == 0 || vertices > PLANARBEND_MAX_VERTICES) return counts;
    counts.vertices = vertices;
    counts.edges = 2 * vertices;
    counts.faces = vertices + 2;
    counts.bends = counts.corners = 6 * vertices + 4;
    return counts;
}

/* ---- texts */

const char *planarbend_word(int result) {
    static const char *const words[] = {"ok",     "range",        "loop",  "multi",  "asymmetric", "edgeless", "degree",
                                        "disconnected", "genus", "record", "memory", "room",     "argument",
                                        "noshape", "noedge",  "noouter", "wide",   "large",  "conflict"};
    return result < 0 || result > PLANARBEND_CONFLICT ? NULL : words[result];
}

const char *planarbend_version(void) {
    return PLANARBEND_VERSION;
}
