/*
 * What c/planarbend.c passes to the proved call and back, and the memory that it lends them, with a call that stands in for
 * the proved one: it notes what it is given, takes blocks of memory, and writes to each byte of them. It ends by status
 * 0, or names the line that is wrong.
 */
#define _POSIX_C_SOURCE 200809L
#include <pthread.h>
#include <stdbool.h>

#include "memory.h"
#include "planarbend.h"

struct source {
    const uint8_t *bytes;
    size_t byte_count;
    const uint16_t *entries;
    size_t entry_count;
    bool is_wide;
};

struct conditions {
    const planarbend_turns_along *turns;
    size_t turns_count;
    const planarbend_angle_at *angles;
    size_t angles_count;
    const planarbend_dart *inner;
    size_t inner_count;
};

struct request {
    struct source source;
    uint32_t outer, drawing;
    struct conditions conditions;
};

struct lists {
    uint8_t *angles;
    size_t angles_room;
    planarbend_turns *turns;
    size_t turns_room;
    int32_t *vertex_prices;
    size_t vertex_prices_room;
    int32_t *face_prices;
    size_t face_prices_room;
    planarbend_point *points;
    size_t points_room;
    uint32_t *corner_starts;
    size_t corner_starts_room;
    planarbend_point *corners;
    size_t corners_room;
};

struct cut_lists {
    uint8_t *vertices;
    size_t vertices_room;
    uint8_t *faces;
    size_t faces_room;
    uint32_t outer_face;
};

struct rattle_given {
    bool is_given;
    void *block;
};

struct rattle_given rattle_alloc(size_t size, size_t alignment);
struct rattle_given rattle_realloc(void *block, size_t kept, size_t size, size_t alignment);
void rattle_dealloc(void *block);
uint32_t planarbend_c_layout(const struct request *request, planarbend_counts *counts, struct lists *lists,
                             struct cut_lists *cut);

/* What a call was given. */
struct given {
    struct request request;
    planarbend_counts *counts;
    struct lists lists;
    struct cut_lists cut;
};

static _Thread_local struct given last;
static uint32_t returned = 0;             /* the result of the next call */
static void (*work)(void) = NULL;         /* what it does with memory */
static const planarbend_counts COUNTED = {11, 12, 13, 14, 15, 16};

uint32_t planarbend_c_layout(const struct request *request, planarbend_counts *counts, struct lists *lists,
                             struct cut_lists *cut) {
    struct given given = {*request, counts, *lists, *cut};
    last = given;
    LOOK(request->source.bytes != NULL && request->source.entries != NULL && counts != NULL);
    LOOK(request->conditions.turns != NULL && request->conditions.angles != NULL && request->conditions.inner != NULL);
    LOOK(cut->vertices != NULL && cut->faces != NULL);
    cut->outer_face = 77;
    if (returned == PLANARBEND_OK || returned == PLANARBEND_ROOM) *counts = COUNTED;
    if (work != NULL) work();
    return returned;
}

/* ---- what is passed */

static const uint8_t BYTES[] = {2, 2, 0, 1, 0};
static const uint16_t ENTRIES[] = {2, 2, 0, 1, 0, 9};
static const planarbend_dart DARTS[3000];
static const planarbend_turns_along TURNS[3000];
static const planarbend_angle_at ANGLES[3000];

/* Places for lists. */
static struct {
    planarbend_turns turns[1];
    int32_t vertex_prices[1], face_prices[1];
    uint32_t corner_starts[1];
    planarbend_point points[1], corners[1];
    uint8_t angles[1];
} places;

/* Lists of which one has this room and the others none, or all have, with pointers that are null where there is no room. */
static planarbend_lists lists_of(int kind, size_t room) {
    planarbend_lists lists = {.size = sizeof lists};
#define GIVE(number, name)                                                                      \
    if (kind < 0 || kind == number) {                                                           \
        lists.name = room > 0 ? places.name : NULL;                                             \
        lists.name##_room = room;                                                               \
    }
    GIVE(0, angles) GIVE(1, turns) GIVE(2, vertex_prices) GIVE(3, face_prices) GIVE(4, points) GIVE(5, corner_starts)
    GIVE(6, corners)
    return lists;
}

static void look_at_lists(const planarbend_lists *wanted) {
#define PASSED(name)                                                                            \
    LOOK(last.lists.name##_room == wanted->name##_room && last.lists.name != NULL);             \
    LOOK(wanted->name##_room == 0 || last.lists.name == wanted->name)
    PASSED(angles);
    PASSED(turns);
    PASSED(vertex_prices);
    PASSED(face_prices);
    PASSED(points);
    PASSED(corner_starts);
    PASSED(corners);
}

/* A request for the bytes, or for the entries of 16 bits, and nothing else. */
static planarbend_request request_of(bool is_wide) {
    planarbend_request request = {.size = sizeof request};
    if (is_wide) request.record16 = ENTRIES, request.record16_count = 6;
    else request.record8 = BYTES, request.record8_count = sizeof BYTES;
    return request;
}

/* The entries are passed in one of two widths, and the other list is empty. */
static void look_at_source(bool is_wide) {
    const struct source *source = &last.request.source;
    LOOK(source->is_wide == is_wide);
    LOOK(source->byte_count == (is_wide ? 0 : sizeof BYTES) && (is_wide || source->bytes == BYTES));
    LOOK(source->entry_count == (is_wide ? 6 : 0) && (!is_wide || source->entries == ENTRIES));
}

enum { WAYS = 5 };

/* Sets the conditions of a request in one of these ways. */
static void ask_for(planarbend_request *request, int way) {
    static const size_t counts[WAYS][3] = {{0, 0, 0}, {3, 0, 0}, {0, 600, 0}, {0, 0, 1}, {3000, 2998, 2999}};
    request->turns_count = counts[way][0], request->turns = counts[way][0] > 0 ? TURNS : NULL;
    request->angles_count = counts[way][1], request->angles = counts[way][1] > 0 ? ANGLES + 1 : NULL;
    request->inner_count = counts[way][2], request->inner = counts[way][2] > 0 ? DARTS + 1 : NULL;
}

static void look_at_conditions(const planarbend_request *request) {
    const struct conditions *passed = &last.request.conditions;
    LOOK(passed->turns_count == request->turns_count && passed->angles_count == request->angles_count);
    LOOK(passed->inner_count == request->inner_count);
    LOOK(passed->turns_count == 0 || passed->turns == request->turns);
    LOOK(passed->angles_count == 0 || passed->angles == request->angles);
    LOOK(passed->inner_count == 0 || passed->inner == request->inner);
}

static void look_at_passed(planarbend *object, int way, const planarbend_lists *lists, planarbend_cut *cut) {
    for (int outer = 0; outer < 4; outer++)
        for (int drawing = 0; drawing < 4; drawing++)
            for (int result = 0; result <= 2 * PLANARBEND_CONFLICT + 1; result++) {
                bool is_wide = result > PLANARBEND_CONFLICT;
                int wanted = is_wide ? result - PLANARBEND_CONFLICT - 1 : result;
                planarbend_request request = request_of(is_wide);
                request.outer = outer, request.drawing = drawing;
                ask_for(&request, way);
                const planarbend_request before = request;
                planarbend_counts counts;
                memset(&counts, 0xA5, sizeof counts);
                memset(&last, 0, sizeof last);
                if (cut != NULL) cut->outer_face = 0xA5;
                returned = (uint32_t)wanted;
                LOOK(planarbend_layout(object, &request, &counts, lists, cut) == wanted && last.counts == &counts);
                LOOK(memcmp(&before, &request, sizeof request) == 0);
                look_at_source(is_wide);
                LOOK(last.request.outer == (uint32_t)outer && last.request.drawing == (uint32_t)drawing);
                planarbend_lists none = lists_of(-1, 0);
                look_at_lists(lists == NULL ? &none : lists);
                look_at_conditions(&request);
                LOOK(last.cut.vertices_room == (cut == NULL ? 0 : cut->vertices_room));
                LOOK(last.cut.faces_room == (cut == NULL ? 0 : cut->faces_room) && last.cut.outer_face == 0);
                if (cut == NULL) continue;
                LOOK(cut->vertices_room == 0 || last.cut.vertices == cut->vertices);
                LOOK(cut->faces_room == 0 || last.cut.faces == cut->faces);
                LOOK(cut->outer_face == (wanted == PLANARBEND_NO_SHAPE ? 77 : 0xA5));
            }
}

static void look_at_passing(planarbend *object) {
    uint8_t vertices[4], faces[5];
    planarbend_cut cut = {.size = sizeof cut, .vertices = vertices, .vertices_room = 4, .faces = faces, .faces_room = 5};
    planarbend_cut empty = {.size = sizeof empty};
    work = NULL;
    for (int way = 0; way < WAYS; way++)
        for (int kind = -1; kind < 7; kind++)
            for (size_t room = 0; room <= 2; room++) {
                planarbend_lists lists = lists_of(kind, room == 2 ? 70000 : room);
                look_at_passed(object, way, &lists, kind % 2 ? &cut : room > 0 ? &empty : NULL);
            }
    look_at_passed(object, 0, NULL, NULL);
    look_at_passed(object, 4, NULL, &cut);
    returned = PLANARBEND_NOT_A_RECORD; /* no entries and no counts: no pointer that is passed is null */
    planarbend_request request = {.size = sizeof request};
    LOOK(planarbend_layout(object, &request, NULL, NULL, NULL) == PLANARBEND_NOT_A_RECORD);
    LOOK(last.request.source.byte_count == 0 && last.request.source.entry_count == 0 && !last.request.source.is_wide);
    request.record8 = BYTES, request.record16 = ENTRIES;
    LOOK(planarbend_layout(object, &request, NULL, NULL, NULL) == PLANARBEND_NOT_A_RECORD);
    LOOK(last.request.source.byte_count == 0 && last.request.source.entry_count == 0);
    for (int is_wide = 0; is_wide < 2; is_wide++) { /* the other pointer is not null, and its count is 0 */
        request = request_of(is_wide);
        if (is_wide) request.record8 = BYTES;
        else request.record16 = ENTRIES;
        LOOK(planarbend_layout(object, &request, NULL, NULL, NULL) == PLANARBEND_NOT_A_RECORD);
        look_at_source(is_wide);
    }
}

/* ---- calls that are refused before the proved one */

static void look_at_refused(planarbend *object, const planarbend_request *request, const planarbend_lists *lists,
                            planarbend_cut *cut) {
    planarbend_counts counts;
    memset(&counts, 0xA5, sizeof counts);
    returned = 99;
    LOOK(planarbend_layout(object, request, &counts, lists, cut) == PLANARBEND_ARGUMENT);
    LOOK(is_filled(&counts, sizeof counts, 0xA5));
}

/* Sizes other than the struct's own, of which no other member is read. */
static void look_at_sizes(planarbend *object) {
    const planarbend_request good = request_of(false);
    LOOK(planarbend_layout(object, NULL, NULL, NULL, NULL) == PLANARBEND_ARGUMENT);
    for (size_t size = 0; size <= 2 * sizeof good; size++) {
        size_t *alone = __real_malloc(sizeof *alone);
        LOOK(alone != NULL);
        *alone = size;
        if (size != sizeof(planarbend_request)) look_at_refused(object, (const planarbend_request *)(void *)alone, NULL, NULL);
        if (size != sizeof(planarbend_lists)) look_at_refused(object, &good, (const planarbend_lists *)(void *)alone, NULL);
        if (size != sizeof(planarbend_cut)) look_at_refused(object, &good, NULL, (planarbend_cut *)(void *)alone);
        LOOK(*alone == size);
        __real_free(alone);
    }
}

static void look_at_nulls(planarbend *object) {
    const planarbend_request good = request_of(false);
    planarbend_request wrong[9];
    for (int at = 0; at < 9; at++) wrong[at] = request_of(at == 3);
    wrong[0].outer = -1, wrong[1].drawing = -1;
    wrong[2].record8 = NULL, wrong[3].record16 = NULL;
    wrong[4].record16 = ENTRIES, wrong[4].record16_count = 6; /* in both widths */
    wrong[5].turns_count = 1, wrong[6].angles_count = 1, wrong[7].inner_count = 1;
    wrong[8].record16_count = 1;
    for (int at = 0; at < 9; at++) look_at_refused(object, wrong + at, NULL, NULL);
    for (int kind = -1; kind < 7; kind++) {
        planarbend_lists lists = lists_of(kind, 5);
        lists.angles = NULL, lists.turns = NULL, lists.vertex_prices = lists.face_prices = NULL;
        lists.points = lists.corners = NULL, lists.corner_starts = NULL;
        look_at_refused(object, &good, &lists, NULL);
    }
    planarbend_cut cut = {.size = sizeof cut, .vertices_room = 1}, other = {.size = sizeof other, .faces_room = 1};
    look_at_refused(object, &good, NULL, &cut);
    look_at_refused(object, &good, NULL, &other);
}

/* ---- memory */

enum { BLOCKS = 40 };

struct block {
    unsigned char *bytes;
    size_t size;
    unsigned char fill;
};

static uint64_t state;
static size_t most;      /* the most bytes of a block that is asked for */
static int steps;
static bool in_order;    /* whether blocks are returned in the order opposite to that in which they were taken */
static bool may_refuse;

static uint32_t random_below(uint32_t bound) {
    state = state * 6364136223846793005u + 1442695040888963407u;
    return (uint32_t)(state >> 33) % bound;
}

static void look_at_block(const struct block *block, size_t size) { LOOK(is_filled(block->bytes, size, block->fill)); }

static void fill(struct block *block, struct rattle_given given, size_t size) {
    LOOK(given.is_given == (given.block != NULL));
    LOOK((uintptr_t)given.block % 16 == 0);
    block->bytes = given.block, block->size = size;
    if (size > 0) memset(block->bytes, block->fill, size);
}

static void change(struct block *block, size_t size) {
    size_t kept = random_below(2) ? block->size : random_below((uint32_t)block->size + 1);
    if (size > 0 && kept > size) kept = size;
    if (size == 0) kept = 0;
    struct rattle_given given = rattle_realloc(block->bytes, kept, size, 8);
    LOOK(given.is_given || may_refuse);
    if (!given.is_given) {
        look_at_block(block, block->size);
        return;
    }
    block->bytes = given.block;
    look_at_block(block, kept);
    fill(block, given, size);
}

/* Takes, changes and returns blocks at random; at last it returns all. */
static void take_blocks(void) {
    struct block blocks[BLOCKS];
    int count = 0;
    for (int step = 0; step < steps; step++) {
        uint32_t what = random_below(4);
        if (count < BLOCKS && (count == 0 || what < 2)) {
            struct block block = {NULL, 0, (unsigned char)(1 + random_below(250))};
            size_t size = random_below((uint32_t)most);
            struct rattle_given given = rattle_alloc(size, 1u << random_below(5));
            LOOK(given.is_given || may_refuse);
            if (!given.is_given) continue;
            fill(&block, given, size);
            blocks[count++] = block;
        } else if (what < 3 && count > 0) {
            int at = in_order ? count - 1 : (int)random_below((uint32_t)count);
            change(&blocks[at], random_below((uint32_t)most));
        } else if (count > 0) {
            int at = in_order ? count - 1 : (int)random_below((uint32_t)count);
            look_at_block(&blocks[at], blocks[at].size);
            rattle_dealloc(blocks[at].bytes);
            blocks[at] = blocks[--count];
        }
    }
    while (count > 0) {
        look_at_block(&blocks[count - 1], blocks[count - 1].size);
        rattle_dealloc(blocks[--count].bytes);
    }
}

/* A call with conditions of one of the ways. */
static void call_in(planarbend *object, int way) {
    planarbend_request request = request_of(way % 2);
    ask_for(&request, way);
    LOOK(planarbend_layout(object, &request, NULL, NULL, NULL) == PLANARBEND_OK);
}

static void call(planarbend *object) { call_in(object, 0); }

static planarbend *new_object(void) {
    planarbend *object;
    LOOK(planarbend_new(&object) == PLANARBEND_OK && object != NULL);
    return object;
}

/* Calls that want more and more memory, and then the last one again: it finds all in the piece. */
static void look_at_lent(uint64_t seed, size_t greatest, bool without_object) {
    long before = held;
    planarbend *object = without_object ? NULL : new_object();
    returned = 0, work = take_blocks;
    for (int round = 0; round < 6; round++) {
        state = seed + (uint64_t)round, most = 1 + greatest * (size_t)(round + 1) / 6, steps = 20 + 40 * (int)(seed % 4);
        call(object);
        LOOK(held <= before + 2 * !without_object);
    }
    for (int round = 0; round < 4; round++) {
        long until = asked;
        state = seed;
        call(object);
        if (round > 2 && !without_object && greatest <= 2000) LOOK(asked == until);
    }
    planarbend_free(object);
    LOOK(held == before);
}

/* Blocks that together fill the piece of an object to its last byte, in calls with a byte more from one to the next. */
static size_t filled;

static void fill_piece(void) {
    struct rattle_given one = rattle_alloc(filled, 8), other = rattle_alloc(1 + filled % 50, 8);
    LOOK(one.is_given && other.is_given);
    memset(one.block, 1, filled), memset(other.block, 2, 1 + filled % 50);
    one = rattle_realloc(one.block, filled, filled + filled % 70, 8);
    other = rattle_realloc(other.block, 1 + filled % 50, 1 + filled % 90, 8);
    LOOK(one.is_given && other.is_given);
    memset(one.block, 3, filled + filled % 70), memset(other.block, 4, 1 + filled % 90);
    rattle_dealloc(other.block);
    rattle_dealloc(one.block);
}

static void look_at_ends(void) {
    work = fill_piece;
    planarbend *object = new_object();
    filled = 100;
    call(object); /* now there is a piece of 16 KB */
    LOOK(held == 2 && bytes_held < 17000);
    for (filled = 15000; filled < 16700; filled++) {
        long until = asked;
        call(object);
        if (asked == until) continue;
        planarbend_free(object); /* the piece has grown: again from the least one */
        object = new_object();
        size_t next = filled;
        filled = 100;
        call(object);
        filled = next;
    }
    planarbend_free(object);
}

/* Blocks of one piece, one at a time or changed in place, many times over. */
static void take_one(void) {
    struct rattle_given one = rattle_alloc(9000, 8);
    LOOK(one.is_given);
    rattle_dealloc(one.block);
}

static void take_again(void) {
    for (int round = 0; round < 3000; round++) {
        struct rattle_given one = rattle_alloc(9000, 8), other = rattle_realloc(one.block, 0, 10000, 8);
        LOOK(one.is_given && other.is_given && one.block == other.block);
        rattle_dealloc(other.block);
    }
}

/* Many blocks at once. */
static void take_many(void) {
    struct rattle_given given[60];
    for (int at = 0; at < 60; at++) given[at] = rattle_alloc(5000, 8), LOOK(given[at].is_given);
    for (int at = 60; at-- > 0;) rattle_dealloc(given[at].block);
}

/* Calls in each way find room in the object's piece. */
static void look_for_room(planarbend *object) {
    long until = asked;
    for (int way = 0; way < WAYS; way++) call_in(object, way);
    LOOK(asked == until);
}

static void look_at_reuse(void) {
    planarbend *object = new_object();
    work = take_one;
    call(object);
    work = take_again;
    look_for_room(object);
    work = take_many;
    call(object);
    look_for_room(object);
    planarbend_free(object);
}

/* Bytes that a block left behind are not taken for the head of another: blocks of 32 bytes with heads that say 64. */
static void take_heads(void) {
    size_t head = 64;
    struct rattle_given given = rattle_alloc(2048, 8), blocks[4];
    LOOK(given.is_given);
    for (size_t at = 0; at < 2048; at += sizeof head) memcpy((unsigned char *)given.block + at, &head, sizeof head);
    rattle_dealloc(given.block);
    for (int at = 0; at < 4; at++) blocks[at] = rattle_alloc(16, 8), LOOK(blocks[at].is_given);
    memset(blocks[3].block, 9, 16);
    rattle_dealloc(blocks[2].block);
    blocks[2] = rattle_alloc(100, 8);
    LOOK(blocks[2].is_given);
    memset(blocks[2].block, 8, 100);
    LOOK(is_filled(blocks[3].block, 16, 9));
    for (int at = 4; at-- > 0;) rattle_dealloc(blocks[at].block);
}

static void look_at_heads(void) {
    planarbend *object = new_object();
    work = take_heads;
    for (int round = 0; round < 3; round++) call(object);
    planarbend_free(object);
}

/* Pieces have at most 5 MB with their object, and what a call is given besides is freed. */
static void take_much(void) {
    for (size_t size = 1000; size <= 15000000; size *= 3) {
        struct rattle_given given = rattle_alloc(size, 8);
        LOOK(given.is_given);
        memset(given.block, 7, size);
        rattle_dealloc(given.block);
    }
}

static void look_at_greatest(void) {
    planarbend *object = new_object();
    work = take_much;
    call(object);
    for (int round = 0; round < 3; round++) {
        work = round == 0 ? NULL : take_much;
        long before = held, until = asked;
        call(object);
        if (round == 0) LOOK(asked == until);
        LOOK(held == before);
    }
    work = NULL;
    planarbend_free(object);
    object = new_object();
    for (most = 1000; most < 8000000; most *= 2) {
        work = take_blocks, state = 5, steps = 40;
        call(object);
        LOOK(held <= 2 && bytes_held <= 5 << 20);
    }
    planarbend_free(object);
    LOOK(held == 0);
}

/* Each allocation refused, alone or with all that follow, in a new object or a used one; and then a good call. */
static void look_at_refusals(void) {
    returned = 0, work = take_blocks, may_refuse = true;
    for (int way = 0; way < 8; way++) {
        was_refused = 1;
        for (long nth = 0; was_refused; nth++) {
            planarbend *object = new_object();
            most = 600, steps = 60, in_order = way % 2, is_refused_on = way / 2 % 2;
            for (int round = way / 4; round < 3; round++) {
                state = 9, most = 600 + 3000 * (size_t)round;
                if (round == 1) refused = nth, was_refused = 0;
                call(object);
                refused = -1;
            }
            planarbend_free(object);
            LOOK(held == 0);
        }
    }
    is_refused_on = 0, may_refuse = in_order = false;
}

/* ---- threads */

static pthread_barrier_t together;
static _Thread_local unsigned char own;

/* Two calls at once, each in its own object's memory. */
static void take_together(void) {
    pthread_barrier_wait(&together);
    struct rattle_given given = rattle_alloc(4000, 8);
    LOOK(given.is_given);
    memset(given.block, own, 4000);
    pthread_barrier_wait(&together);
    LOOK(is_filled(given.block, 4000, own));
    rattle_dealloc(given.block);
    pthread_barrier_wait(&together);
}

static void *run_calls(void *object) {
    static atomic_int threads;
    own = (unsigned char)++threads;
    for (int round = 0; round < 20; round++) call(object);
    return NULL;
}

static void look_at_threads(void) {
    pthread_t threads[2];
    planarbend *objects[2] = {new_object(), new_object()};
    returned = 0, work = take_together;
    pthread_barrier_init(&together, NULL, 2);
    for (int at = 0; at < 2; at++) LOOK(pthread_create(&threads[at], NULL, run_calls, objects[at]) == 0);
    for (int at = 0; at < 2; at++) pthread_join(threads[at], NULL), planarbend_free(objects[at]);
    LOOK(held == 0);
}

int main(void) {
    planarbend *object = new_object();
    for (int way = 0; way < 2; way++) {
        look_at_passing(way == 0 ? NULL : object);
        look_at_sizes(way == 0 ? NULL : object);
        look_at_nulls(way == 0 ? NULL : object);
    }
    planarbend_free(object);
    for (uint64_t seed = 0; seed < 200; seed++) {
        in_order = seed % 3 == 0;
        look_at_lent(seed, seed % 5 == 0 ? 20000 : seed % 2 == 0 ? 2000 : 60, seed % 7 == 0);
    }
    in_order = false;
    look_at_ends();
    look_at_reuse();
    look_at_heads();
    look_at_greatest();
    look_at_refusals();
    look_at_threads();
    LOOK(held == 0);
    puts("passed");
    return 0;
}
