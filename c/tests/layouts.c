/*
 * Each graph of planar_code files, laid out in every way and under random and extreme conditions: what is written is looked
 * at by the definitions. No graph breaks a rule. It prints a line for each file: its name, the graphs, the sums of bends for
 * the first and for the best outer face, and the lengths of quick and of short drawings, without conditions and with them.
 *
 *     layouts SHARE FILE...    conditions are tried on one graph in SHARE; with SHARE 0, a few calls are made for each
 */
#include "calls.h"
#include "laws.h"

struct sums {
    long graphs, bends[2], length[2], length_kept[2];
};

static struct plane plane;
static struct answer one, other, quick; /* the lists of `quick` are those of `one` */
static const struct asked FREE;
static const char *what = "";

static void look_at_fault(const char *fault) {
    if (fault == NULL) return;
    fprintf(stderr, "layouts: %s: %s\n", what, fault);
    exit(1);
}

static uint32_t random_below(uint32_t bound) {
    static uint64_t state = 1;
    state = state * 6364136223846793005u + 1442695040888963407u;
    return (uint32_t)(state >> 33) % bound;
}

/* Looks at what was laid out; returns the length of the drawing, or 0. */
static long look_at_layout(const struct call *call, const struct asked *asked, const struct answer *answer) {
    long length = 0;
    look_at_fault(fault_of_shape(&plane, asked, &answer->counts, &answer->lists));
    look_at_fault(fault_of_prices(&plane, asked, &answer->lists));
    if (call->outer == PLANARBEND_OUTER_FIRST) LOOK((int)answer->counts.outer_face == greatest_face(&plane, asked));
    if (call->drawing == PLANARBEND_DRAWING_NONE) LOOK(answer->counts.corners == 0);
    else look_at_fault(fault_of_drawing(&plane, &answer->counts, &answer->lists, &length));
    if (call->drawing != PLANARBEND_DRAWING_NONE) look_at_fault(fault_of_given(&plane, asked, &answer->lists));
    return length;
}

/* A call with an object and one without say the same, the latter every other time with entries of 16 bits. Returns the length
   of the drawing. */
static long ask_both(const struct call *call, const struct asked *asked) {
    static int calls = 0;
    struct call without = *call;
    without.object = NULL, without.is_wide = calls++ % 2;
    ask(call, &one);
    ask(&without, &other);
    LOOK(is_same(&one, &other));
    if (one.result == PLANARBEND_NO_SHAPE) look_at_fault(fault_of_cut(&plane, asked, &one.cut));
    return one.result == PLANARBEND_OK ? look_at_layout(call, asked, &one) : 0;
}

/* Lays out in all three ways. A short drawing of the shape of the quick one is no longer. Returns whether it has that shape. */
static int ask_each(struct call *call, const struct asked *asked, long *lengths) {
    call->drawing = PLANARBEND_DRAWING_NONE;
    ask_both(call, asked);
    int result = one.result;
    call->drawing = PLANARBEND_DRAWING_QUICK;
    long length = ask_both(call, asked);
    quick = one;
    call->drawing = PLANARBEND_DRAWING_SHORT;
    long shorter = ask_both(call, asked);
    LOOK(quick.result == result && one.result == result);
    if (result != PLANARBEND_OK) return 1;
    LOOK(one.counts.bends == quick.counts.bends && one.counts.outer_face == quick.counts.outer_face);
    size_t shapes = (size_t)((const uint8_t *)one.lists.vertex_prices - one.places); /* angles and turns lie before that */
    int has_shape = memcmp(one.places, quick.places, shapes) == 0;
    LOOK(!has_shape || shorter <= length);
    lengths[0] += length, lengths[1] += shorter;
    return has_shape;
}

/* ---- conditions */

static planarbend_turns_along turns[2 * MOST_DARTS];
static planarbend_angle_at angles[2 * MOST_DARTS];
static planarbend_dart inner[4 * MOST_DARTS];

/* Puts the angle and the turns that are given of a dart into a list. */
static void name_given(struct conditions *made, const struct asked *asked, int dart) {
    uint16_t from = (uint16_t)plane.tail[dart], to = (uint16_t)plane.head[dart];
    planarbend_turns_along along = {from, to, (int16_t)asked->turns[dart]};
    planarbend_angle_at angle = {from, to, asked->angle[dart]};
    if (asked->has_turns[dart]) turns[made->turns_count++] = along;
    if (asked->angle[dart] > 0) angles[made->angles_count++] = angle;
}

/* Conditions that name each dart of the edges whose turns are given, and each dart of the inner faces, or only one of each;
   the faces in a random order. */
static struct conditions conditions_of(const struct asked *asked, int with_all) {
    struct conditions made = {turns, 0, angles, 0, inner, 0};
    uint8_t is_named[MOST_FACES] = {0};
    for (int round = 0; round < (with_all ? 2 : 1); round++)
        for (int dart = 0; dart < plane.darts; dart++) {
            struct asked once = *asked;
            if (!with_all && dart > plane.back[dart]) once.has_turns[dart] = 0;
            name_given(&made, &once, dart);
            if (!asked->inner[plane.face[dart]] || (!with_all && is_named[plane.face[dart]]++)) continue;
            planarbend_dart ends = {(uint16_t)plane.tail[dart], (uint16_t)plane.head[dart]};
            inner[made.inner_count++] = ends;
        }
    for (size_t at = made.inner_count; at > 1; at--) {
        size_t with = random_below((uint32_t)at);
        planarbend_dart held = inner[at - 1];
        inner[at - 1] = inner[with], inner[with] = held;
    }
    if (made.turns_count == 0) made.turns = NULL;
    if (made.angles_count == 0) made.angles = NULL;
    if (made.inner_count == 0) made.inner = NULL;
    return made;
}

static void set_turns(struct asked *asked, int dart, int number) {
    asked->has_turns[dart] = asked->has_turns[plane.back[dart]] = 1;
    asked->turns[dart] = number, asked->turns[plane.back[dart]] = -number;
}

/* Leaves only those edges free that lead from a face to one that was not met, along ever longer paths: then there is a shape,
   and it may have many bends. */
static void set_all_but_tree(struct asked *asked) {
    static int path[MOST_FACES], length;
    uint8_t is_met[MOST_FACES] = {1};
    memset(asked->has_turns, 1, sizeof asked->has_turns);
    for (length = 1, path[0] = 0; length > 0;) {
        int next = -1;
        for (int dart = 0; dart < plane.darts && next < 0; dart++)
            if (plane.face[dart] == path[length - 1] && !is_met[plane.face[plane.back[dart]]]) next = dart;
        if (next < 0) {
            length--;
            continue;
        }
        asked->has_turns[next] = asked->has_turns[plane.back[next]] = 0;
        path[length] = plane.face[plane.back[next]];
        is_met[path[length++]] = 1;
    }
}

enum { WAYS = 11 };

/* A few angles and turns of any kind. */
static void set_few(struct asked *asked) {
    static const uint8_t some_angles[] = {1, 1, 2, 2, 3, 4};
    static const int some_turns[] = {0, 0, 1, -1, 2, -2, 6};
    for (int round = 1 + (int)random_below(5); round > 0; round--) {
        int dart = (int)random_below((uint32_t)plane.darts);
        if (random_below(2) > 0) asked->angle[dart] = some_angles[random_below(6)];
        else set_turns(asked, dart, some_turns[random_below(7)]);
    }
}

/* One way to ask: 0 nothing, 1 to 4 some edges straight at random, 5 all, 6 all faces inside, 7 all but the last face, 8 all
   edges straight but those of a tree of faces, 9 a few angles and turns, 10 the same and some faces inside. */
static struct asked asked_in(int way) {
    struct asked asked = FREE;
    for (int dart = 0; dart < plane.darts; dart++)
        if (way == 5 || (way > 0 && way < 5 && random_below(12) < (uint32_t)way)) set_turns(&asked, dart, 0);
    for (int face = 0; face < plane.faces; face++)
        asked.inner[face] = way == 6 || (way == 7 && face < plane.faces - 1) || (way < 5 && random_below(6) < (uint32_t)way)
            || (way == 10 && random_below(6) == 0);
    if (way == 8) set_all_but_tree(&asked);
    if (way >= 9) set_few(&asked);
    return asked;
}

/* The face that is best by the shapes with each outer face in turn, which the prices prove; -1: none has a shape. */
static int best_face(struct call call, const struct asked *asked, uint32_t *bends) {
    int best = -1;
    for (int face = 0; face < plane.faces; face++) {
        if (asked->inner[face]) continue;
        struct asked only = *asked;
        for (int inside = 0; inside < plane.faces; inside++) only.inner[inside] = inside != face;
        struct conditions conditions = conditions_of(&only, 0);
        call.conditions = &conditions, call.outer = PLANARBEND_OUTER_FIRST, call.drawing = PLANARBEND_DRAWING_NONE;
        ask(&call, &other);
        if (other.result == PLANARBEND_NO_SHAPE) {
            look_at_fault(fault_of_cut(&plane, &only, &other.cut));
            continue;
        }
        LOOK(other.result == PLANARBEND_OK);
        look_at_layout(&call, &only, &other);
        if (best < 0 || other.counts.bends < *bends) best = face, *bends = other.counts.bends;
    }
    return best;
}

static void look_at_best(const struct call *call, const struct asked *asked) {
    uint32_t bends = 0;
    int best = best_face(*call, asked, &bends);
    LOOK(one.result == (best < 0 ? PLANARBEND_NO_SHAPE : PLANARBEND_OK));
    if (best >= 0) LOOK((int)one.counts.outer_face == best && one.counts.bends == bends);
}

static void look_at_way(struct call call, int way, struct sums *sums) {
    const struct asked asked = asked_in(way);
    struct conditions conditions = conditions_of(&asked, random_below(2) > 0);
    int is_free = conditions.turns_count + conditions.angles_count + conditions.inner_count == 0;
    call.conditions = way == 0 && random_below(2) > 0 ? NULL : &conditions;
    call.outer = (int)random_below(2);
    int has_shape = ask_each(&call, &asked, is_free ? sums->length : sums->length_kept);
    LOOK(has_shape || is_free);
    int result = one.result;
    if (greatest_face(&plane, &asked) < 0) LOOK(result == PLANARBEND_NO_OUTER);
    else if (way == 0 || way == 7 || way == 8) LOOK(result == PLANARBEND_OK);
    else LOOK(result == PLANARBEND_OK || result == PLANARBEND_NO_SHAPE);
    if (call.outer == PLANARBEND_OUTER_BEST && result != PLANARBEND_NO_OUTER) look_at_best(&call, &asked);
}

/* A few calls, other ones for each number: without conditions, some edges or all straight, one face outside, a few angles
   and turns. */
static void look_at_once(struct call call, uint32_t number, struct sums *sums) {
    static const int ways[] = {0, 3, 5, 7, 9};
    for (uint32_t at = 0; at < 5; at++) {
        const struct asked asked = asked_in(ways[at]);
        struct conditions conditions = conditions_of(&asked, number % 2 > 0);
        call.conditions = at > 0 ? &conditions : NULL;
        call.outer = (int)((number + at) / 3 % 2), call.drawing = (int)((number + at) % 3);
        ask(&call, &one);
        if (greatest_face(&plane, &asked) < 0) LOOK(one.result == PLANARBEND_NO_OUTER);
        else if (one.result == PLANARBEND_NO_SHAPE) look_at_fault(fault_of_cut(&plane, &asked, &one.cut));
        else LOOK(one.result == PLANARBEND_OK);
        if (one.result == PLANARBEND_OK) look_at_layout(&call, &asked, &one);
        LOOK(one.result == PLANARBEND_OK || (at > 0 && ways[at] != 7));
        if (at == 0) sums->bends[call.outer] += one.counts.bends;
    }
}

/* ---- files */

/* All angles and turns of the layout found last, given back: the shape stays as it is. */
static void look_at_back(struct call call) {
    struct asked asked = FREE;
    quick = one;
    for (int dart = 0; dart < plane.darts; dart++) {
        asked.angle[dart] = one.lists.angles[dart];
        set_turns(&asked, dart, (int)one.lists.turns[dart].left - (int)one.lists.turns[dart].right);
    }
    for (int face = 0; face < plane.faces; face++) asked.inner[face] = face != (int)one.counts.outer_face;
    struct conditions conditions = conditions_of(&asked, random_below(2) > 0);
    call.conditions = &conditions, call.outer = (int)random_below(2), call.drawing = PLANARBEND_DRAWING_QUICK;
    ask_both(&call, &asked);
    LOOK(one.result == PLANARBEND_OK && one.counts.bends == quick.counts.bends);
}

static void look_at_graph(planarbend *object, const uint8_t *record, size_t size, int ways, struct sums *sums) {
    struct call call = {object, record, size, 0, 0, NULL, 0, 0, 0, 0};
    trace(&plane, record);
    sums->graphs++;
    for (call.outer = 0; call.outer < 2; call.outer++) {
        ask_each(&call, &FREE, sums->length);
        LOOK(one.result == PLANARBEND_OK);
        sums->bends[call.outer] += one.counts.bends;
        look_at_back(call);
    }
    for (int way = 0; way < ways; way++)
        if (way != 8 || plane.faces <= 64) look_at_way(call, way, sums); /* else the drawings would be too large */
}

int main(int count, char **words) {
    planarbend *object;
    LOOK(count > 2 && planarbend_new(&object) == PLANARBEND_OK);
    set_rooms(&one, 0, 1), set_rooms(&other, 0, 1);
    for (int file = 2; file < count; file++) {
        size_t size;
        struct sums sums = {0, {0, 0}, {0, 0}, {0, 0}};
        uint8_t *bytes = read_all(words[file], &size);
        what = words[file];
        long number = 0, share = atol(words[1]);
        for (size_t at = HEADER, length; at < size; at += length, number++) {
            length = record_size(bytes + at, size - at);
            if (share > 0) {
                look_at_graph(object, bytes + at, length, number % share == 0 ? WAYS : 0, &sums);
                continue;
            }
            struct call call = {object, bytes + at, length, 0, 0, NULL, 0, 0, 0, 0};
            trace(&plane, bytes + at);
            sums.graphs++;
            look_at_once(call, (uint32_t)number, &sums);
        }
        __real_free(bytes);
        printf("%s %ld %ld %ld %ld %ld %ld %ld\n", what, sums.graphs, sums.bends[0], sums.bends[1], sums.length[0],
               sums.length[1], sums.length_kept[0], sums.length_kept[1]);
    }
    planarbend_free(object);
    LOOK(held == 0);
    return 0;
}
