/*
 * A plug-in for nauty's geng, which keeps the planar graphs and counts them by their fewest bends, with no pipe and no file:
 *
 *     cc -O2 '-DPLUGIN="geng_bends.c"' /usr/share/nauty/geng.c $(pkg-config --cflags nauty planarbend) -lnautyL1
 *        $(pkg-config --libs planarbend) -o geng_bends
 *     ./geng_bends -c -D4 8
 *
 * geng includes it, so `graph` and `setword` are nauty's. With RECORDS defined it also writes the embeddings to standard
 * output, in planar_code. Of several embeddings of a graph it takes the first that it finds.
 */
#include <planarbend.h>
#include <stdint.h>

#define PRUNE is_not_planar
#define OUTPROC count_bends
#define SUMMARY write_counts

typedef uint64_t mask;
enum { MOST = 64 };

#define BIT(vertex) ((mask)1 << (vertex))
#define FOR(vertex, set) for (mask of_ = (set); of_ != 0; of_ &= of_ - 1) for (int vertex = lowest(of_), once_ = 1; once_; once_ = 0)

static mask near[MOST];                    /* the neighbours of each vertex */
static unsigned char after[MOST][MOST];    /* around a vertex, the neighbour that follows a neighbour within its block */

/* The faces of the part of a block that is embedded: cycles, each with its face on the same side. */
static struct { unsigned char cycle[MOST]; int length; mask set; } faces[2 * MOST];
static int face_count;
static mask embedded, joined[MOST];        /* its vertices, and their neighbours by its edges */

static int lowest(mask set) {
    return __builtin_ctzll(set);
}

/* The vertices of `inside` that are reached from those of `from` within it. */
static mask reached(mask from, mask inside) {
    mask found = from & inside, last = 0;
    while (found != last) {
        mask fresh = found & ~last;
        last = found;
        FOR(vertex, fresh) found |= near[vertex] & inside;
    }
    return found;
}

/* Writes a shortest path with all its inner vertices among some, but not the edge itself where `no_edge`; its length. */
static int path(int from, int to, mask inner, int no_edge, unsigned char *out) {
    unsigned char before[MOST], queue[MOST];
    mask seen = BIT(to);
    int head = 0, tail = 0, length = 0;
    for (queue[tail++] = (unsigned char)to; head < tail; head++) {
        int here = queue[head];
        if ((near[here] & BIT(from)) && !(no_edge && here == to)) {
            for (out[length++] = (unsigned char)from; here != to; here = before[here]) out[length++] = (unsigned char)here;
            out[length++] = (unsigned char)to;
            return length;
        }
        mask fresh = near[here] & inner & ~seen;
        seen |= fresh;
        FOR(next, fresh) {
            before[next] = (unsigned char)here;
            queue[tail++] = (unsigned char)next;
        }
    }
    return 0;
}

static void join(const unsigned char *vertices, int length) {
    for (int at = 0; at < length; at++) embedded |= BIT(vertices[at]);
    for (int at = 0; at + 1 < length; at++) {
        joined[vertices[at]] |= BIT(vertices[at + 1]);
        joined[vertices[at + 1]] |= BIT(vertices[at]);
    }
}

static void set_face(int face, const unsigned char *cycle, int length) {
    faces[face].length = length;
    faces[face].set = 0;
    for (int at = 0; at < length; at++) {
        faces[face].cycle[at] = cycle[at];
        faces[face].set |= BIT(cycle[at]);
    }
}

/* Cuts a face by a path between two of its vertices. */
static void cut(int face, const unsigned char *vertices, int length) {
    unsigned char left[MOST], right[MOST], old[MOST];
    int count = faces[face].length, start = 0, lefts = 0, rights = 0, at;
    memcpy(old, faces[face].cycle, sizeof old);
    while (old[start] != vertices[0]) start++;
    for (at = 0; old[(start + at) % count] != vertices[length - 1]; at++) left[lefts++] = old[(start + at) % count];
    for (int step = length - 1; step > 0; step--) left[lefts++] = vertices[step];
    for (; at < count; at++) right[rights++] = old[(start + at) % count];
    for (int step = 0; step + 1 < length; step++) right[rights++] = vertices[step];
    set_face(face, left, lefts);
    set_face(face_count++, right, rights);
    join(vertices, length);
}

/* The faces in which a part with these attachments may lie; `found` becomes the last of them. */
static int admissible(mask attachments, int *found) {
    int count = 0;
    for (int face = 0; face < face_count; face++)
        if ((attachments & ~faces[face].set) == 0) *found = face, count++;
    return count;
}

/* Embeds a block of three or more vertices by the method of Demoucron, Malgrange and Pertuiset; 0 where it is not planar. */
static int embed_block(mask block) {
    unsigned char vertices[MOST];
    int first = lowest(block), second = lowest(near[first] & block);
    int length = path(first, second, block & ~BIT(first) & ~BIT(second), 1, vertices);
    embedded = 0;
    memset(joined, 0, sizeof joined);
    join(vertices, length);
    joined[first] |= BIT(second), joined[second] |= BIT(first);
    set_face(0, vertices, length);
    for (int at = 0; at < length / 2; at++) {
        unsigned char kept = vertices[at];
        vertices[at] = vertices[length - 1 - at], vertices[length - 1 - at] = kept;
    }
    set_face(1, vertices, length);
    for (face_count = 2;;) {
        /* Of the parts that are left, one with the fewest faces for it. */
        int fewest = 2 * MOST + 1, chosen = 0, face = 0;
        mask inner = 0, ends = 0;
        FOR(vertex, embedded) {
            mask open = near[vertex] & block & ~joined[vertex];
            while (open != 0) {
                int next = lowest(open);
                mask part = embedded & BIT(next) ? 0 : reached(BIT(next), block & ~embedded), attachments = BIT(vertex) | BIT(next);
                if (part != 0) {
                    attachments = 0;
                    FOR(member, part) attachments |= near[member] & embedded;
                }
                int count = admissible(attachments, &face);
                if (count < fewest) fewest = count, chosen = face, inner = part, ends = attachments;
                open &= ~(part | BIT(next));
            }
        }
        if (fewest == 0) return 0;
        if (fewest > 2 * MOST) break;
        first = lowest(ends), second = lowest(ends & (ends - 1));
        cut(chosen, vertices, path(first, second, inner, inner != 0, vertices));
    }
    for (int face = 0; face < face_count; face++) {
        const unsigned char *cycle = faces[face].cycle;
        for (int at = 0, count = faces[face].length; at < count; at++)
            after[cycle[(at + 1) % count]][cycle[at]] = cycle[(at + 2) % count];
    }
    return 1;
}

/* The block of an edge: its ends, and the vertices that no other vertex parts from them. */
static mask block_of(int from, int to, int count) {
    mask all = count == MOST ? ~(mask)0 : BIT(count) - 1, block = all;
    FOR(other, all) {
        mask ends = (BIT(from) | BIT(to)) & ~BIT(other);
        block &= reached(ends, all & ~BIT(other)) | BIT(other);
    }
    return block;
}

/* Embeds the graph, block by block, into `near` and `after`; 0 where it is not planar. */
static int embed(const graph *g, int count) {
    for (int vertex = 0; vertex < count; vertex++) {
        near[vertex] = 0;
        for (int other = 0; other < count; other++)
            if (g[vertex] & bit[other]) near[vertex] |= BIT(other);
    }
    mask done[MOST] = {0};
    for (int vertex = 0; vertex < count; vertex++) {
        FOR(other, near[vertex]) {
            if (done[vertex] & BIT(other)) continue;
            mask block = block_of(vertex, other, count);
            if (block == (BIT(vertex) | BIT(other))) {
                after[vertex][other] = (unsigned char)other;
                after[other][vertex] = (unsigned char)vertex;
            } else if (!embed_block(block)) {
                return 0;
            }
            FOR(member, block) done[member] |= near[member] & block;
        }
    }
    return 1;
}

/* Writes the record of the graph that was embedded, and returns its size. */
static size_t write_record(int count, uint8_t *record) {
    size_t size = 0;
    record[size++] = (uint8_t)count;
    for (int vertex = 0; vertex < count; vertex++) {
        for (mask rest = near[vertex]; rest != 0;) {
            int next = lowest(rest);
            for (; rest & BIT(next); next = after[vertex][next]) {
                rest &= ~BIT(next);
                record[size++] = (uint8_t)(next + 1);
            }
        }
        record[size++] = 0;
    }
    return size;
}

static planarbend *object;
static unsigned long by_bends[PLANARBEND_MAX_BENDS + 1], by_rule[PLANARBEND_GENUS + 1];

/* Whether geng leaves out this graph and all that it would make of it. */
int is_not_planar(graph *g, int count, int most) {
    (void)most;
    return !embed(g, count);
}

void count_bends(FILE *output, graph *g, int count) {
    static uint8_t record[PLANARBEND_MAX_RECORD8];
    planarbend_counts counts;
    if (!embed(g, count) || (object == NULL && planarbend_new(&object) != PLANARBEND_OK)) exit(1);
    size_t size = write_record(count, record);
#ifdef RECORDS
    if (fwrite(record, 1, size, output) != size) exit(1);
#else
    (void)output;
#endif
    const planarbend_request request = {.size = sizeof request, .record8 = record, .record8_count = size};
    int result = planarbend_layout(object, &request, &counts, NULL, NULL);
    if (result > PLANARBEND_GENUS) exit(1);
    if (result == PLANARBEND_OK) by_bends[counts.bends]++;
    else by_rule[result]++;
}

void write_counts(nauty_counter made, double seconds) {
    (void)made, (void)seconds;
    for (int bends = 0; bends <= PLANARBEND_MAX_BENDS; bends++)
        if (by_bends[bends] > 0) fprintf(stderr, "%d bends: %lu graphs\n", bends, by_bends[bends]);
    for (int rule = 1; rule <= PLANARBEND_GENUS; rule++)
        if (by_rule[rule] > 0) fprintf(stderr, "refused %s: %lu graphs\n", planarbend_word(rule), by_rule[rule]);
    planarbend_free(object);
}
