/*
 * A plug-in for plantri, which counts the graphs that it makes by their fewest bends, with no pipe and no file:
 *
 *     cc -O2 '-DPLUGIN="plantri_bends.c"' plantri.c $(pkg-config --cflags --libs planarbend) -o plantri_bends
 *     ./plantri_bends -u -q 10
 *
 * plantri includes it, so `nv`, `degree`, `firstedge` and EDGE are plantri's.
 */
#include <planarbend.h>

#define FILTER count_bends
#define SUMMARY write_counts

static planarbend *object;
static unsigned long by_bends[PLANARBEND_MAX_BENDS + 1], by_rule[PLANARBEND_GENUS + 1];

/* Writes the record of the graph that plantri holds, and returns its size. */
static size_t write_record(uint8_t *record) {
    size_t size = 0;
    record[size++] = (uint8_t)nv;
    for (int vertex = 0; vertex < nv; vertex++) {
        EDGE *edge = firstedge[vertex];
        for (int left = degree[vertex]; left > 0; left--, edge = edge->next) record[size++] = (uint8_t)(edge->end + 1);
        record[size++] = 0;
    }
    return size;
}

static int count_bends(int nbtot, int nbop, int doflip) {
    static uint8_t record[PLANARBEND_MAX_RECORD8];
    planarbend_counts counts;
    (void)nbtot, (void)nbop, (void)doflip;
    if (object == NULL && planarbend_new(&object) != PLANARBEND_OK) exit(1);
    const planarbend_request request = {.size = sizeof request, .record8 = record, .record8_count = write_record(record)};
    int result = planarbend_layout(object, &request, &counts, NULL, NULL);
    if (result > PLANARBEND_GENUS) exit(1);
    if (result == PLANARBEND_OK) by_bends[counts.bends]++;
    else by_rule[result]++;
    return 1;
}

static void write_counts(void) {
    for (int bends = 0; bends <= PLANARBEND_MAX_BENDS; bends++)
        if (by_bends[bends] > 0) fprintf(stderr, "%d bends: %lu graphs\n", bends, by_bends[bends]);
    for (int rule = 1; rule <= PLANARBEND_GENUS; rule++)
        if (by_rule[rule] > 0) fprintf(stderr, "refused %s: %lu graphs\n", planarbend_word(rule), by_rule[rule]);
    planarbend_free(object);
}
