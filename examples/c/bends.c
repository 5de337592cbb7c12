/*
 * Reads planar_code from standard input, and prints the fewest bends of each graph, or the rule that it breaks.
 *
 *     cc bends.c $(pkg-config --cflags --libs planarbend) -o bends
 *     geng -c -D4 8 | planarg -p | ./bends
 */
#include <planarbend.h>
#include <stdio.h>
#include <string.h>

/* Reads a record: one byte n, and n lists that end with a byte 0. Returns its size, and 0 at the end of the input. */
static size_t read_record(FILE *input, uint8_t *record) {
    size_t size = 0, lists = 1;
    for (int byte; lists > 0 && size < PLANARBEND_MAX_RECORD8 && (byte = getc(input)) != EOF;) {
        if (size == 0) lists = (size_t)byte;
        else if (byte == 0) lists--;
        record[size++] = (uint8_t)byte;
    }
    return size;
}

int main(void) {
    static uint8_t record[PLANARBEND_MAX_RECORD8];
    char header[15];
    planarbend *object;
    planarbend_counts counts;
    if (fread(header, 1, sizeof header, stdin) != sizeof header || memcmp(header, ">>planar_code<<", sizeof header) != 0) {
        fputs("bends: not a planar_code file\n", stderr);
        return 1;
    }
    if (planarbend_new(&object) != PLANARBEND_OK) return 1;
    for (size_t size; (size = read_record(stdin, record)) > 0;) {
        const planarbend_request request = {.size = sizeof request, .record8 = record, .record8_count = size};
        int result = planarbend_layout(object, &request, &counts, NULL, NULL);
        if (result == PLANARBEND_OK) printf("%u\n", (unsigned)counts.bends);
        else puts(planarbend_word(result));
    }
    planarbend_free(object);
    return 0;
}
