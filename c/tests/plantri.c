/*
 * Stands in for plantri where that is not at hand: what a plug-in of it uses, as plantri's guide describes it, and graphs
 * read from planar_code on standard input in place of those that plantri makes.
 */
#include <stdint.h>
#include <stdio.h>
#include <stdlib.h>
#include <string.h>

enum { MAXN = 256 };

typedef struct e {
    int start, end;
    struct e *prev, *next, *invers;
} EDGE;

static int nv;
static int degree[MAXN];
static EDGE *firstedge[MAXN];

#include PLUGIN

static EDGE edges[MAXN * MAXN];

/* Reads one graph; 0 at the end. */
static int read_graph(void) {
    int count = 0;
    nv = getchar();
    if (nv == EOF) return 0;
    for (int vertex = 0; vertex < nv; vertex++) {
        int first = count, neighbour;
        while ((neighbour = getchar()) > 0) {
            edges[count].start = vertex;
            edges[count++].end = neighbour - 1;
        }
        degree[vertex] = count - first;
        firstedge[vertex] = &edges[first];
        for (int at = first; at < count; at++) {
            edges[at].next = &edges[at + 1 < count ? at + 1 : first];
            edges[at].prev = &edges[at > first ? at - 1 : count - 1];
        }
    }
    return 1;
}

int main(void) {
    char header[15];
    if (fread(header, 1, sizeof header, stdin) != sizeof header) return 2;
    while (read_graph())
        if (!FILTER(nv, nv, 0)) return 3;
    SUMMARY();
    return 0;
}
