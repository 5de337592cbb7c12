/* Upper bounds for a graph whose record has entries of 8 bits; and how conditions are kept in the tests. */
#ifndef BOUNDS_H
#define BOUNDS_H

#include "planarbend.h"

enum { MOST_VERTICES = 255, MOST_EDGES = 510, MOST_DARTS = 1020, MOST_FACES = 257 };

/* The conditions of a request. */
struct conditions {
    const planarbend_turns_along *turns;
    size_t turns_count;
    const planarbend_angle_at *angles;
    size_t angles_count;
    const planarbend_dart *inner;
    size_t inner_count;
};

#endif
