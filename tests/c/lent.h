/* A record, and blocks to lend: within guard bytes, or of just their lengths so that valgrind sees a byte outside of
   them. */

#ifndef LENT_H
#define LENT_H

#include "check.h"

enum { GUARD = 64 };

static const part no_zone = {NULL, 0};

static inline gs_record sample(void) {
    gs_record record = {0};
    record.year = 2024;
    record.month = 2;
    record.day = 29;
    record.hour = 13;
    record.minute = 5;
    record.second = 9;
    record.nanoseconds = 123456789;
    record.day_of_week = 4;
    record.day_of_year = 60;
    record.to_int = 1709211909;
    record.utc_offset = 3600;
    return record;
}

static inline gs_record month_13(void) {
    gs_record record = sample();
    record.month = 13;
    return record;
}

static inline uint8_t *block(size_t length) {
    uint8_t *it = (uint8_t *)malloc(length);
    if (it == NULL && length != 0) {
        printf("there is no memory\n");
        exit(2);
    }
    return it;
}

static inline uint8_t *copied(part it) {
    uint8_t *copy = block(it.length);
    if (it.length != 0)
        memcpy(copy, it.bytes, it.length);
    return copy;
}

static inline uint8_t mark(size_t at) {
    return (uint8_t)(at * 7 + 129);
}

/* A marked block, and so many marked bytes before and behind it. */
static inline uint8_t *marked(size_t guard, size_t length) {
    size_t all = guard + length + guard;
    uint8_t *around = block(all);
    for (size_t at = 0; at < all; at++)
        around[at] = mark(at);
    return around + guard;
}

static inline void take_block_back(uint8_t *place, size_t guard) {
    free(place - guard);
}

/* The text in front of a marked block, and every byte behind it and around it as it was. */
static inline int stands(const uint8_t *place, size_t guard, size_t length, part text) {
    const uint8_t *around = place - guard;
    for (size_t at = 0; at < guard + length + guard; at++) {
        int in_text = guard <= at && at - guard < text.length;
        uint8_t wanted = in_text ? text.bytes[at - guard] : mark(at);
        if (around[at] != wanted) {
            printf("byte %ld is %d, wanted %d\n", (long)at - (long)guard, around[at], wanted);
            return 0;
        }
    }
    return 1;
}

#endif
