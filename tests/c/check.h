/* What the C programs of this folder share. A check that fails is printed with its line; the exit status is then 1. */

#ifndef CHECK_H
#define CHECK_H

#include "groatsaddle.h"

#include <inttypes.h>
#include <stdio.h>
#include <stdlib.h>
#include <string.h>

static int tried;
static int failed;

#define CHECK(what) check(__LINE__, #what, (what))

static void check(int line, const char *what, int holds) {
    tried++;
    if (!holds) {
        failed++;
        printf("line %d: not so: %s\n", line, what);
    }
}

static int report(const char *name) {
    printf("%s: %d checks, %d failed\n", name, tried, failed);
    return failed != 0;
}

typedef struct {
    const uint8_t *bytes;
    size_t length;
} part;

static part bytes(const void *from, size_t length) {
    part it;
    it.bytes = (const uint8_t *)from;
    it.length = length;
    return it;
}

static part text(const char *string) {
    return bytes(string, strlen(string));
}

#endif
