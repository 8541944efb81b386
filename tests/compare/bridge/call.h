/* A call on its way: this, then the bytes of format (or a run of it), zone name, buffer (or the place of a stored form that
   is written) and store (or a stored form that is read). Back come the result, the buffer and the store. Each entry sets what
   it takes; all else is 0. */

#ifndef CALL_H
#define CALL_H

#include "groatsaddle.h"

enum {
    FORMAT,
    SIZE,
    RECORD_FROM_COUNT,
    COUNT_FROM_RECORD,
    RUNS_START,
    RUNS_RUN,
    RUNS_END,
    RUNS_ANSWER,
    COMPILE,
    FORMAT_STORED
};

typedef struct {
    uint64_t format_len;
    uint64_t zone_len;
    uint64_t buffer_len;
    uint64_t store_len;
    uint8_t format_is_null;
    uint8_t zone_is_null;
    uint8_t buffer_is_null;
    uint8_t store_is_null;
    uint8_t entry;
    uint64_t longest_zone;
    gs_record record;
    int64_t count;
    int32_t utc_offset;
    uint32_t nanoseconds;
    uint8_t is_utc;
    uint64_t total; /* bytes of a whole format that is not lent */
    gs_runs runs;
} call;

/* What the entry gives; the others are 0. */
typedef struct {
    gs_answer answer;
    gs_dated dated;
    gs_counted counted;
    gs_runs runs;
    gs_progress progress;
} result;

/* More than the longest inputs, so that longer ones can be tried. */
#define MOST 393216

#endif
