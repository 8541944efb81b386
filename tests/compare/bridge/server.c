/* Holds the library, in a program for x86-64, and answers calls from standard input on standard output.
   What is lent ends at a page that can't be touched. The bytes before buffer and store are looked at after each call. */

#include "call.h"

/* Of the C library. Its headers for x86-64 need not be there. */
long read(int, void *, size_t);
long write(int, const void *, size_t);
void *mmap(void *, size_t, int, int, int, long);
int mprotect(void *, size_t, int);
void _exit(int);
void *memcpy(void *, const void *, size_t);

enum { GUARD = 64, PAGE = 4096, REGION = 2 * MOST, NO_ACCESS = 0, READ_WRITE = 3, PRIVATE_ANONYMOUS = 0x22 };

static uint8_t request[4 * MOST];
static uint8_t reply[sizeof(result) + 2 * MOST];

static void stop(const char *why, size_t length) {
    write(2, why, length);
    _exit(3);
}
#define STOP(why) stop(why "\n", sizeof why)

/* The end of a region; the page behind it can't be touched. */
static uint8_t *end_of_region(void) {
    uint8_t *from = (uint8_t *)mmap(NULL, REGION + PAGE, READ_WRITE, PRIVATE_ANONYMOUS, -1, 0);
    uint8_t *end = from + REGION;
    if (mprotect(end, PAGE, NO_ACCESS) != 0)
        STOP("bridge: there is no memory");
    return end;
}

static int received(uint8_t *to, size_t length) {
    while (length != 0) {
        long count = read(0, to, length);
        if (count <= 0)
            return 0;
        to += count;
        length -= (size_t)count;
    }
    return 1;
}

static void sent(const uint8_t *from, size_t length) {
    while (length != 0) {
        long count = write(1, from, length);
        if (count <= 0)
            _exit(3);
        from += count;
        length -= (size_t)count;
    }
}

static uint8_t *lent(uint8_t *end, const uint8_t *from, uint64_t length) {
    uint8_t *place = end - length;
    if (length != 0)
        memcpy(place, from, length);
    return place;
}

static uint8_t mark(int at) {
    return (uint8_t)(at * 7 + 129);
}

static result result_of(const call *it, uint8_t *format, uint8_t *zone, uint8_t *buffer, uint8_t *store) {
    static const result nothing;
    result back = nothing;
    if (it->format_is_null)
        format = NULL;
    if (it->zone_is_null)
        zone = NULL;
    if (it->buffer_is_null)
        buffer = NULL;
    if (it->store_is_null)
        store = NULL;
    if (it->entry == SIZE)
        back.answer = gs_size(format, it->format_len, it->longest_zone);
    else if (it->entry == RECORD_FROM_COUNT)
        back.dated = gs_record_from_count(it->count, it->utc_offset, it->nanoseconds, it->is_utc);
    else if (it->entry == COUNT_FROM_RECORD)
        back.counted = gs_count_from_record(it->record);
    else if (it->entry == RUNS_START)
        back.runs = gs_runs_start(it->total, zone, it->zone_len, store, it->store_len, buffer, it->buffer_len);
    else if (it->entry == RUNS_RUN)
        back.runs = gs_runs_run(it->runs, format, it->format_len, zone, it->zone_len, it->record, store, it->store_len,
                                buffer, it->buffer_len);
    else if (it->entry == RUNS_END)
        back.runs =
            gs_runs_end(it->runs, zone, it->zone_len, it->record, store, it->store_len, buffer, it->buffer_len);
    else if (it->entry == RUNS_ANSWER)
        back.progress = gs_runs_answer(it->runs);
    else if (it->entry == COMPILE)
        back.answer = gs_compile(format, it->format_len, buffer, it->buffer_len);
    else if (it->entry == FORMAT_STORED)
        back.answer = gs_format_stored(store, it->store_len, it->total, zone, it->zone_len, it->record, buffer,
                                       it->buffer_len);
    else
        back.answer = gs_format(format, it->format_len, zone, it->zone_len, it->record, buffer, it->buffer_len);
    return back;
}

static void guard(uint8_t *place) {
    for (int at = 1; at <= GUARD; at++)
        place[-at] = mark(at);
}

static void look(const uint8_t *place) {
    for (int at = 1; at <= GUARD; at++)
        if (place[-at] != mark(at))
            STOP("bridge: the library changed a byte before the buffer or the store");
}

static void answer_call(const call *it, uint8_t *format, uint8_t *zone, uint8_t *buffer, uint8_t *store) {
    guard(buffer);
    guard(store);
    result back = result_of(it, format, zone, buffer, store);
    look(buffer);
    look(store);
    memcpy(reply, &back, sizeof back);
    memcpy(reply + sizeof back, buffer, it->buffer_len);
    memcpy(reply + sizeof back + it->buffer_len, store, it->store_len);
    sent(reply, sizeof back + it->buffer_len + it->store_len);
}

int main(void) {
    uint8_t *format_end = end_of_region(), *zone_end = end_of_region();
    uint8_t *buffer_end = end_of_region(), *store_end = end_of_region();
    call it;
    while (received((uint8_t *)&it, sizeof it)) {
        if (it.format_len > MOST || it.zone_len > MOST || it.buffer_len > MOST || it.store_len > MOST
            || !received(request, it.format_len + it.zone_len + it.buffer_len + it.store_len))
            STOP("bridge: a call can't be read");
        const uint8_t *zone = request + it.format_len, *buffer = zone + it.zone_len, *store = buffer + it.buffer_len;
        answer_call(&it, lent(format_end, request, it.format_len), lent(zone_end, zone, it.zone_len),
                    lent(buffer_end, buffer, it.buffer_len), lent(store_end, store, it.store_len));
    }
    return 0;
}
