/* The library for a program of this machine, over the server, which runs under an emulator. */

#include "call.h"

#include <pthread.h>
#include <stdio.h>
#include <stdlib.h>
#include <string.h>
#include <sys/socket.h>
#include <unistd.h>

static pthread_mutex_t one_at_a_time = PTHREAD_MUTEX_INITIALIZER;
static int server = -1;
static uint8_t message[sizeof(call) + 4 * MOST];

static void stop(const char *why) {
    fprintf(stderr, "bridge: %s\n", why);
    abort();
}

/* EMULATOR and SERVER are paths, given by the script that builds this. */
static void start(void) {
    int ends[2];
    if (socketpair(AF_UNIX, SOCK_STREAM | SOCK_CLOEXEC, 0, ends) != 0)
        stop("there is no socket");
    pid_t child = fork();
    if (child < 0)
        stop("the server did not start");
    if (child == 0) {
        dup2(ends[1], 0);
        dup2(ends[1], 1);
        execl(EMULATOR, EMULATOR, SERVER, (char *)NULL);
        _exit(127);
    }
    close(ends[1]);
    server = ends[0];
}

static size_t append(size_t at, const void *from, size_t length) {
    if (length > MOST)
        stop("an input is too long for it");
    if (length != 0)
        memcpy(message + at, from, length);
    return at + length;
}

static void send_all(size_t length) {
    for (size_t at = 0; at < length;) {
        ssize_t count = send(server, message + at, length - at, MSG_NOSIGNAL);
        if (count <= 0)
            stop("the server is gone");
        at += (size_t)count;
    }
}

static void receive_all(size_t length) {
    for (size_t at = 0; at < length;) {
        ssize_t count = recv(server, message + at, length - at, 0);
        if (count <= 0)
            stop("the server ended within a call");
        at += (size_t)count;
    }
}

/* A buffer or a store that is only read has no place to come back to. */
typedef struct {
    const uint8_t *from;
    uint8_t *back;
} lent;

static lent both_ways(uint8_t *bytes) {
    lent it = {bytes, bytes};
    return it;
}

static lent one_way(const uint8_t *bytes) {
    lent it = {bytes, NULL};
    return it;
}

static void hand_back(lent it, size_t at, size_t length) {
    if (it.back != NULL && length != 0)
        memcpy(it.back, message + at, length);
}

static result result_of(call it, const uint8_t *format, const uint8_t *zone, lent buffer, lent store) {
    result back;
    pthread_mutex_lock(&one_at_a_time);
    if (server < 0)
        start();
    size_t end = append(0, &it, sizeof it);
    end = append(end, format, it.format_len);
    end = append(end, zone, it.zone_len);
    end = append(end, buffer.from, it.buffer_len);
    end = append(end, store.from, it.store_len);
    send_all(end);
    receive_all(sizeof back + it.buffer_len + it.store_len);
    memcpy(&back, message, sizeof back);
    hand_back(buffer, sizeof back, it.buffer_len);
    hand_back(store, sizeof back + it.buffer_len, it.store_len);
    pthread_mutex_unlock(&one_at_a_time);
    return back;
}

static call a_call(uint8_t entry) {
    call it;
    memset(&it, 0, sizeof it);
    it.entry = entry;
    return it;
}

gs_answer gs_format(const uint8_t *format, size_t format_len, const uint8_t *zone, size_t zone_len, gs_record record,
                    uint8_t *buffer, size_t buffer_len) {
    call it = a_call(FORMAT);
    it.format_len = format_len;
    it.zone_len = zone_len;
    it.buffer_len = buffer_len;
    it.format_is_null = format == NULL;
    it.zone_is_null = zone == NULL;
    it.buffer_is_null = buffer == NULL;
    it.record = record;
    return result_of(it, format, zone, both_ways(buffer), one_way(NULL)).answer;
}

gs_answer gs_size(const uint8_t *format, size_t format_len, size_t longest_zone) {
    call it = a_call(SIZE);
    it.format_len = format_len;
    it.format_is_null = format == NULL;
    it.longest_zone = longest_zone;
    return result_of(it, format, NULL, one_way(NULL), one_way(NULL)).answer;
}

gs_dated gs_record_from_count(int64_t count, int32_t utc_offset, uint32_t nanoseconds, uint8_t is_utc) {
    call it = a_call(RECORD_FROM_COUNT);
    it.count = count;
    it.utc_offset = utc_offset;
    it.nanoseconds = nanoseconds;
    it.is_utc = is_utc;
    return result_of(it, NULL, NULL, one_way(NULL), one_way(NULL)).dated;
}

gs_counted gs_count_from_record(gs_record record) {
    call it = a_call(COUNT_FROM_RECORD);
    it.record = record;
    return result_of(it, NULL, NULL, one_way(NULL), one_way(NULL)).counted;
}

/* A call with a store or a stored form. */
static call a_store_call(uint8_t entry, const uint8_t *zone, size_t zone_len, const uint8_t *store, size_t store_len,
                         const uint8_t *buffer, size_t buffer_len) {
    call it = a_call(entry);
    it.zone_len = zone_len;
    it.store_len = store_len;
    it.buffer_len = buffer_len;
    it.zone_is_null = zone == NULL;
    it.store_is_null = store == NULL;
    it.buffer_is_null = buffer == NULL;
    return it;
}

gs_runs gs_runs_start(size_t total, const uint8_t *zone, size_t zone_len, const uint8_t *store, size_t store_len,
                      const uint8_t *buffer, size_t buffer_len) {
    call it = a_store_call(RUNS_START, zone, zone_len, store, store_len, buffer, buffer_len);
    it.total = total;
    return result_of(it, NULL, zone, one_way(buffer), one_way(store)).runs;
}

gs_runs gs_runs_run(gs_runs runs, const uint8_t *bytes, size_t bytes_len, const uint8_t *zone, size_t zone_len,
                    gs_record record, uint8_t *store, size_t store_len, uint8_t *buffer, size_t buffer_len) {
    call it = a_store_call(RUNS_RUN, zone, zone_len, store, store_len, buffer, buffer_len);
    it.format_len = bytes_len;
    it.format_is_null = bytes == NULL;
    it.record = record;
    it.runs = runs;
    return result_of(it, bytes, zone, both_ways(buffer), both_ways(store)).runs;
}

gs_runs gs_runs_end(gs_runs runs, const uint8_t *zone, size_t zone_len, gs_record record, const uint8_t *store,
                    size_t store_len, uint8_t *buffer, size_t buffer_len) {
    call it = a_store_call(RUNS_END, zone, zone_len, store, store_len, buffer, buffer_len);
    it.record = record;
    it.runs = runs;
    return result_of(it, NULL, zone, both_ways(buffer), one_way(store)).runs;
}

gs_progress gs_runs_answer(gs_runs runs) {
    call it = a_call(RUNS_ANSWER);
    it.runs = runs;
    return result_of(it, NULL, NULL, one_way(NULL), one_way(NULL)).progress;
}

gs_answer gs_compile(const uint8_t *format, size_t format_len, uint8_t *stored, size_t stored_len) {
    call it = a_call(COMPILE);
    it.format_len = format_len;
    it.buffer_len = stored_len;
    it.format_is_null = format == NULL;
    it.buffer_is_null = stored == NULL;
    return result_of(it, format, NULL, both_ways(stored), one_way(NULL)).answer;
}

gs_answer gs_format_stored(const uint8_t *stored, size_t stored_len, size_t format_len, const uint8_t *zone,
                           size_t zone_len, gs_record record, uint8_t *buffer, size_t buffer_len) {
    call it = a_store_call(FORMAT_STORED, zone, zone_len, stored, stored_len, buffer, buffer_len);
    it.total = format_len;
    it.record = record;
    return result_of(it, NULL, zone, both_ways(buffer), one_way(stored)).answer;
}
