/* Calls gs_runs_start, gs_runs_run, gs_runs_end and gs_runs_answer as a C program does. It is C and C++. */

#include "lent.h"

/* A store and a buffer. */
typedef struct {
    size_t guard;
    size_t store_len;
    size_t room;
    uint8_t *store;
    uint8_t *buffer;
} lent;

static lent lend(size_t guard, size_t store_len, size_t room) {
    lent it;
    it.guard = guard;
    it.store_len = store_len;
    it.room = room;
    it.store = marked(guard, store_len);
    it.buffer = marked(guard, room);
    return it;
}

static void take_back(lent it) {
    take_block_back(it.store, it.guard);
    take_block_back(it.buffer, it.guard);
}

static int buffer_has(const lent *it, part text) {
    return stands(it->buffer, it->guard, it->room, text);
}

/* The store may hold anything; what stands around it may not. */
static int store_within(const lent *it) {
    part all = bytes(it->store, it->store_len);
    return stands(it->store, it->guard, it->store_len, all);
}

static gs_runs started(const lent *it, size_t total, part zone) {
    return gs_runs_start(total, zone.bytes, zone.length, it->store, it->store_len, it->buffer, it->room);
}

static gs_runs ran(gs_runs runs, const lent *it, part run, part zone, gs_record record) {
    uint8_t *copy = copied(run);
    runs = gs_runs_run(runs, copy, run.length, zone.bytes, zone.length, record, it->store, it->store_len, it->buffer,
                       it->room);
    free(copy);
    return runs;
}

static gs_runs ended(gs_runs runs, const lent *it, part zone, gs_record record) {
    return gs_runs_end(runs, zone.bytes, zone.length, record, it->store, it->store_len, it->buffer, it->room);
}

static int is_more(gs_runs runs) {
    gs_progress got = gs_runs_answer(runs);
    return got.more == 1 && got.refusal == gs_DONE && got.length == 0;
}

static int is_done(gs_runs runs, size_t length) {
    gs_progress got = gs_runs_answer(runs);
    return got.more == 0 && got.refusal == gs_DONE && got.length == length;
}

static int is_refused(gs_runs runs, uint32_t refusal) {
    gs_progress got = gs_runs_answer(runs);
    return got.more == 0 && got.refusal == refusal && got.length == 0;
}

static int same(gs_runs a, gs_runs b) {
    return a.total == b.total && a.passed == b.passed && a.kept == b.kept && a.written == b.written &&
           a.number == b.number && a.over == b.over;
}

static gs_runs fed(const lent *it, part format, size_t cut, part zone, gs_record record) {
    gs_runs runs = started(it, format.length, zone);
    for (size_t at = 0; at < format.length; at += cut) {
        size_t left = format.length - at;
        runs = ran(runs, it, bytes(format.bytes + at, left < cut ? left : cut), zone, record);
        runs = ran(runs, it, bytes(NULL, 0), zone, record);
    }
    return ended(runs, it, zone, record);
}

/* Calls after the answer give it again and change nothing. */
static int repeats(gs_runs runs, const lent *it, part zone, gs_record record) {
    uint8_t long_run[gs_LONGEST_RUN + 1];
    memset(long_run, 'x', sizeof long_run);
    return same(ran(runs, it, text("x"), zone, record), runs) &&
           same(ran(runs, it, bytes(long_run, sizeof long_run), zone, record), runs) &&
           same(ended(runs, it, zone, record), runs);
}

/* However the format is cut: the answer, its text in front of the buffer, and nothing else touched. */
static void wants(int line, part format, part zone, gs_record record, size_t room, uint32_t refusal, part want) {
    for (size_t guard = 0; guard <= 64; guard += 64) {
        int holds = 1;
        for (size_t cut = 1; cut <= gs_LONGEST_RUN; cut++) {
            lent it = lend(guard, format.length, room);
            gs_runs runs = fed(&it, format, cut, zone, record);
            holds = holds && (refusal == gs_DONE ? is_done(runs, want.length) : is_refused(runs, refusal)) &&
                    runs.written == want.length && repeats(runs, &it, zone, record) && buffer_has(&it, want) &&
                    store_within(&it);
            if (!holds)
                printf("line %d: %.*s, in runs of %zu: refusal %zu, %zu written\n", line, (int)format.length,
                       (const char *)format.bytes, cut, runs.number, runs.written);
            take_back(it);
            if (!holds)
                break;
        }
        check(line, guard == 0 ? "by runs, in blocks of just these lengths" : "by runs, within guard bytes", holds);
    }
}

#define WRITES(format, zone, want) wants(__LINE__, text(format), zone, sample(), 200, gs_DONE, text(want))
#define REFUSED(format, record, room, refusal, left) \
    wants(__LINE__, text(format), no_zone, record, room, refusal, text(left))

static void first_use(void) {
    static const char *const brought[] = {"%F", " at %", "H:", "%M"};
    uint8_t store[256], line[80];
    gs_record record = sample();
    gs_progress answer;
    gs_runs runs = gs_runs_start(11, NULL, 0, store, sizeof store, line, sizeof line);
    for (int at = 0; at < 4; at++)
        runs = gs_runs_run(runs, text(brought[at]).bytes, strlen(brought[at]), NULL, 0, record, store, sizeof store,
                           line, sizeof line);
    runs = gs_runs_end(runs, NULL, 0, record, store, sizeof store, line, sizeof line);
    answer = gs_runs_answer(runs);
    CHECK(!answer.more && answer.refusal == gs_DONE);
    CHECK(answer.length == 19);
    CHECK(memcmp(line, "2024-02-29 at 13:05", 19) == 0);
}

static void texts(void) {
    WRITES("", no_zone, "");
    WRITES("plain", no_zone, "plain");
    WRITES("%Y-%m-%dT%H:%M:%S.%3N%:z, %A", no_zone, "2024-02-29T13:05:09.123+01:00, Thursday");
    WRITES("%-5Y|%_^10B|%08e|%Z|%-5Z", text("Cet"), "2024|  FEBRUARY|00000029|Cet|Cet");
    WRITES("a%:z%::z%:::z%::::z%E%EY%OdE%5%%Q%2147483648Yx%:", no_zone,
           "a+01:00+01:00:00+01%::::z%E202429E    %%Q%2147483648Yx%:");
    WRITES("%-_0^#00000000000000000000000000000000000000000000000000000000000000012d.", no_zone, "29.");
    WRITES("%E", no_zone, "%E");
    WRITES("%2147483648", no_zone, "%2147483648");
}

static void texts_after_a_refusal(void) {
    REFUSED("abc%Bdef", month_13(), 200, gs_INVALID_TIME, "abc");
    REFUSED("abc%20Dx", month_13(), 200, gs_INVALID_TIME, "abc            ");
    REFUSED("abc%-5", sample(), 200, gs_INVALID_FORMAT_STRING, "abc");
    REFUSED("%", sample(), 200, gs_INVALID_FORMAT_STRING, "");
    REFUSED("ab%9999999A", sample(), 200, gs_FORMATTED_STRING_TOO_LARGE, "ab");
    REFUSED("ab%99999A", sample(), 10, gs_WRITE_ZERO, "ab        ");
    REFUSED("%F %T", sample(), 18, gs_WRITE_ZERO, "2024-02-29 13:05:0");
    REFUSED("%F %T", sample(), 0, gs_WRITE_ZERO, "");
    REFUSED("ab%Q", sample(), 3, gs_WRITE_ZERO, "ab%");
    REFUSED("abc%", sample(), 2, gs_WRITE_ZERO, "ab");
    REFUSED("abc%B", month_13(), 2, gs_WRITE_ZERO, "ab");
    REFUSED("abc%B", month_13(), 3, gs_INVALID_TIME, "abc");
    REFUSED("abc%E", sample(), 4, gs_WRITE_ZERO, "abc%");
    REFUSED("%20D", month_13(), 11, gs_WRITE_ZERO, "           ");
}

/* A byte is written when it is read, a directive with its last byte, an echo when it is closed. */
static void output_starts_early(void) {
    lent it = lend(64, 16, 64);
    gs_record record = sample();
    gs_runs runs = started(&it, 16, no_zone);
    CHECK(is_more(runs));
    CHECK(buffer_has(&it, text("")));
    runs = ran(runs, &it, text("ab%"), no_zone, record);
    CHECK(is_more(runs) && runs.written == 2);
    CHECK(buffer_has(&it, text("ab")));
    runs = ran(runs, &it, text("-"), no_zone, record);
    CHECK(buffer_has(&it, text("ab")));
    runs = ran(runs, &it, text("m%"), no_zone, record);
    CHECK(buffer_has(&it, text("ab2")));
    runs = ran(runs, &it, text("Q%:"), no_zone, record);
    CHECK(buffer_has(&it, text("ab2%Q")));
    runs = ran(runs, &it, text(":"), no_zone, record);
    CHECK(buffer_has(&it, text("ab2%Q")));
    runs = ran(runs, &it, text("Y"), no_zone, record);
    CHECK(buffer_has(&it, text("ab2%Q%::Y")));
    runs = ran(runs, &it, text("%4E"), no_zone, record);
    CHECK(buffer_has(&it, text("ab2%Q%::Y")));
    runs = ran(runs, &it, text("%E"), no_zone, record);
    CHECK(is_more(runs));
    CHECK(buffer_has(&it, text("ab2%Q%::Y%4E")));
    runs = ended(runs, &it, no_zone, record);
    CHECK(is_done(runs, 14));
    CHECK(buffer_has(&it, text("ab2%Q%::Y%4E%E")));
    CHECK(store_within(&it));
    take_back(it);
}

static void first_calls(void) {
    static uint8_t zone[gs_LONGEST_ZONE + 1];
    lent it = lend(64, gs_LONGEST_FORMAT, gs_LONGEST_BUFFER + 1);
    lent shorter = it, least = it;
    CHECK(is_refused(started(&it, 0, no_zone), gs_INPUT_TOO_LONG));
    it.room = shorter.room = gs_LONGEST_BUFFER;
    CHECK(is_more(started(&it, gs_LONGEST_FORMAT, bytes(zone, gs_LONGEST_ZONE))));
    CHECK(is_refused(started(&it, gs_LONGEST_FORMAT + 1, no_zone), gs_INPUT_TOO_LONG));
    CHECK(is_refused(started(&it, SIZE_MAX, no_zone), gs_INPUT_TOO_LONG));
    CHECK(is_refused(started(&it, 0, bytes(zone, gs_LONGEST_ZONE + 1)), gs_INPUT_TOO_LONG));
    shorter.store_len = gs_LONGEST_FORMAT - 1;
    CHECK(is_refused(started(&shorter, gs_LONGEST_FORMAT, no_zone), gs_WRITE_ZERO));
    CHECK(is_more(started(&shorter, gs_LONGEST_FORMAT - 1, no_zone)));
    CHECK(is_refused(started(&shorter, gs_LONGEST_FORMAT + 1, no_zone), gs_INPUT_TOO_LONG));
    least.store_len = 0;
    least.room = 0;
    CHECK(is_more(started(&least, 0, no_zone)));
    CHECK(is_refused(started(&least, 1, no_zone), gs_WRITE_ZERO));
    take_back(it);
}

/* At a last run, or at the end where it is NULL: nothing of it is read. */
static int refused_at(size_t total, const char *runs_before, const void *last, size_t last_length, uint32_t refusal,
                      const char *left) {
    lent it = lend(64, 64, 64);
    gs_record record = sample();
    gs_runs before = ran(started(&it, total, no_zone), &it, text(runs_before), no_zone, record);
    gs_runs after = last == NULL ? ended(before, &it, no_zone, record)
                                 : ran(before, &it, bytes(last, last_length), no_zone, record);
    int holds = is_refused(after, refusal) && after.written == before.written && after.passed == before.passed &&
                after.kept == before.kept && repeats(after, &it, no_zone, record) && buffer_has(&it, text(left)) &&
                store_within(&it);
    take_back(it);
    return holds;
}

/* Before 2 too: "ab%" with a total of 4. */
static void totals(void) {
    static const char long_run[] = "%Y%Y%Y%Y%Y%Y%Y%Y%Y%Y%Y%Y%Y%Y%Y%Y%";
    CHECK(refused_at(3, "ab", "%m", 2, gs_LENGTH_MISMATCH, "ab"));
    CHECK(refused_at(0, "", "x", 1, gs_LENGTH_MISMATCH, ""));
    CHECK(refused_at(40, "ab", long_run, 33, gs_INPUT_TOO_LONG, "ab"));
    CHECK(refused_at(3, "ab", long_run, 33, gs_INPUT_TOO_LONG, "ab"));
    CHECK(refused_at(4, "ab%", NULL, 0, gs_LENGTH_MISMATCH, "ab"));
    CHECK(refused_at(4, "abc", NULL, 0, gs_LENGTH_MISMATCH, "abc"));
}

/* The size limit goes by the total, not by the bytes that have come. */
static void the_limit(void) {
    part format = text("%9999999Axxxxxxxxxxx"), blanks = text("                ");
    wants(__LINE__, bytes(format.bytes, 19), no_zone, sample(), 16, gs_FORMATTED_STRING_TOO_LARGE, text(""));
    wants(__LINE__, bytes(format.bytes, 20), no_zone, sample(), 16, gs_WRITE_ZERO, blanks);
}

static void null_with_0(void) {
    gs_record record = sample();
    gs_runs runs = gs_runs_start(0, NULL, 0, NULL, 0, NULL, 0);
    CHECK(is_more(runs));
    runs = gs_runs_run(runs, NULL, 0, NULL, 0, record, NULL, 0, NULL, 0);
    CHECK(is_more(runs));
    runs = gs_runs_end(runs, NULL, 0, record, NULL, 0, NULL, 0);
    CHECK(is_done(runs, 0));
}

/* Numbers that no call has given: an answer, and no byte outside of what is lent. */
static void forged_numbers(void) {
    static const size_t some[] = {0, 1, 7, 8, 9, 31, 32, 33, 4096, 4097, SIZE_MAX - 1, SIZE_MAX};
    enum { SOME = sizeof some / sizeof some[0] };
    gs_record record = sample();
    int within = 1;
    for (int total = 0; total < SOME; total++)
        for (int passed = 0; passed < SOME; passed++)
            for (int kept = 0; kept < SOME; kept++)
                for (int written = 0; written < SOME; written++) {
                    lent it = lend(64, 8, 8);
                    gs_runs runs = {some[total], some[passed], some[kept], some[written], 0, 0};
                    runs = ran(runs, &it, text("%Y%"), no_zone, record);
                    runs = ended(runs, &it, no_zone, record);
                    within = within && store_within(&it) && stands(it.buffer, 64, 8, bytes(it.buffer, 8));
                    take_back(it);
                }
    check(__LINE__, "no byte outside of what is lent is touched", within);
}

static void numbers_as_they_are_read(void) {
    lent it = lend(64, 8, 8);
    gs_record record = sample();
    gs_runs over = {3, 3, 0, 3, 0, 255}, number = {3, 0, 0, 0, 99, 0}, far = {3, 0, 0, 9, 0, 0};
    CHECK(is_done(over, 3));
    CHECK(is_done(ran(over, &it, text("x"), no_zone, record), 3));
    CHECK(is_refused(number, gs_WRITE_ZERO));
    CHECK(is_refused(ended(number, &it, no_zone, record), gs_WRITE_ZERO));
    CHECK(is_more(far));
    CHECK(is_refused(ran(far, &it, text("x"), no_zone, record), gs_WRITE_ZERO));
    CHECK(is_refused(ended(far, &it, no_zone, record), gs_LENGTH_MISMATCH));
    CHECK(buffer_has(&it, text("")));
    take_back(it);
}

/* Another store or buffer, or a changed one, is looked at anew. */
static void lent_anew(void) {
    static uint8_t zone[gs_LONGEST_ZONE + 1];
    lent it = lend(64, 8, 8), shorter = it;
    gs_record record = sample();
    gs_runs runs = ran(started(&it, 8, no_zone), &it, text("abc%-"), no_zone, record);
    shorter.store_len = 2;
    CHECK(is_refused(ran(runs, &shorter, text("d"), no_zone, record), gs_WRITE_ZERO));
    CHECK(is_more(ran(runs, &shorter, text(""), no_zone, record)));
    shorter = it;
    shorter.room = 2;
    CHECK(is_refused(ran(runs, &shorter, text("d"), no_zone, record), gs_WRITE_ZERO));
    CHECK(is_refused(ran(runs, &it, text("d"), bytes(zone, sizeof zone), record), gs_INPUT_TOO_LONG));
    CHECK(is_refused(ended(runs, &it, bytes(zone, sizeof zone), record), gs_INPUT_TOO_LONG));
    CHECK(buffer_has(&it, text("abc")));
    memcpy(it.store, "%Y", 2);
    runs = ran(runs, &it, text("d"), no_zone, record);
    CHECK(is_more(runs) && runs.written == 8);
    CHECK(buffer_has(&it, text("abc2024d")));
    take_back(it);
}

int main(void) {
    first_use();
    texts();
    texts_after_a_refusal();
    output_starts_early();
    first_calls();
    totals();
    the_limit();
    null_with_0();
    forged_numbers();
    numbers_as_they_are_read();
    lent_anew();
    return report("runs");
}
