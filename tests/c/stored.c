/* Calls gs_compile and gs_format_stored as a C program does. It is C and C++. */

#include "lent.h"

enum { ROOM = 200, MOST = 400 };

/* A stored form. */
typedef struct {
    uint8_t bytes[MOST];
    size_t length;
} form;

static form compiled(const char *format) {
    form it = {{0}, 0};
    gs_answer answer = gs_compile(text(format).bytes, strlen(format), it.bytes, sizeof it.bytes);
    CHECK(answer.refusal == gs_DONE);
    it.length = answer.length;
    return it;
}

static void first_use(void) {
    gs_record record = sample();
    uint8_t stored[256], line[64];
    gs_answer form = gs_compile((const uint8_t *)"%F %T", 5, stored, sizeof stored);
    gs_answer answer = gs_format_stored(stored, form.length, 5, NULL, 0, record, line, sizeof line);
    CHECK(form.refusal == gs_DONE && answer.refusal == gs_DONE);
    CHECK(answer.length == 19);
    CHECK(memcmp(line, "2024-02-29 13:05:09", 19) == 0);
}

/* ## Compiling */

/* Within guard bytes, and in blocks of just the lengths: the answer, and the bytes in front of the place. */
static void compiles(int line, part format, size_t room, uint32_t refusal, part want) {
    for (size_t guard = 0; guard <= GUARD; guard += GUARD) {
        uint8_t *lent_format = copied(format), *stored = marked(guard, room);
        gs_answer got = gs_compile(lent_format, format.length, stored, room);
        int holds = got.refusal == refusal && got.length == want.length && stands(stored, guard, room, want);
        if (!holds)
            printf("line %d: refusal %" PRIu32 " and length %" PRIu32 "\n", line, got.refusal, got.length);
        check(line, "the stored form, and nothing else", holds);
        take_block_back(stored, guard);
        free(lent_format);
    }
}

/* The form in a place that is longer, in one of just its length, and in each that is shorter. */
static void stores(int line, const char *format, const char *bytes_of_it, size_t length) {
    compiles(line, text(format), ROOM, gs_DONE, bytes(bytes_of_it, length));
    compiles(line, text(format), length, gs_DONE, bytes(bytes_of_it, length));
    for (size_t room = 0; room < length; room++)
        compiles(line, text(format), room, gs_WRITE_ZERO, text(""));
}
#define STORES(format, bytes_of_it) stores(__LINE__, format, bytes_of_it, sizeof bytes_of_it - 1)

static void forms(void) {
    STORES("", "\0\0\0\0\0\0");
    STORES("ab", "\2\0ab\0\0\1\0\0\2\0");
    STORES("%Y", "\0\0\1\0Y\0\0\0\0\0\0\0\1\0\1\0\0");
    STORES("%F %T", "\1\0 \2\0F\0\0\0\0\0\0\0T\0\0\0\0\0\0\0\3\0\1\0\0\0\1\0\1\1\0");
    /* An echo is text, and joins its neighbours. */
    STORES("a%Qb%E", "\6\0a%Qb%E\0\0\1\0\0\6\0");
    STORES("%Q%d%99999999999Y", "\17\0%Q%99999999999Y\1\0d\0\0\0\0\0\0\0\3\0\0\2\0\1\0\0\0\15\0");
}

static void entries(void) {
    STORES("%-d", "\0\0\1\0d\0\1\0\0\0\0\0\1\0\1\0\0");
    STORES("%_d", "\0\0\1\0d\1\0\0\0\0\0\0\1\0\1\0\0");
    STORES("%-0d", "\0\0\1\0d\2\1\0\0\0\0\0\1\0\1\0\0");
    STORES("%0-d", "\0\0\1\0d\0\1\0\0\0\0\0\1\0\1\0\0");
    STORES("%#A", "\0\0\1\0A\0\2\0\0\0\0\0\1\0\1\0\0");
    STORES("%^A", "\0\0\1\0A\0\4\0\0\0\0\0\1\0\1\0\0");
    STORES("%12A", "\0\0\1\0A\0\0\1\14\0\0\0\1\0\1\0\0");
    STORES("%^#-_2147483647A", "\0\0\1\0A\1\7\1\377\377\377\177\1\0\1\0\0");
    STORES("%:z", "\0\0\1\0\1\0\0\0\0\0\0\0\1\0\1\0\0");
    STORES("%::z", "\0\0\1\0\2\0\0\0\0\0\0\0\1\0\1\0\0");
    STORES("%:::z", "\0\0\1\0\3\0\0\0\0\0\0\0\1\0\1\0\0");
    STORES("%%", "\0\0\1\0%\0\0\0\0\0\0\0\1\0\1\0\0");
    STORES("%EY", "\0\0\1\0Y\0\0\0\0\0\0\0\1\0\1\0\0");
    STORES("%X", "\0\0\1\0T\0\0\0\0\0\0\0\1\0\1\0\0");
    STORES("%x", "\0\0\1\0D\0\0\0\0\0\0\0\1\0\1\0\0");
    STORES("%h", "\0\0\1\0b\0\0\0\0\0\0\0\1\0\1\0\0");
}

/* 5 before 2 before 4. */
static void compile_refusals(void) {
    static uint8_t long_format[gs_LONGEST_FORMAT + 1], place[gs_LONGEST_BUFFER + 1];
    memset(long_format, '%', sizeof long_format);
    compiles(__LINE__, text("%"), 0, gs_INVALID_FORMAT_STRING, text(""));
    compiles(__LINE__, text("%F%-5"), ROOM, gs_INVALID_FORMAT_STRING, text(""));
    compiles(__LINE__, text("%F"), 16, gs_WRITE_ZERO, text(""));
    compiles(__LINE__, bytes(long_format, gs_LONGEST_FORMAT + 1), 0, gs_INPUT_TOO_LONG, text(""));
    compiles(__LINE__, text("%"), gs_LONGEST_BUFFER + 1, gs_INPUT_TOO_LONG, text(""));
    CHECK(gs_compile((const uint8_t *)"x", 1, place, gs_LONGEST_BUFFER).refusal == gs_DONE);
}

/* The longest stored form there is. */
static void longest_form(void) {
    static uint8_t format[gs_LONGEST_FORMAT], stored[gs_LONGEST_STORED], line[gs_LONGEST_BUFFER];
    for (size_t at = 0; at < sizeof format; at += 2)
        memcpy(format + at, "%Y", 2);
    gs_answer answer = gs_compile(format, sizeof format, stored, sizeof stored);
    CHECK(answer.refusal == gs_DONE && answer.length == gs_LONGEST_STORED);
    CHECK(gs_compile(format, sizeof format, stored, sizeof stored - 1).refusal == gs_WRITE_ZERO);
    answer = gs_format_stored(stored, sizeof stored, sizeof format, NULL, 0, sample(), line, sizeof line);
    CHECK(answer.refusal == gs_DONE && answer.length == 2048 * 4 && memcmp(line, "20242024", 8) == 0);
}

/* ## Running */

/* Within guard bytes, and in blocks of just the lengths: the answer, and the text in front of the buffer. */
static int runs_to(part stored, size_t format_len, part zone, gs_record record, size_t room, uint32_t refusal,
                   part want) {
    int holds = 1;
    for (size_t guard = 0; guard <= GUARD; guard += GUARD) {
        uint8_t *lent_stored = copied(stored), *lent_zone = copied(zone), *buffer = marked(guard, room);
        gs_answer got = gs_format_stored(lent_stored, stored.length, format_len, lent_zone, zone.length, record,
                                         buffer, room);
        holds = holds && got.refusal == refusal && got.length == want.length && stands(buffer, guard, room, want);
        if (!holds)
            printf("refusal %" PRIu32 " and length %" PRIu32 "\n", got.refusal, got.length);
        take_block_back(buffer, guard);
        free(lent_stored);
        free(lent_zone);
    }
    return holds;
}

/* As the format does, in every buffer from none to one that is longer than the text. */
static void as_direct(int line, const char *format, part zone, gs_record record) {
    form it = compiled(format);
    uint8_t text_of_it[ROOM];
    int holds = 1;
    for (size_t room = 0; room <= ROOM; room++) {
        gs_answer direct =
            gs_format(text(format).bytes, strlen(format), zone.bytes, zone.length, record, text_of_it, room);
        holds = holds && runs_to(bytes(it.bytes, it.length), strlen(format), zone, record, room, direct.refusal,
                                 bytes(text_of_it, direct.length));
    }
    check(line, format, holds);
}
#define AS_DIRECT(format, zone, record) as_direct(__LINE__, format, zone, record)

static void runs_as_its_format(void) {
    AS_DIRECT("", no_zone, sample());
    AS_DIRECT("plain", no_zone, sample());
    AS_DIRECT("sale %Y-%m-%dT%H:%M:%S.%L%z day %j (%a), module 07, coin or card", no_zone, sample());
    AS_DIRECT("%c %D %r %A %-d %B %Y %j %U %W %s %:z %G %V %u %Z", text("CET"), sample());
    AS_DIRECT("%-5Y|%_^10B|%08e|%Z|%-5Z|%12N|%_20z|%-12D", text("Cet"), sample());
    AS_DIRECT("a%:z%::z%:::z%::::z%E%EY%OdE%5%%Q%2147483648Yx%:", no_zone, sample());
    AS_DIRECT("%B", no_zone, month_13());
    AS_DIRECT("ab%20Dx", no_zone, month_13());
    AS_DIRECT("%9999999A", no_zone, sample());
    AS_DIRECT("%150A%60B|", no_zone, sample());
    AS_DIRECT("%Z", text("\033"), sample());
}

/* 11, and no byte of any buffer changed, whatever else is wrong. */
static void is_bad(int line, const char *bytes_of_it, size_t length) {
    part it = bytes(bytes_of_it, length);
    check(line, "no stored form",
          runs_to(it, 5, no_zone, sample(), 100, gs_BAD_STORED, text("")) &&
              runs_to(it, 0, no_zone, month_13(), 0, gs_BAD_STORED, text("")));
}
#define BAD(bytes_of_it) is_bad(__LINE__, bytes_of_it, sizeof bytes_of_it - 1)

static void counts_and_bytes_disagree(void) {
    BAD("");
    BAD("\0\0\0\0\0");
    BAD("\0\0\0\0\0\0\0");
    BAD("\1\0\0\0\0\0");
    BAD("\0\0\1\0\0\0");
    BAD("\0\0\0\0\1\0");
    BAD("\377\377\377\377\377\377");
    /* Counts have the low byte first. */
    BAD("\0\2ab\0\0\0\1\0\0\2");
    BAD("\2\0ab\0\0\1\0\0\2");
    BAD("\2\0ab\0\0\1\0\0\2\0\0");
}

static void steps_that_pass(void) {
    BAD("\2\0ab\0\0\1\0\0\3\0");
    BAD("\2\0ab\0\0\2\0\0\2\0\0\1\0");
    BAD("\2\0ab\0\0\1\0\0\2\1");
    BAD("\0\0\1\0Y\0\0\0\0\0\0\0\1\0\1\1\0");
    BAD("\0\0\1\0Y\0\0\0\0\0\0\0\1\0\1\0\1");
    BAD("\0\0\1\0Y\0\0\0\0\0\0\0\1\0\2\0\0");
    BAD("\0\0\0\0\1\0\1\0\0");
    BAD("\0\0\0\0\1\0\377\0\0");
}

static void directives_that_no_format_gives(void) {
    BAD("\0\0\1\0Q\0\0\0\0\0\0\0\0\0");
    BAD("\0\0\1\0\0\0\0\0\0\0\0\0\0\0");
    BAD("\0\0\1\0\4\0\0\0\0\0\0\0\0\0");
    BAD("\0\0\1\0Y\3\0\0\0\0\0\0\0\0");
    BAD("\0\0\1\0Y\0\10\0\0\0\0\0\0\0");
    BAD("\0\0\1\0Y\0\0\2\1\0\0\0\0\0");
    BAD("\0\0\1\0Y\0\0\1\0\0\0\0\0\0");
    BAD("\0\0\1\0Y\0\0\1\0\0\0\200\0\0");
    BAD("\0\0\1\0Y\0\0\0\1\0\0\0\0\0");
    BAD("\0\0\1\0Y\0\0\0\0\0\0\1\0\0");
}

/* What stands before a bad step is not written, and its refusal not given. */
static void eleven_before_any_text(void) {
    BAD("\2\0ab\1\0B\0\0\0\0\0\0\0\3\0\0\2\0\1\0\0\1\1\0");
    BAD("\2\0ab\1\0A\0\0\1\377\377\377\177\3\0\0\2\0\1\0\0\2\0\0");
    BAD("\2\0ab\2\0Y\0\0\0\0\0\0\0Q\0\0\0\0\0\0\0\1\0\0\2\0");
}

static void takes(int line, const char *bytes_of_it, size_t length, const char *want) {
    check(line, want, runs_to(bytes(bytes_of_it, length), 5, no_zone, sample(), 100, gs_DONE, text(want)));
}
#define TAKES(bytes_of_it, want) takes(__LINE__, bytes_of_it, sizeof bytes_of_it - 1, want)

/* Whatever the sentences on 11 don't name. */
static void taken(void) {
    TAKES("\0\0\0\0\0\0", "");
    TAKES("\2\0ab\1\0Y\0\0\0\0\0\0\0\0\0", "");
    TAKES("\2\0ab\0\0\3\0\0\1\0\0\0\0\0\1\0", "ab");
    TAKES("\1\0,\1\0Y\0\0\0\0\0\0\0\3\0\1\0\0\0\1\0\1\0\0", "2024,2024");
    TAKES("\0\0\2\0m\0\0\0\0\0\0\0d\0\0\0\0\0\0\0\2\0\1\1\0\1\0\0", "2902");
    TAKES("\0\0\1\0X\0\0\0\0\0\0\0\1\0\1\0\0", "13:05:09");
    TAKES("\2\0%Y\0\0\1\0\0\2\0", "%Y");
}

static void five_first(void) {
    static uint8_t zone[gs_LONGEST_ZONE + 1];
    static const part bad = {NULL, 0};
    form it = compiled("%F");
    part good = bytes(it.bytes, it.length);
    CHECK(runs_to(bad, gs_LONGEST_FORMAT + 1, no_zone, sample(), 0, gs_INPUT_TOO_LONG, text("")));
    CHECK(runs_to(bad, SIZE_MAX, no_zone, sample(), 0, gs_INPUT_TOO_LONG, text("")));
    CHECK(runs_to(bad, 2, bytes(zone, sizeof zone), sample(), 0, gs_INPUT_TOO_LONG, text("")));
    CHECK(runs_to(bad, 2, no_zone, sample(), gs_LONGEST_BUFFER + 1, gs_INPUT_TOO_LONG, text("")));
    CHECK(runs_to(good, gs_LONGEST_FORMAT, bytes(zone, gs_LONGEST_ZONE), sample(), gs_LONGEST_BUFFER, gs_DONE,
                  text("2024-02-29")));
}

static int limited(const char *format, size_t format_len, size_t room, uint32_t refusal, const char *want) {
    form it = compiled(format);
    return runs_to(bytes(it.bytes, it.length), format_len, no_zone, sample(), room, refusal, text(want));
}

/* The size limit goes by the length that is passed, and limits only pads that have bytes. */
static void the_limit(void) {
    char wide[310];
    CHECK(limited("%9999999A", 19, 16, gs_FORMATTED_STRING_TOO_LARGE, ""));
    CHECK(limited("%9999999A", 20, 16, gs_WRITE_ZERO, ""));
    CHECK(limited("on %A, %-d %B %Y, %3Y, %8A", 0, 100, gs_DONE, "on Thursday, 29 February 2024, 2024, Thursday"));
    CHECK(limited("%A%9A", 0, 100, gs_FORMATTED_STRING_TOO_LARGE, ""));
    CHECK(limited("%A%9A", 1, 100, gs_DONE, "Thursday Thursday"));
    CHECK(limited("%A%9A", 0, 7, gs_WRITE_ZERO, ""));
    CHECK(limited("%A%9A", 0, 8, gs_FORMATTED_STRING_TOO_LARGE, ""));
    CHECK(limited("%z", 0, 100, gs_FORMATTED_STRING_TOO_LARGE, ""));
    memset(wide, '0', sizeof wide);
    memcpy(wide, "123456789", 9);
    memcpy(wide + 305, "2024", 5);
    CHECK(limited("%9N%300Y", 0, 400, gs_DONE, wide));
    CHECK(limited("%10N", 0, 100, gs_FORMATTED_STRING_TOO_LARGE, ""));
}

static void null_with_0(void) {
    gs_record record = sample();
    uint8_t stored[6];
    CHECK(gs_compile(NULL, 0, NULL, 0).refusal == gs_WRITE_ZERO);
    CHECK(gs_compile(NULL, 0, stored, sizeof stored).length == 6);
    CHECK(gs_format_stored(NULL, 0, 0, NULL, 0, record, NULL, 0).refusal == gs_BAD_STORED);
    CHECK(gs_format_stored(stored, 6, 0, NULL, 0, record, NULL, 0).refusal == gs_DONE);
}

/* Every byte of a form changed to every value: an answer that the header names, and no byte outside of the buffer. */
static void each_byte_changed(void) {
    form it = compiled("on %A, %-d %B %Y, %012T.%3N %:z%_8e");
    size_t format_len = 36;
    int within = 1;
    for (size_t at = 0; at < it.length; at++)
        for (int value = 0; value < 256; value++) {
            form other = it;
            uint8_t *buffer = marked(GUARD, 60), *stored;
            other.bytes[at] = (uint8_t)value;
            stored = copied(bytes(other.bytes, other.length));
            gs_answer got =
                gs_format_stored(stored, other.length, format_len, NULL, 0, sample(), buffer, 60);
            int known = got.refusal == gs_DONE || got.refusal == gs_FORMATTED_STRING_TOO_LARGE ||
                        got.refusal == gs_WRITE_ZERO || got.refusal == gs_BAD_STORED;
            part kept = got.refusal == gs_DONE ? bytes(buffer, got.length) : text("");
            within = within && known && stands(buffer, GUARD, 60, kept);
            take_block_back(buffer, GUARD);
            free(stored);
        }
    check(__LINE__, "whatever the bytes are, nothing outside of the buffer is touched", within);
}

int main(void) {
    first_use();
    forms();
    entries();
    compile_refusals();
    longest_form();
    runs_as_its_format();
    counts_and_bytes_disagree();
    steps_that_pass();
    directives_that_no_format_gives();
    eleven_before_any_text();
    taken();
    five_first();
    the_limit();
    null_with_0();
    each_byte_changed();
    return report("stored");
}
