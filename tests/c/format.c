/* Calls gs_format as a C program does. It is C and C++. */

#include "lent.h"

static int answered(int line, part format, gs_answer got, uint32_t refusal, size_t length) {
    if (got.refusal == refusal && got.length == length)
        return 1;
    printf("line %d: %.*s: refusal %" PRIu32 " and length %" PRIu32 ", wanted %" PRIu32 " and %zu\n", line,
           (int)(format.length < 60 ? format.length : 60), (const char *)format.bytes, got.refusal, got.length, refusal,
           length);
    return 0;
}

/* Within guard bytes: the text stands at the front, and every other byte is as it was. */
static int guarded(int line, part format, part zone, gs_record record, size_t room, uint32_t refusal, part want) {
    uint8_t *buffer = marked(GUARD, room);
    gs_answer got = gs_format(format.bytes, format.length, zone.bytes, zone.length, record, buffer, room);
    int holds = answered(line, format, got, refusal, want.length) && stands(buffer, GUARD, room, want);
    take_block_back(buffer, GUARD);
    return holds;
}

/* In blocks of just the lengths given. */
static int exact(int line, part format, part zone, gs_record record, size_t room, uint32_t refusal, part want) {
    uint8_t *lent_format = copied(format);
    uint8_t *lent_zone = copied(zone);
    uint8_t *lent_buffer = block(room);
    gs_answer got = gs_format(lent_format, format.length, lent_zone, zone.length, record, lent_buffer, room);
    int holds = answered(line, format, got, refusal, want.length);
    if (holds && want.length != 0)
        holds = memcmp(lent_buffer, want.bytes, want.length) == 0;
    free(lent_format);
    free(lent_zone);
    free(lent_buffer);
    return holds;
}

static void wants(int line, part format, part zone, gs_record record, size_t room, uint32_t refusal, part want) {
    check(line, "the answer and the buffer within guard bytes",
          guarded(line, format, zone, record, room, refusal, want));
    check(line, "the answer and the text in blocks of just these lengths",
          exact(line, format, zone, record, room, refusal, want));
}

#define WRITES(format, zone, record, want) wants(__LINE__, text(format), zone, record, 200, gs_DONE, text(want))
#define REFUSED(format, zone, record, room, refusal) \
    wants(__LINE__, text(format), zone, record, room, refusal, text(""))

static void first_use(void) {
    gs_record record = {0};
    uint8_t line[32];
    record.year = 2024;
    record.month = 12;
    record.day = 30;
    gs_answer answer = gs_format((const uint8_t *)"%F", 2, NULL, 0, record, line, sizeof line);
    CHECK(answer.refusal == gs_DONE);
    CHECK(answer.length == 10);
    CHECK(memcmp(line, "2024-12-30", 10) == 0);
}

static void each_field_arrives(void) {
    gs_record record = sample();
    WRITES("%Y %m %d %H %M %S %N %w %j %s %z", no_zone, record,
           "2024 02 29 13 05 09 123456789 4 060 1709211909 +0100");
    WRITES("%Z|%5Z|%-5Z|%^Z|%#Z", text("Cet"), record, "Cet|  Cet|Cet|CET|cet");
    record.year = INT32_MIN;
    record.to_int = INT64_MIN;
    record.utc_offset = INT32_MIN;
    WRITES("%Y %s %::z", no_zone, record, "-2147483648 -9223372036854775808 -0596523:14:08");
    record.year = INT32_MAX;
    record.to_int = INT64_MAX;
    record.utc_offset = INT32_MAX;
    WRITES("%Y %s %::z", no_zone, record, "2147483647 9223372036854775807 +596523:14:07");
}

/* 0 is no, and every other byte is yes. */
static void is_utc_is_a_byte(void) {
    gs_record record = sample();
    record.utc_offset = 0;
    for (int value = 0; value < 256; value++) {
        record.is_utc = (uint8_t)value;
        WRITES("%-z", no_zone, record, value == 0 ? "+0000" : "-0000");
    }
}

static void stamps_at_the_edges(void) {
    gs_record before = sample(), east = sample(), utc = sample(), week = sample(), leap_second = sample();
    before.year = -1;
    before.month = 1;
    before.day = 5;
    WRITES("%Y", no_zone, before, "-0001");
    WRITES("%_Y", no_zone, before, "   -1");
    WRITES("%v", no_zone, before, " 5-JAN--001");
    WRITES("%C", no_zone, before, "-1");
    east.utc_offset = 32400;
    WRITES("%z", no_zone, east, "+0900");
    WRITES("%_10z", no_zone, east, "      +900");
    east.utc_offset = -36000;
    WRITES("%z", no_zone, east, "-01000");
    utc.is_utc = 1;
    utc.utc_offset = 0;
    WRITES("%-z", no_zone, utc, "-0000");
    week.day_of_week = 1;
    week.day_of_year = 365;
    WRITES("%G %V %U %W", no_zone, week, "2025 01 52 53");
    week.year = 2021;
    week.day_of_week = 0;
    week.day_of_year = 3;
    WRITES("%G %V %U %W", no_zone, week, "2020 53 01 00");
    REFUSED("%5", no_zone, sample(), 200, gs_INVALID_FORMAT_STRING);
    WRITES("%:", no_zone, sample(), "%:");
    WRITES("%2147483648Y", no_zone, sample(), "%2147483648Y");
    WRITES("%10Z", no_zone, sample(), "");
    leap_second.second = 60;
    WRITES("%S", no_zone, leap_second, "60");
    leap_second.second = 61;
    REFUSED("%S", no_zone, leap_second, 200, gs_INVALID_TIME);
    WRITES("%-12D", no_zone, sample(), "    02/29/24");
}

static void the_widest_year(void) {
    gs_record record = sample();
    uint8_t *want = block(gs_LONGEST_BUFFER);
    memset(want, '0', gs_LONGEST_BUFFER);
    want[1] = '-';
    want[gs_LONGEST_BUFFER - 1] = '1';
    record.year = -1;
    wants(__LINE__, text("%65536Y"), no_zone, record, gs_LONGEST_BUFFER, gs_DONE, bytes(want, gs_LONGEST_BUFFER));
    REFUSED("%65536Y", no_zone, record, gs_LONGEST_BUFFER - 1, gs_WRITE_ZERO);
    free(want);
}

static void every_refusal(void) {
    gs_record record = sample();
    REFUSED("%", no_zone, record, 200, gs_INVALID_FORMAT_STRING);
    REFUSED("abc%-", no_zone, record, 200, gs_INVALID_FORMAT_STRING);
    REFUSED("%9999999A", no_zone, record, 200, gs_FORMATTED_STRING_TOO_LARGE);
    REFUSED("%9999999A", no_zone, record, gs_LONGEST_BUFFER, gs_FORMATTED_STRING_TOO_LARGE);
    REFUSED("%99999A", no_zone, record, gs_LONGEST_BUFFER, gs_WRITE_ZERO);
    REFUSED("%F %T", no_zone, record, 18, gs_WRITE_ZERO);
    record.month = 13;
    REFUSED("%m", no_zone, record, 200, gs_INVALID_TIME);
    /* The first thing that fails names the refusal. */
    REFUSED("abc%B", no_zone, record, 3, gs_INVALID_TIME);
    REFUSED("abc%B", no_zone, record, 2, gs_WRITE_ZERO);
    REFUSED("%20D", no_zone, record, 11, gs_WRITE_ZERO);
    REFUSED("%20D", no_zone, record, 12, gs_INVALID_TIME);
    REFUSED("%9999999D", no_zone, record, 12, gs_FORMATTED_STRING_TOO_LARGE);
    REFUSED("abc%", no_zone, record, 3, gs_INVALID_FORMAT_STRING);
    REFUSED("abc%", no_zone, record, 2, gs_WRITE_ZERO);
    REFUSED("%B%", no_zone, record, 200, gs_INVALID_TIME);
}

static int same(gs_answer got, uint32_t refusal, uint32_t length) {
    return got.refusal == refusal && got.length == length;
}

static void null_with_0(void) {
    gs_record record = sample();
    const uint8_t *year = (const uint8_t *)"%Y";
    const uint8_t *zone_name = (const uint8_t *)"%Z";
    uint8_t line[8];
    CHECK(same(gs_format(NULL, 0, NULL, 0, record, NULL, 0), gs_DONE, 0));
    CHECK(same(gs_format(NULL, 0, NULL, 0, record, line, sizeof line), gs_DONE, 0));
    CHECK(same(gs_format(year, 2, NULL, 0, record, line, sizeof line), gs_DONE, 4));
    CHECK(same(gs_format(zone_name, 2, NULL, 0, record, line, sizeof line), gs_DONE, 0));
    CHECK(same(gs_format(zone_name, 2, NULL, 0, record, NULL, 0), gs_DONE, 0));
    CHECK(same(gs_format(year, 2, NULL, 0, record, NULL, 0), gs_WRITE_ZERO, 0));
    CHECK(same(gs_format(year, 1, NULL, 0, record, NULL, 0), gs_INVALID_FORMAT_STRING, 0));
    record.month = 0;
    CHECK(same(gs_format((const uint8_t *)"%m", 2, NULL, 0, record, NULL, 0), gs_INVALID_TIME, 0));
}

static void longest_inputs(void) {
    gs_record record = sample();
    uint8_t *many = block(gs_LONGEST_BUFFER + 1);
    memset(many, 'x', gs_LONGEST_BUFFER + 1);
    part format = bytes(many, gs_LONGEST_FORMAT), longer_format = bytes(many, gs_LONGEST_FORMAT + 1);
    part zone = bytes(many, gs_LONGEST_ZONE), longer_zone = bytes(many, gs_LONGEST_ZONE + 1);
    part none = text("");
    wants(__LINE__, format, no_zone, record, gs_LONGEST_FORMAT, gs_DONE, format);
    wants(__LINE__, format, no_zone, record, gs_LONGEST_FORMAT - 1, gs_WRITE_ZERO, none);
    wants(__LINE__, longer_format, no_zone, record, gs_LONGEST_BUFFER, gs_INPUT_TOO_LONG, none);
    wants(__LINE__, longer_format, no_zone, record, 0, gs_INPUT_TOO_LONG, none);
    wants(__LINE__, text("%Z"), zone, record, gs_LONGEST_ZONE, gs_DONE, zone);
    wants(__LINE__, text("%Z"), longer_zone, record, 200, gs_INPUT_TOO_LONG, none);
    /* Before every other refusal, and for an empty format too. */
    wants(__LINE__, text("%"), longer_zone, record, 200, gs_INPUT_TOO_LONG, none);
    wants(__LINE__, none, longer_zone, record, 200, gs_INPUT_TOO_LONG, none);
    wants(__LINE__, text("%%"), no_zone, record, gs_LONGEST_BUFFER, gs_DONE, text("%"));
    wants(__LINE__, text("%%"), no_zone, record, gs_LONGEST_BUFFER + 1, gs_INPUT_TOO_LONG, none);
    wants(__LINE__, none, no_zone, record, gs_LONGEST_BUFFER + 1, gs_INPUT_TOO_LONG, none);
    free(many);
}

/* Each directive of `readers` checks its field, and those of `others` do not. */
static void reads(int line, gs_record record, const char *readers, const char *others) {
    for (; *readers != '\0'; readers++) {
        char format[3] = {'%', *readers, '\0'};
        wants(line, text(format), no_zone, record, 200, gs_INVALID_TIME, text(""));
    }
    gs_answer answer;
    uint8_t room[200];
    answer = gs_format((const uint8_t *)others, strlen(others), NULL, 0, record, room, sizeof room);
    check(line, "a field that no directive reads is not checked", answer.refusal == gs_DONE);
}

#define BAD(field, value, readers, others) \
    do { \
        gs_record record = sample(); \
        record.field = value; \
        reads(__LINE__, record, readers, others); \
    } while (0)

static void bad_fields(void) {
    BAD(month, 0, "mBbhcDxFv", "%Y%d%e%H%M%S%j%A%U%G%N%r%Z%z%s%%");
    BAD(month, 13, "mBbhcDxFv", "%Y%d%e%H%M%S%j%A%U%G%N%r%Z%z%s%%");
    BAD(day, 0, "decDxFv", "%Y%m%B%H%M%S%j%A%U%G%N%r%Z%z%s%%");
    BAD(day, 32, "decDxFv", "%Y%m%B%H%M%S%j%A%U%G%N%r%Z%z%s%%");
    BAD(hour, 24, "HkIlpPcrRTX", "%Y%m%d%M%S%j%A%U%G%N%D%F%v%Z%z%s%%");
    BAD(minute, 60, "McrRTX", "%Y%m%d%H%S%j%A%U%G%N%D%F%v%Z%z%s%%");
    BAD(second, 61, "ScrTX", "%Y%m%d%H%M%R%j%A%U%G%N%D%F%v%Z%z%s%%");
    BAD(nanoseconds, 1000000000, "LN", "%Y%c%j%A%U%G%D%F%v%r%Z%z%s%%");
    BAD(day_of_week, 7, "aAuwcUWVGg", "%Y%m%d%T%N%j%D%F%v%r%Z%z%s%%");
    BAD(day_of_year, 0, "jUWVGg", "%Y%c%N%A%u%D%F%v%r%Z%z%s%%");
    BAD(day_of_year, 367, "jUWVGg", "%Y%c%N%A%u%D%F%v%r%Z%z%s%%");
}

/* Only leap years have a day 366. */
static void day_366(void) {
    static const int32_t common[] = {INT32_MAX, 2023, 2100, 1900, -1, -100}, leap[] = {INT32_MIN, 2024, 2000, 0, -4, -400};
    gs_record record = sample();
    record.day_of_year = 366;
    for (size_t at = 0; at < sizeof common / sizeof common[0]; at++) {
        record.year = common[at];
        reads(__LINE__, record, "jUWVGg", "%Y%c%N%A%u%D%F%v%r%Z%z%s%%");
        REFUSED("%G %V", no_zone, record, 200, gs_INVALID_TIME);
        record.year = leap[at];
        WRITES("%j", no_zone, record, "366");
    }
    record.year = 2024;
    record.day_of_week = 1;
    WRITES("%j %U %W %V %G %g", no_zone, record, "366 53 53 01 2025 25");
    record.year = 2023;
    record.day_of_year = 365;
    WRITES("%j %U %W %V %G %g", no_zone, record, "365 52 53 01 2024 24");
}

/* A zone byte is 32 to 126, at each place of the name; a format without %Z never looks. */
static void zone_bytes(void) {
    gs_record record = sample();
    for (int value = 0; value < 256; value++) {
        for (size_t place = 0; place < 3; place++) {
            uint8_t name[3] = {'a', 'b', 'c'};
            name[place] = (uint8_t)value;
            part zone = bytes(name, sizeof name);
            if (value >= 32 && value <= 126) {
                wants(__LINE__, text("%Z"), zone, record, 3, gs_DONE, zone);
            } else {
                REFUSED("%Z", zone, record, 3, gs_INVALID_TIME);
                REFUSED("%20Z", zone, record, 3, gs_INVALID_TIME);
                REFUSED("%9999999Z", zone, record, 3, gs_INVALID_TIME);
            }
            WRITES("%Y", zone, record, "2024");
        }
    }
    WRITES("%9Z", no_zone, record, "");
}

static void no_format(void) {
    gs_record record = sample();
    WRITES("", no_zone, record, "");
    record.month = 13;
    WRITES("", text("\xff"), record, "");
}

/* A 0 byte in the format is a byte as any other, and ends no zone name. */
static void zero_bytes(void) {
    wants(__LINE__, bytes("a\0b%Z\0", 6), text("z"), sample(), 7, gs_DONE, bytes("a\0bz\0", 5));
    wants(__LINE__, text("%Z"), bytes("z\0", 2), sample(), 7, gs_INVALID_TIME, text(""));
}

static void full_and_one_short(void) {
    static const char *const formats[] = {
        "plain", "%c", "%D", "%F", "%v", "%r", "%R", "%T", "%Y-%m-%dT%H:%M:%S.%3N%:z", "%A %B %j %U %W %G %g %V",
        "%20A", "%_20Y", "%020e", "%20D", "%12N", "%3L", "%_10z", "%::z", "%:::z", "%9Z", "%n%t%%", "%Q %E %:",
        "%^a %#p %P %k %l %u %w %s %C %y %h", "%300Y", "%191Yx", "%192Yx", "%c %c %c %c %c %c %c %c %c",
    };
    for (size_t at = 0; at < sizeof formats / sizeof formats[0]; at++) {
        part format = text(formats[at]);
        uint8_t wide[1024];
        gs_answer answer =
            gs_format(format.bytes, format.length, (const uint8_t *)"CET", 3, sample(), wide, sizeof wide);
        check(__LINE__, formats[at], answer.refusal == gs_DONE && answer.length != 0);
        part want = bytes(wide, answer.length);
        wants(__LINE__, format, text("CET"), sample(), want.length, gs_DONE, want);
        wants(__LINE__, format, text("CET"), sample(), want.length + 1, gs_DONE, want);
        wants(__LINE__, format, text("CET"), sample(), want.length - 1, gs_WRITE_ZERO, text(""));
        wants(__LINE__, format, text("CET"), sample(), 0, gs_WRITE_ZERO, text(""));
    }
}

int main(void) {
    first_use();
    each_field_arrives();
    is_utc_is_a_byte();
    stamps_at_the_edges();
    the_widest_year();
    every_refusal();
    null_with_0();
    longest_inputs();
    bad_fields();
    day_366();
    zone_bytes();
    no_format();
    zero_bytes();
    full_and_one_short();
    return report("format");
}
