/* Calls gs_record_from_count and gs_count_from_record as a C program does. It is C and C++. */

#include "check.h"

/* the first and the last second of an int32_t's years */
#define FIRST INT64_C(-67768100567971200)
#define LAST INT64_C(67767976233532799)

static int empty(gs_record r) {
    return r.year == 0 && r.month == 0 && r.day == 0 && r.hour == 0 && r.minute == 0 && r.second == 0 &&
           r.nanoseconds == 0 && r.day_of_week == 0 && r.day_of_year == 0 && r.to_int == 0 && r.is_utc == 0 &&
           r.utc_offset == 0;
}

static int refused(int64_t count, int32_t offset, uint32_t nanoseconds, uint32_t refusal) {
    gs_dated d = gs_record_from_count(count, offset, nanoseconds, 1);
    return d.refusal == refusal && empty(d.record);
}

static int dated(int64_t count, int32_t offset, int32_t year, int month, int day, int weekday, int day_of_year) {
    gs_dated d = gs_record_from_count(count, offset, 999999999, 0);
    gs_record r = d.record;
    gs_counted back = gs_count_from_record(r);
    return d.refusal == gs_DONE && r.year == year && r.month == month && r.day == day && r.day_of_week == weekday &&
           r.day_of_year == day_of_year && r.nanoseconds == 999999999 && r.to_int == count && r.is_utc == 0 &&
           r.utc_offset == offset && back.refusal == gs_DONE && back.count == count;
}

static int counted(int32_t year, int month, int day, int hour, int minute, int second, uint32_t refusal, int64_t count) {
    gs_record r = {0};
    gs_counted c;
    r.year = year;
    r.month = (uint8_t)month;
    r.day = (uint8_t)day;
    r.hour = (uint8_t)hour;
    r.minute = (uint8_t)minute;
    r.second = (uint8_t)second;
    c = gs_count_from_record(r);
    return c.refusal == refusal && c.count == count;
}

static void first_use(void) {
    part format = text("%F %T %z, %A, day %j");
    uint8_t line[64];
    gs_dated now = gs_record_from_count(1735574709, 3600, 0, 0);
    gs_answer answer;
    CHECK(now.refusal == gs_DONE);
    answer = gs_format(format.bytes, format.length, NULL, 0, now.record, line, sizeof line);
    CHECK(answer.refusal == gs_DONE);
    CHECK(answer.length == 42);
    CHECK(memcmp(line, "2024-12-30 17:05:09 +0100, Monday, day 365", 42) == 0);
}

static void records(void) {
    CHECK(dated(0, 0, 1970, 1, 1, 4, 1));
    CHECK(dated(-1, 0, 1969, 12, 31, 3, 365));
    CHECK(dated(0, -1, 1969, 12, 31, 3, 365));
    CHECK(dated(951782400, 0, 2000, 2, 29, 2, 60));
    CHECK(dated(-2203891200, 0, 1900, 3, 1, 4, 60));
    CHECK(dated(FIRST, 0, INT32_MIN, 1, 1, 2, 1));
    CHECK(dated(LAST, 0, INT32_MAX, 12, 31, 2, 365));
    CHECK(dated(LAST - INT32_MIN, INT32_MIN, INT32_MAX, 12, 31, 2, 365));
    CHECK(gs_record_from_count(0, 0, 0, 255).record.is_utc == 1);
}

static void refusals(void) {
    CHECK(refused(0, 0, 1000000000, gs_INVALID_TIME));
    CHECK(refused(INT64_MAX, 1, UINT32_MAX, gs_INVALID_TIME));
    CHECK(refused(INT64_MAX, 1, 0, gs_OUT_OF_RANGE));
    CHECK(refused(INT64_MIN, -1, 0, gs_OUT_OF_RANGE));
    CHECK(refused(INT64_MIN, 0, 0, gs_OUT_OF_RANGE));
    CHECK(refused(LAST + 1, 0, 0, gs_OUT_OF_RANGE));
    CHECK(refused(LAST, 1, 0, gs_OUT_OF_RANGE));
    CHECK(refused(FIRST - 1, 0, 0, gs_OUT_OF_RANGE));
    CHECK(refused(FIRST, -1, 0, gs_OUT_OF_RANGE));
}

static void counts(void) {
    CHECK(counted(1970, 1, 1, 0, 0, 0, gs_DONE, 0));
    CHECK(counted(INT32_MIN, 1, 1, 0, 0, 0, gs_DONE, FIRST));
    CHECK(counted(INT32_MAX, 12, 31, 23, 59, 59, gs_DONE, LAST));
    CHECK(counted(0, 2, 29, 0, 0, 0, gs_DONE, INT64_C(-62162121600)));
    CHECK(counted(1900, 2, 29, 0, 0, 0, gs_INVALID_TIME, 0));
    CHECK(counted(2023, 2, 29, 0, 0, 0, gs_INVALID_TIME, 0));
    CHECK(counted(2024, 4, 31, 0, 0, 0, gs_INVALID_TIME, 0));
    CHECK(counted(2024, 0, 1, 0, 0, 0, gs_INVALID_TIME, 0));
    CHECK(counted(2024, 13, 1, 0, 0, 0, gs_INVALID_TIME, 0));
    CHECK(counted(2024, 1, 0, 0, 0, 0, gs_INVALID_TIME, 0));
    CHECK(counted(2024, 1, 1, 24, 0, 0, gs_INVALID_TIME, 0));
    CHECK(counted(2024, 1, 1, 0, 60, 0, gs_INVALID_TIME, 0));
    CHECK(counted(2016, 12, 31, 23, 59, 60, gs_INVALID_TIME, 0));
}

int main(void) {
    first_use();
    records();
    refusals();
    counts();
    return report("counter");
}
