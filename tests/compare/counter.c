/* Answers the cases of counter.py, a line each.

   R COUNT OFFSET NANOSECONDS IS_UTC: the refusal; or 0, the record's fields, and the count back from the record.
   C YEAR MONTH DAY HOUR MINUTE SECOND OFFSET: the refusal and 0; or 0 and the count. The other fields hold what no record should.
   S COUNT OFFSET: the stamp of `%G-W%V-%u %j %s`, or the refusal. */
#include <inttypes.h>
#include <stdio.h>

#include "groatsaddle.h"

static void made(int64_t count, int32_t offset, uint32_t nanoseconds, unsigned is_utc)
{
    gs_dated d = gs_record_from_count(count, offset, nanoseconds, (uint8_t)is_utc);
    const gs_record *r = &d.record;
    gs_counted back = gs_count_from_record(d.record);

    printf("%" PRIu32 " %" PRId32 " %d %d %d %d %d %" PRIu32 " %d %d %" PRId64 " %d %" PRId32, d.refusal, r->year, r->month,
           r->day, r->hour, r->minute, r->second, r->nanoseconds, r->day_of_week, r->day_of_year, r->to_int, r->is_utc,
           r->utc_offset);
    if (d.refusal == gs_DONE)
        printf(" %" PRIu32 " %" PRId64, back.refusal, back.count);
    putchar('\n');
}

static void counted(int32_t year, const unsigned *f, int32_t offset)
{
    gs_record r = {year, (uint8_t)f[0], (uint8_t)f[1], (uint8_t)f[2], (uint8_t)f[3], (uint8_t)f[4],
                   UINT32_MAX, 255, UINT16_MAX, INT64_MIN, 255, offset};
    gs_counted c = gs_count_from_record(r);

    printf("%" PRIu32 " %" PRId64 "\n", c.refusal, c.count);
}

static void stamped(int64_t count, int32_t offset)
{
    static const char format[] = "%G-W%V-%u %j %s";
    uint8_t text[64];
    gs_dated d = gs_record_from_count(count, offset, 0, 0);
    gs_answer a;

    if (d.refusal != gs_DONE) {
        printf("%" PRIu32 "\n", d.refusal);
        return;
    }
    a = gs_format((const uint8_t *)format, sizeof format - 1, NULL, 0, d.record, text, sizeof text);
    if (a.refusal == gs_DONE)
        printf("%.*s\n", (int)a.length, (const char *)text);
    else
        printf("refused %" PRIu32 "\n", a.refusal);
}

int main(void)
{
    char line[256];

    while (fgets(line, sizeof line, stdin)) {
        int64_t count;
        int32_t year, offset;
        uint32_t nanoseconds;
        unsigned is_utc, f[5];

        if (sscanf(line, "R %" SCNd64 " %" SCNd32 " %" SCNu32 " %u", &count, &offset, &nanoseconds, &is_utc) == 4)
            made(count, offset, nanoseconds, is_utc);
        else if (sscanf(line, "C %" SCNd32 " %u %u %u %u %u %" SCNd32, &year, &f[0], &f[1], &f[2], &f[3], &f[4], &offset) == 7)
            counted(year, f, offset);
        else if (sscanf(line, "S %" SCNd64 " %" SCNd32, &count, &offset) == 2)
            stamped(count, offset);
        else
            return 2;
    }
    return 0;
}
