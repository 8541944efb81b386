/* Calls gs_size as a C program does. It is C and C++. */

#include "check.h"

static int sized(part format, size_t longest_zone, uint32_t length) {
    gs_answer answer = gs_size(format.bytes, format.length, longest_zone);
    return answer.refusal == gs_DONE && answer.length == length;
}

static int refused(part format, size_t longest_zone, uint32_t refusal) {
    gs_answer answer = gs_size(format.bytes, format.length, longest_zone);
    return answer.refusal == refusal && answer.length == 0;
}

static void first_use(void) {
    const uint8_t *format = (const uint8_t *)"%F %T %Z";
    gs_answer answer = gs_size(format, 8, 4);
    CHECK(answer.refusal == gs_DONE);
    CHECK(answer.length == 31);
    gs_record record = {0};
    uint8_t *line = (uint8_t *)malloc(answer.length);
    if (line == NULL)
        exit(2);
    record.year = INT32_MIN;
    record.month = 9;
    record.day = 28;
    answer = gs_format(format, 8, (const uint8_t *)"CEST", 4, record, line, answer.length);
    CHECK(answer.refusal == gs_DONE);
    CHECK(answer.length == 31);
    CHECK(memcmp(line, "-2147483648-09-28 00:00:00 CEST", 31) == 0);
    free(line);
}

static void sizes_at_the_edges(void) {
    CHECK(sized(bytes(NULL, 0), 0, 0));
    CHECK(sized(text("%Y"), 0, 11));
    CHECK(sized(text("%s"), 0, 20));
    CHECK(sized(text("%z"), 0, 10));
    CHECK(sized(text("%12z"), 0, 17));
    CHECK(sized(text("%:::z"), 0, 14));
    CHECK(sized(text("%B%-m"), 0, 10));
    CHECK(sized(text("%B%-m%-m"), 0, 12));
    CHECK(sized(text("%B%B%-m"), 0, 19));
    CHECK(sized(text("%10Z"), 0, 0));
    CHECK(sized(text("%10Z"), 1, 10));
    CHECK(sized(text("%65536Y"), 0, 65536));
    CHECK(refused(text("%65537Y"), 0, gs_NO_BUFFER));
    CHECK(refused(text("%"), 0, gs_INVALID_FORMAT_STRING));
}

static void refusals_in_order(void) {
    static uint8_t many[gs_LONGEST_FORMAT + 1];
    memset(many, '%', sizeof many);
    CHECK(sized(bytes(many, gs_LONGEST_FORMAT), gs_LONGEST_ZONE, gs_LONGEST_FORMAT / 2));
    CHECK(refused(bytes(many, gs_LONGEST_FORMAT - 1), gs_LONGEST_ZONE, gs_INVALID_FORMAT_STRING));
    CHECK(refused(bytes(many, gs_LONGEST_FORMAT + 1), 0, gs_INPUT_TOO_LONG));
    CHECK(refused(bytes(NULL, 0), gs_LONGEST_ZONE + 1, gs_INPUT_TOO_LONG));
    CHECK(refused(text("%"), SIZE_MAX, gs_INPUT_TOO_LONG));
    CHECK(refused(text("%65537Y%"), 0, gs_INVALID_FORMAT_STRING));
    CHECK(refused(text("%9999999A"), 0, gs_NO_BUFFER));
    CHECK(refused(text("%65536A%Z"), 1, gs_NO_BUFFER));
    CHECK(sized(text("%65536A%Z"), 0, 65536));
}

int main(void) {
    first_use();
    sizes_at_the_edges();
    refusals_in_order();
    return report("size");
}
