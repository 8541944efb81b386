/* A first use from C, which README.md shows. */
#include <stdio.h>
#include "groatsaddle.h"

int main(void)
{
    static const uint8_t format[] = "%F %T %z, %A";
    uint8_t line[64];

    gs_answer size = gs_size(format, sizeof format - 1, 0);
    gs_dated now = gs_record_from_count(1735574709, 3600, 0, 0);
    gs_answer answer = gs_format(format, sizeof format - 1, NULL, 0, now.record, line, sizeof line);
    if (size.refusal != gs_DONE || now.refusal != gs_DONE || answer.refusal != gs_DONE)
        return 1;
    printf("%.*s (%u bytes; no record needs more than %u)\n",
           (int)answer.length, (const char *)line, answer.length, size.length);
    return 0;
}
