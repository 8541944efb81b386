/* Groatsaddle: format bytes and a flat time record go in, text comes out in a buffer that the caller lends. The record
   can be had from a count of seconds, and the format can come in runs, or be read once and stored.

   Link libgroatsaddle.a (-lgroatsaddle), which `rt lib --cpu x86-64` in crates/groatsaddle writes to its out/, for
   x86-64. It calls memcpy and memset, which a C compiler's programs have, and nothing else. gs_format takes some 24 KB
   of code and 1.3 KB of constants (the figures on this page are of an older compiler, rattle-kit-5b).

   A first use:

       uint8_t line[32];
       gs_dated now = gs_record_from_count(1735574709, 3600, 0, 0);
       gs_answer answer = gs_format((const uint8_t *)"%F %T", 5, NULL, 0, now.record, line, sizeof line);
       if (now.refusal == gs_DONE && answer.refusal == gs_DONE)
           printf("%.*s\n", (int)answer.length, (const char *)line);

   Nothing is allocated and no state is kept: any number of threads may call at once, as long as nobody changes what is
   lent while the call runs. So may an interrupt, if the registers of the float unit are saved for it: the offset's hour
   is a floating point number. The deepest stack that was seen is 1,592 bytes, of gs_format, 1,696 of a format in runs
   and 1,688 of a stored form; that is what was seen by running it, not a bound that is proved. */

#ifndef GROATSADDLE_H
#define GROATSADDLE_H

#include <stddef.h>
#include <stdint.h>

#ifdef __cplusplus
extern "C" {
#endif

/* The version of this header and of the library: major, minor, patch. */
#define gs_VERSION_MAJOR 0
#define gs_VERSION_MINOR 1
#define gs_VERSION_PATCH 0
#define gs_VERSION "0.1.0"

/* The longest inputs, in bytes. */
#define gs_LONGEST_FORMAT 4096
#define gs_LONGEST_ZONE 64
#define gs_LONGEST_BUFFER 65536
#define gs_LONGEST_RUN 32

/* The longest stored form that gs_compile writes, in bytes: that of 2,048 directives of two bytes each. */
#define gs_LONGEST_STORED 22534

/* What `refusal` of an answer can be. */
enum {
    /* The text stands in the buffer, or what was asked for in the answer. */
    gs_DONE = 0,
    /* InvalidTime: a directive reads a field that is out of its range, or `%Z` a zone name with a byte below 32 or above
       126; a count comes with too many nanoseconds, or a record has no count. */
    gs_INVALID_TIME = 1,
    /* InvalidFormatString: the format ends inside a directive, as "%" and "%5" do. */
    gs_INVALID_FORMAT_STRING = 2,
    /* FormattedStringTooLarge: padding would take the text past 524,288 bytes for each byte of the format. */
    gs_FORMATTED_STRING_TOO_LARGE = 3,
    /* WriteZero: the buffer is too short for the text or for the stored form, or the store for the format. */
    gs_WRITE_ZERO = 4,
    /* InputTooLong: an input is longer than the lengths above. It comes before every other refusal. */
    gs_INPUT_TOO_LONG = 5,
    /* NoBuffer, of gs_size only: some record with all fields in range has its text in no buffer of 65,536 bytes. */
    gs_NO_BUFFER = 6,
    /* OutOfRange, of gs_record_from_count only: count plus offset leaves an int64_t, or its year an int32_t. */
    gs_OUT_OF_RANGE = 7,
    /* LengthMismatch, of a format in runs only: the runs bring more bytes than the total that was said, or fewer. */
    gs_LENGTH_MISMATCH = 10,
    /* BadStored, of gs_format_stored only: the bytes are no stored form. */
    gs_BAD_STORED = 11
};

/* The fields are independent: nothing asks that the weekday and the date agree. A field is checked where a directive
   reads it, and only there. year, to_int and utc_offset may have any value. */
typedef struct {
    int32_t year;
    uint8_t month;        /* 1 to 12 */
    uint8_t day;          /* of the month, 1 to 31 */
    uint8_t hour;         /* 0 to 23 */
    uint8_t minute;       /* 0 to 59 */
    uint8_t second;       /* 0 to 60 */
    uint32_t nanoseconds; /* 0 to 999,999,999 */
    uint8_t day_of_week;  /* Sunday 0, to 6 */
    uint16_t day_of_year; /* 1 to 366; 366 only in a leap year */
    int64_t to_int;       /* seconds since 1970-01-01 00:00:00 UTC, printed by %s */
    uint8_t is_utc;       /* 0: no; any other value: yes. A byte, so that no value of it is wrong. */
    int32_t utc_offset;   /* seconds east of UTC */
} gs_record;

/* The library reads a record by this layout. Where a compiler lays it out in another way, this refuses to compile: an
   array of a negative size. */
typedef char gs_record_layout[
    sizeof(gs_record) == 40 && offsetof(gs_record, month) == 4 && offsetof(gs_record, second) == 8 &&
    offsetof(gs_record, nanoseconds) == 12 && offsetof(gs_record, day_of_week) == 16 &&
    offsetof(gs_record, day_of_year) == 18 && offsetof(gs_record, to_int) == 24 &&
    offsetof(gs_record, is_utc) == 32 && offsetof(gs_record, utc_offset) == 36 ? 1 : -1];

typedef struct {
    uint32_t refusal; /* gs_DONE, or why there is no text */
    uint32_t length;  /* bytes of text, or the size asked for; 0 where refused */
} gs_answer;

/* Writes the text of the record, as the format says, to the front of the buffer.

   Read: format_len bytes from format, zone_len bytes from zone (the zone name, which `%Z` prints), and the record. A 0
   byte ends neither: in the format it is a byte as any other, and in the zone name one that `%Z` refuses. A pointer whose
   length is 0 is never followed, and may be NULL.

   Written: where done, the first `length` bytes of the buffer and no other; no 0 byte is put behind the text. Where
   refused, no byte of the buffer is changed. The buffer must overlap neither the format nor the zone name.

   The format runs from left to right, and the first thing that fails names the refusal. */
gs_answer gs_format(const uint8_t *format, size_t format_len,
                    const uint8_t *zone, size_t zone_len,
                    gs_record record,
                    uint8_t *buffer, size_t buffer_len);

/* Gives, as `length`, the bytes that a buffer needs for this format, whatever the record: in a buffer of that length
   every record whose zone name has at most longest_zone bytes gets its text or gs_INVALID_TIME, and some record with all
   fields in range needs every byte of it.

   Read: format_len bytes from format, which may be NULL where that is 0. Nothing is written.

   Refused, in this order: gs_INPUT_TOO_LONG (longest_zone above 64 too), gs_INVALID_FORMAT_STRING, gs_NO_BUFFER. */
gs_answer gs_size(const uint8_t *format, size_t format_len, size_t longest_zone);

typedef struct {
    uint32_t refusal; /* gs_DONE, gs_INVALID_TIME or gs_OUT_OF_RANGE */
    gs_record record; /* every field 0 where refused */
} gs_dated;

typedef struct {
    uint32_t refusal; /* gs_DONE or gs_INVALID_TIME */
    int64_t count;    /* 0 where refused */
} gs_counted;

typedef char gs_counter_layout[
    sizeof(gs_dated) == 48 && offsetof(gs_dated, record) == 8 && sizeof(gs_counted) == 16 &&
    offsetof(gs_counted, count) == 8 ? 1 : -1];

/* Gives the record of an instant: count is in seconds since 1970-01-01 00:00:00 UTC, and local time is count plus
   utc_offset, by the proleptic Gregorian calendar. Every field is in range, second is at most 59, day_of_week and
   day_of_year are the date's, to_int is the count, and is_utc is 1 where the one passed is not 0, else 0.

   Refused, in this order: gs_INVALID_TIME (nanoseconds above 999,999,999), gs_OUT_OF_RANGE. */
gs_dated gs_record_from_count(int64_t count, int32_t utc_offset, uint32_t nanoseconds, uint8_t is_utc);

/* Gives the count back. Date, time and utc_offset are read, and no other field.

   Refused with gs_INVALID_TIME: a date that does not exist, an hour above 23, a minute or a second above 59. */
gs_counted gs_count_from_record(gs_record record);

/* A format that arrives in runs: its total length first, then runs of 0 to 32 bytes, then the end. However it is cut,
   the answer and the text are those of gs_format for the whole format. Text is written as it is read: a byte that
   stands for itself at once, a directive with its last byte.

   A first use, with a format that comes over a bus:

       uint8_t run[gs_LONGEST_RUN], store[256], line[80];
       size_t n;
       gs_runs runs = gs_runs_start(bus_total(), NULL, 0, store, sizeof store, line, sizeof line);
       while (bus_run(run, &n))
           runs = gs_runs_run(runs, run, n, NULL, 0, record, store, sizeof store, line, sizeof line);
       runs = gs_runs_end(runs, NULL, 0, record, store, sizeof store, line, sizeof line);
       gs_progress answer = gs_runs_answer(runs);
       if (!answer.more && answer.refusal == gs_DONE)
           printf("%.*s\n", (int)answer.length, (const char *)line);

   The answer may be asked for after any call, and need not be: a call after a refusal, or after the end, changes
   nothing and gives the same answer again.

   The store is where the library keeps the bytes of a directive that is not yet wholly read. It must have at least as
   many bytes as the format, gs_LONGEST_FORMAT for any. What stands in it at first doesn't matter.

   Zone name, record, store and buffer must be the same through all calls, and the caller leaves store and buffer alone
   between them: that is what the equality with gs_format is for. Each call looks at what it is lent anew, so that
   another one, a changed one, or numbers that no call has given can do no harm: what is then written may be another
   text, but it stands in the buffer that this call is lent, and nowhere else but in that store. */

/* What is handed from call to call. The numbers are the library's; the last call's are the ones to pass on. */
typedef struct {
    size_t total;   /* bytes of the format, as gs_runs_start was told */
    size_t passed;  /* bytes of it that are read for good */
    size_t kept;    /* bytes of it in the store: those of a directive that is not yet wholly read */
    size_t written; /* bytes of text in the buffer so far, where refused too */
    size_t number;  /* of the refusal; 0: none */
    uint8_t over;   /* 0: the end was not called; any other value: it was */
} gs_runs;

typedef struct {
    uint32_t refusal; /* gs_DONE, or why there is no whole text */
    uint8_t more;     /* 1: neither done nor refused, more is to come; else 0 */
    size_t length;    /* bytes of text where done, that is where refusal and more are 0; else 0 */
} gs_progress;

typedef char gs_runs_layout[
    sizeof(size_t) == 8 && sizeof(gs_runs) == 48 && offsetof(gs_runs, number) == 32 && offsetof(gs_runs, over) == 40 &&
    sizeof(gs_progress) == 16 && offsetof(gs_progress, more) == 4 && offsetof(gs_progress, length) == 8 ? 1 : -1];

/* The first call: the bytes of the whole format, and what the later calls will be lent. No byte of zone name, store or
   buffer is read or written; their lengths count. A pointer whose length is 0 may be NULL, here and below.

   Refused, in this order: gs_INPUT_TOO_LONG (total, zone name or buffer), gs_WRITE_ZERO (the store is shorter than the
   total). */
gs_runs gs_runs_start(size_t total,
                      const uint8_t *zone, size_t zone_len,
                      const uint8_t *store, size_t store_len,
                      const uint8_t *buffer, size_t buffer_len);

/* The next run, of 0 to 32 bytes. Store and buffer must overlap neither each other nor anything else that is lent.

   Refused, in this order:
   - gs_INPUT_TOO_LONG: a run of more than 32 bytes; zone name or buffer are looked at again. Nothing of it is read.
   - gs_LENGTH_MISMATCH: the run passes the total. Nothing of it is read.
   - gs_WRITE_ZERO, if another store or buffer is lent than before and is too short. Nothing of the run is read.
   - by place in the format, what gs_format refuses.

   What stands in the buffer then:
   - after gs_WRITE_ZERO of the text, the longest part of it, from its start, that fits: the buffer is full;
   - after any other refusal, the text before what failed, and nothing of a directive that is not yet wholly read. A
     directive that fails has written what it writes before it fails, as the blanks of "%20D" before a month 13;
   - in each case, and after each call, every byte behind `written` is as it was. */
gs_runs gs_runs_run(gs_runs runs,
                    const uint8_t *bytes, size_t bytes_len,
                    const uint8_t *zone, size_t zone_len,
                    gs_record record,
                    uint8_t *store, size_t store_len,
                    uint8_t *buffer, size_t buffer_len);

/* The end of the format. What is in the store is read as its end; the store is not changed.

   Refused, in this order: gs_INPUT_TOO_LONG (as for a run), gs_LENGTH_MISMATCH (the runs brought fewer bytes than the
   total), gs_WRITE_ZERO (another buffer, too short), then by place what gs_format refuses at the end of a format. The
   buffer is then as for a run. */
gs_runs gs_runs_end(gs_runs runs,
                    const uint8_t *zone, size_t zone_len,
                    gs_record record,
                    const uint8_t *store, size_t store_len,
                    uint8_t *buffer, size_t buffer_len);

/* What the last call answered. A number that is none of the table reads as gs_WRITE_ZERO. */
gs_progress gs_runs_answer(gs_runs runs);

/* A format that is read once and stored, then run many times. For every record, zone name and buffer, running the stored
   form with the format's length is what gs_format answers for the format, and leaves in the buffer.

   A first use:

       uint8_t stored[256], line[64];
       gs_answer form = gs_compile((const uint8_t *)"%F %T", 5, stored, sizeof stored);
       gs_answer answer = gs_format_stored(stored, form.length, 5, NULL, 0, record, line, sizeof line);

   The stored form has three sections, each after its count of entries. A count has two bytes, and every number has its
   low byte first.

   - The literal bytes, one after the other.
   - The directives, 8 bytes each: the letter, or 1, 2 or 3 for `%:z`, `%::z` and `%:::z`; padding, 0 by default and
     after `-`, 1 after `_`, 2 after `0`; flags, the sum of 1 for `-`, 2 for `#` and 4 for `^`; 1 where a width is given,
     else 0; the width in four bytes, 0 where none is given. Of two letters that mean the same gs_compile stores one: `D`
     for `x`, `T` for `X`, `b` for `h`.
   - The steps, 3 bytes each: 0 and how many of the next literal bytes are written; or 1 and which directive is, from 0.

   gs_compile makes one step of neighbouring bytes that stand for themselves, echoes among them, and gives each directive
   an entry of its own. The empty format is six 0 bytes. */

/* Writes the stored form of the format to the front of `stored`; `length` is its length, at most gs_LONGEST_STORED.

   Read: format_len bytes from format, which may be NULL where that is 0. Written: where done, the first `length` bytes of
   `stored` and no other; where refused, none. `stored` must not overlap the format.

   Refused, in this order: gs_INPUT_TOO_LONG (the format, or a place of more than 65,536 bytes), gs_INVALID_FORMAT_STRING,
   gs_WRITE_ZERO (the stored form has no room). */
gs_answer gs_compile(const uint8_t *format, size_t format_len,
                     uint8_t *stored, size_t stored_len);

/* Writes the text of the record, as the stored form says, to the front of the buffer. Nothing but the text is written.

   Read: stored_len bytes from stored, whatever they are, zone_len bytes from zone, and the record. A pointer whose length
   is 0 is never followed, and may be NULL. The buffer must overlap neither the stored form nor the zone name.

   format_len is the length of the format that was compiled. Nothing but the size limit goes by it, 524,288 bytes of text
   for each of its bytes, which only padding can pass; with 0, any padding does.

   Refused, in this order:
   - gs_INPUT_TOO_LONG: format_len is above 4,096, the zone name or the buffer is too long.
   - gs_BAD_STORED, before any text: the counts and stored_len disagree; a step's first byte is neither 0 nor 1, or it
     passes its section; or a directive, used or not, is one that no format gives.
   - by place, the first thing that fails: gs_INVALID_TIME, gs_FORMATTED_STRING_TOO_LARGE, gs_WRITE_ZERO.
   No byte of the buffer is changed then. */
gs_answer gs_format_stored(const uint8_t *stored, size_t stored_len, size_t format_len,
                           const uint8_t *zone, size_t zone_len,
                           gs_record record,
                           uint8_t *buffer, size_t buffer_len);

#ifdef __cplusplus
}
#endif

#endif
