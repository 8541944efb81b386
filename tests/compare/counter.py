"""Cases both ways, beside Python's datetime. It knows the years 1 to 9999; for any other, a year of 2000 to 2399 stands, shifted by 400 years."""
import collections
import datetime
import itertools
import random
import subprocess
import sys

I64, I32 = 2**63, 2**31
DAY0 = datetime.date(1970, 1, 1)
REFUSED = ' 0' * 12  # no record


def day_of(year, month, day):
    """The number of a date, from 1970-01-01; ValueError where there is none."""
    shift = 0 if 1 <= year <= 9999 else (year - 2000) // 400
    return (datetime.date(year - 400 * shift, month, day) - DAY0).days + 146097 * shift


def date_of(number):
    """The date, and the years to add to it."""
    known = day_of(1, 1, 1) <= number <= day_of(9999, 12, 31)
    shift = 0 if known else (number - day_of(2000, 1, 1)) // 146097
    return DAY0 + datetime.timedelta(days=number - 146097 * shift), 400 * shift


def made(count, offset, nanoseconds, is_utc):
    local = count + offset
    if nanoseconds > 999_999_999:
        return '1' + REFUSED
    date, shift = date_of(local // 86400)
    if not -I64 <= local < I64 or not -I32 <= date.year + shift < I32:
        return '7' + REFUSED
    second = local % 86400
    return ' '.join(map(str, (
        0, date.year + shift, date.month, date.day, second // 3600, second // 60 % 60, second % 60, nanoseconds,
        date.isoweekday() % 7, date.timetuple().tm_yday, count, int(is_utc != 0), offset, 0, count)))


def counted(year, month, day, hour, minute, second, offset):
    try:
        datetime.time(hour, minute, second)
        return '0 %d' % (day_of(year, month, day) * 86400 + hour * 3600 + minute * 60 + second - offset)
    except ValueError:
        return '1 0'


def stamped(count, offset):
    date, shift = date_of((count + offset) // 86400)
    year, week, weekday = date.isocalendar()
    year += shift
    return '%s-W%02d-%d %03d %d' % ('-%04d' % -year if year < 0 else '%04d' % year, week, weekday, date.timetuple().tm_yday, count)


first, last = day_of(-I32, 1, 1) * 86400, day_of(I32 - 1, 12, 31) * 86400 + 86399
OFFSETS = [0, 1, -1, 3600, -36000, 50400, 86399, -86400, I32 - 1, 1 - I32, -I32]
NANOS = [0, 1, 999_999_999, 1_000_000_000, 2**32 - 1]
YEARS = [*range(-805, 806), *range(1895, 2405), -I32, 1 - I32, I32 - 2, I32 - 1]


def edges():
    ends = {-I64, I64 - 1, 0, first, last} | {s * 2**k for s in (1, -1) for k in range(20, 63)}
    for end, near, offset in itertools.product(sorted(ends), (-2, -1, 0, 1, 2), OFFSETS):
        for count in {end + near, end + near - offset}:
            if -I64 <= count < I64:
                for nanoseconds in NANOS:
                    yield made, (count, offset, nanoseconds, near & 255)
    for year in YEARS:
        for month, day in itertools.product(range(14), (0, 1, 27, 28, 29, 30, 31, 32, 255)):
            yield counted, (year, month, day, 23, 59, 59, 0)
        for month, day in ((1, 1), (2, 28), (3, 1), (12, 31)):
            midnight = day_of(year, month, day) * 86400
            for near, offset in itertools.product((-1, 0, 86399, 86400), (0, 3600)):
                yield made, (midnight + near - offset, offset, 7, 1)
        for hour, minute, second in ((23, 59, 60), (0, 60, 0), (24, 0, 0), (0, 0, 61), (255, 255, 255)):
            yield counted, (year, 12, 31, hour, minute, second, 5)
        for offset in OFFSETS:
            yield counted, (year, 1, 1, 0, 0, 0, offset)
            yield counted, (year, 12, 31, 23, 59, 59, offset)


def by_lot(draw, cases):
    for _ in range(cases):
        bits = draw.choice((0, 4, 6, 7, 8, 16, 30))
        count = draw.randrange(-I64, I64) >> bits
        offset = draw.choice((draw.randrange(-50400, 50401), draw.randrange(-I32, I32)))
        yield made, (count, offset, draw.randrange(2**30), draw.randrange(3))
        yield counted, (draw.randrange(-I32, I32) >> draw.choice((0, 10, 19)), draw.randrange(14), draw.randrange(33),
                        draw.randrange(25), draw.randrange(61), draw.randrange(61), draw.randrange(-I32, I32))
    for _ in range(cases // 15):
        yield stamped, (draw.randrange(first + I32, last - I32) >> draw.choice((0, 10, 25)), draw.randrange(-50400, 50401))


LETTER = {made: 'R', counted: 'C', stamped: 'S'}


def main(driver, seed, cases):
    tally, differ = collections.Counter(), 0
    every = itertools.chain(edges(), by_lot(random.Random(seed), cases))
    while batch := list(itertools.islice(every, 200_000)):
        lines = ['%s %s' % (LETTER[judge], ' '.join(map(str, case))) for judge, case in batch]
        done = subprocess.run([driver], input='\n'.join(lines) + '\n', capture_output=True, text=True, check=True)
        for (judge, case), line, got in zip(batch, lines, done.stdout.splitlines(), strict=True):
            want = judge(*case)
            tally[judge.__name__, want[:1] if judge is not stamped else 'text'] += 1
            if got != want:
                differ += 1
                if differ <= 10:
                    print('%s\n  the library %s\n  datetime    %s' % (line, got, want))
    for (judge, answer), n in sorted(tally.items()):
        print('%9d %s, answer %s' % (n, judge, answer))
    print('%d cases, %d differ' % (tally.total(), differ))
    return differ > 0


sys.exit(main(sys.argv[1], int(sys.argv[2]), int(sys.argv[3])))
