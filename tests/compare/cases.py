"""Writes the cases of the stored list to standard output; README.md has the form of a line.

usage: cases.py DRIVER

The driver is asked for the length of a text where a case wants a buffer that is exactly full.
"""

import subprocess
import sys

SEED = 626
LARGEST_ROOM = 65536
LIMIT_OF_A_BYTE = 524288

LETTERS = "%ABCDFGHILMNPRSTUVWXYZabcdeghjklmnprstuvwxyz"
DIRECTIVES = list(LETTERS) + [":z", "::z", ":::z"]
COMBINATIONS = list("cDxFvrRTX")
OFFSETS = ["z", ":z", "::z", ":::z"]
MODIFIED = {"E": "CXYcxy", "O": "HIMSUVWdeklmuwy"}

READERS = {
    "month": "mBbhcDxFv",
    "day": "decDxFv",
    "hour": "HkIlpPcrRTX",
    "minute": "McrRTX",
    "second": "ScrTX",
    "nanoseconds": "LN",
    "day_of_week": "aAuwcUWVGg",
    "day_of_year": "jUWVGg",
}
RANGE = {
    "month": (1, 12),
    "day": (1, 31),
    "hour": (0, 23),
    "minute": (0, 59),
    "second": (0, 60),
    "nanoseconds": (0, 999999999),
    "day_of_week": (0, 6),
    "day_of_year": (1, 366),
}
BAD = {
    "month": [0, 13, 255],
    "day": [0, 32, 255],
    "hour": [24, 255],
    "minute": [60, 255],
    "second": [61, 255],
    "nanoseconds": [1000000000, 4294967295],
    "day_of_week": [7, 255],
    "day_of_year": [0, 367, 65535],
}
I32 = (-2147483648, 2147483647)
I64 = (-9223372036854775808, 9223372036854775807)


FIELDS = (
    "year month day hour minute second nanoseconds "
    "day_of_week day_of_year to_int is_utc utc_offset"
).split()


def record(*values):
    return dict(zip(FIELDS, values))


LEAP = record(2024, 2, 29, 13, 5, 9, 123456789, 4, 60, 1709211909, 0, 3600)
BEFORE = record(-1, 1, 5, 0, 0, 0, 7, 2, 5, -62198323200, 1, 0)
FAR = record(12345, 12, 31, 23, 59, 60, 999999999, 6, 365, 327437553600, 0, -36000)
RECORDS = [LEAP, BEFORE, FAR]
ALL_BAD = {field: values[-1] for field, values in BAD.items()}
NOT_ASCII = "é".encode()


class Lot:
    """Numbers drawn by SplitMix64: the same ones under every version of Python."""

    def __init__(self, seed):
        self.state = seed

    def below(self, n):
        mask = (1 << 64) - 1
        self.state = (self.state + 0x9E3779B97F4A7C15) & mask
        z = self.state
        z = ((z ^ (z >> 30)) * 0xBF58476D1CE4E5B9) & mask
        z = ((z ^ (z >> 27)) * 0x94D049BB133111EB) & mask
        return (z ^ (z >> 31)) % n

    def one_of(self, things):
        return things[self.below(len(things))]


def encoded(data):
    if not data:
        return "\\-"
    field = []
    at = 0
    while at < len(data):
        end = at
        while end < len(data) and data[end] == data[at]:
            end += 1
        graphic = 33 <= data[at] <= 126 and data[at] != 92
        byte = chr(data[at]) if graphic else f"\\{data[at]:02x}"
        count = end - at
        field.append(f"{byte}\\*{count};" if count >= 8 else byte * count)
        at = end
    return "".join(field)


# The lines in their order; a dictionary, since a line that comes again is dropped.
lines = {}


# A format given as text stands for the bytes of its code points.
def line(form, base=LEAP, room=512, zone=b"CET", **changes):
    form = form.encode("latin-1") if isinstance(form, str) else form
    values = {**base, **changes}
    numbers = [room] + [values[field] for field in FIELDS]
    return " ".join([encoded(form), encoded(zone)] + [str(n) for n in numbers])


def case(*parts, **changes):
    lines[line(*parts, **changes)] = None


def limit(form):
    return len(form) * LIMIT_OF_A_BYTE


# The stamps that paper 01 gives at the edges, but for the sizing ones.
def stamps():
    case("%Y", BEFORE)
    case("%_Y", BEFORE)
    case("%v", BEFORE)
    case("%z", utc_offset=32400)
    case("%_10z", utc_offset=32400)
    case("%-z", is_utc=1, utc_offset=0)
    case("%G %V %U %W", year=2024, day_of_week=1, day_of_year=365)
    case("%G %V %U %W", year=2021, day_of_week=0, day_of_year=3)
    case("%5")
    case("%:")
    case("%2147483648Y")
    case("%10Z", zone=b"")
    case("%65536Y", BEFORE, room=LARGEST_ROOM)
    case("%65536Y", BEFORE, room=LARGEST_ROOM - 1)
    case("%9999999A", room=LARGEST_ROOM)
    case("%S", second=60)
    case("%S", second=61)
    case("%-12D")
    case("%z", utc_offset=-36000)
    case("%C", year=-1)
    case("%z %:z %::z %:::z", utc_offset=I32[0])


# Every directive under every set of flags, without a width and with one.
def flags():
    sets = ["", "-", "_", "0", "^", "#", "-0", "0-", "-_", "_-", "0_", "_0", "^#", "-#"]
    for at, directive in enumerate(DIRECTIVES):
        for marks in sets:
            form = f"%{marks}{directive}|%{marks}12{directive}"
            case(form, RECORDS[at % 3])
            if directive in "YCGsFvc":
                case(form, RECORDS[(at + 1) % 3])
        case(f"%-_0^#{directive}|%#^0_-9{directive}", RECORDS[(at + 2) % 3])


# Every small width, and widths that the decimal printer, the limit and the parser treat apart.
def widths():
    for at, directive in enumerate(DIRECTIVES):
        for marks in ["", "-", "_", "0"]:
            form = "|".join(f"%{marks}{n}{directive}" for n in range(1, 13))
            case(form, RECORDS[at % 3])
        case(f"%2147483647{directive}")
        case(f"%-65536{directive}|%-2147483647{directive}")
        case(f"%2147483648{directive}|%-99999999999999999999{directive}")
    case("%000000000000000000007Y|%-000000000000000000007Y|%00000000000000000000Y", BEFORE)


# Widths around 65,535 with room for the text. These are the long texts of the list.
def long_widths():
    for base in [LEAP, BEFORE]:
        for marks in ["", "_", "0"]:
            for width in range(65534, 65538):
                case(f"%{marks}{width}Y", base, room=LARGEST_ROOM)
    for width in [65535, 65536]:
        for directive in ["d", "e", "s", "G", "N", "L"] + OFFSETS:
            case(f"%{width}{directive}", BEFORE, room=LARGEST_ROOM)
        case(f"%_{width}d", BEFORE, room=LARGEST_ROOM)
        case(f"%0{width}e", BEFORE, room=LARGEST_ROOM)
    for directive in "AZDcn":
        case(f"%65536{directive}", room=LARGEST_ROOM)
        case(f"%065537{directive}", room=LARGEST_ROOM)


# Each field at the ends of its range and outside it, under each directive that reads it.
# Then the same values where no directive reads them.
def field_edges():
    for field, readers in READERS.items():
        for value in [*RANGE[field], *BAD[field]]:
            for letter in readers:
                case(f"%{letter}", **{field: value})
        others = [d for d in DIRECTIVES if d not in readers]
        for value in BAD[field]:
            case(".".join(f"%{d}" for d in others), **{field: value})
    for directive in DIRECTIVES:
        read = [field for field, readers in READERS.items() if directive in readers]
        unread = {f: value for f, value in ALL_BAD.items() if f not in read}
        zone = b"CET" if directive == "Z" else NOT_ASCII
        case(f"%{directive}", zone=zone, **unread)
        case(f"%{directive}", FAR, zone=NOT_ASCII, **ALL_BAD)
    for hour in range(24):
        case("%H %k %I %l %p %P %r", hour=hour)
    for month in range(1, 13):
        case("%m %B %b %h %^B %v %c", month=month)
    for day in range(7):
        case("%a %A %u %w %^A %c %^c %#c", day_of_week=day)
    for count in [0, 1, 10, 999999, 1000000, 123456789, 999999999]:
        case("%L %N %1L %2L %6N %8N %9L %10L %_12N %-12N", nanoseconds=count)


def years():
    sizes = [0, 1, 9, 10, 99, 100, 101, 999, 1000, 1970, 2024, 9999, 10000, 123456789]
    for year in sorted({-n for n in sizes} | set(sizes)) + [I32[0], I32[0] + 1, I32[1]]:
        case("%Y %C %y %G %g", year=year)
        case("%_Y %_C %-Y %-C %-G %012Y %_12Y %06C %_6C %1Y", year=year)
        case("%F|%v|%c|%D", year=year)
        case("%14F|%-14v|%028c|%-9D|%11F|%10F|%12v|%25c", year=year)


def counts():
    for count in [0, 1, 9, 10, 86400, 2147483647, 2147483648, 10**18, I64[1] - 1, I64[1]]:
        for to_int in [count, -count]:
            case("%s", to_int=to_int)
            case("%-s|%_25s|%025s|%25s|%-25s|%2s", to_int=to_int)
    case("%s|%-s|%_25s|%025s", to_int=I64[0])


def offsets():
    sizes = [0, 1, 59, 60, 61, 3540, 3599, 3600, 3660, 3661, 19800, 32400, 35999, 36000]
    sizes += [36060, 36061, 45900, 86399, 86400, 359999, 360000, 3600000, I32[1]]
    for offset in sorted({-n for n in sizes} | set(sizes)) + [I32[0]]:
        for is_utc in [0, 1]:
            case("%z %:z %::z %:::z %-z %-:z %-::z %-:::z", is_utc=is_utc, utc_offset=offset)
        case("%_z %_:z %_::z %_:::z %0z %0-z %_-z %-_z", is_utc=1, utc_offset=offset)
        case("%5z %6z %7:z %10::z %4:::z %_12z %_12:z", utc_offset=offset)
        case("%_12::z %_12:::z %012z %-12z %-_12:::z %012::z", is_utc=1, utc_offset=offset)


# The turn of the year on each weekday. Day 366 of a common year stands here too, which has no text.
def weeks():
    form = "%G %V %g %U %W %j"
    for weekday in range(7):
        for year in [2023, 2024, 2025]:
            for day in [1, 2, 3, 4, 363, 364, 365, 366]:
                case(form, year=year, day_of_week=weekday, day_of_year=day)
        for year in [I32[0], -400, -1, 0, 1900, I32[1]]:
            for day in [1, 366]:
                case(form, year=year, day_of_week=weekday, day_of_year=day)
        for day in [7, 8, 180]:
            case("%U %W %-U %_W %_5V", day_of_week=weekday, day_of_year=day)


# Day 366 in common years and in leap years, centuries of both sorts among them.
def days_366():
    readers = READERS["day_of_year"]
    others = ".".join(f"%{d}" for d in DIRECTIVES if d not in readers)
    for year in [I32[0], -400, -100, -4, -1, 0, 1900, 2000, 2023, 2024, 2100, I32[1]]:
        for letter in readers:
            case(f"%{letter}", year=year, day_of_year=366)
        case(others, year=year, day_of_year=366)
    for room in [0, 3, 4, 8]:
        case("day %j", room=room, year=2023, day_of_year=366)
        case("%j%", room=room, year=2023, day_of_year=366)
        case("%20V", room=room, year=2023, day_of_year=366)


# Directives that are written as they stand in the format, and modifiers that are skipped.
def echoes():
    for byte in range(128):
        if chr(byte) not in LETTERS + "-_0^#123456789:EO":
            case(f"<%{chr(byte)}>")
            if chr(byte).isalpha():
                case(f"%-_012{chr(byte)}Y")
    for modifier, letters in MODIFIED.items():
        for letter in LETTERS:
            if letter in letters:
                case(f"%{modifier}{letter}|%_5{modifier}{letter}", BEFORE)
            else:
                case(f"%-5{modifier}{letter}")
        for text in [":z", "::z", "E", "O", "Q", "5Y", "-Y", "EY", "OH", " Y"]:
            case(f"%{modifier}{text}")
    for before in ["", "-", "_0^#", "5", "-12", "E", "5O", ":", "3::"]:
        for high in ["\x80", "\xc3\xa9", "\xff"]:
            case(f"%{before}{high}Y")
            case(f"%{before}{high}%{before}{high}%Y")
    for colons in [":", "::", ":::", "::::", ":::::"]:
        for after in ["", "z", "zz", "Y", "%Y", " z", "Ez", "5z", "-z"]:
            case(f"%{colons}{after}")
        case(f"%-7{colons}z|%_7{colons}z|%07{colons}")
    for text in ["5-Y", "5_Y", "5^Y", "5#Y", "5 Y", "12Q", "10Y", "0010Y", "5%Y", "-%", "9%"]:
        case(f"%{text}")


# Formats that end inside a directive, and their neighbours that do not.
def cuts():
    tails = ["", "5", "12", "-", "_", "0", "^", "#", "-_0^#", "-5", "_12", "0001"]
    tails += ["2147483647", "2147483648", "99999999999999999999", ":", "::", "::::", "5:"]
    tails += ["E", "O", "5E", "-O", "EE", "OO", "E%", "O%5", ":%", "Q%", "%%", "%%%", "\x80%"]
    for tail in tails:
        case(f"%{tail}")
        case(f"abc%{tail}", room=6)
    case("%", zone=NOT_ASCII, **ALL_BAD)
    case("%", room=0)


def literals():
    every_byte = bytes(b for b in range(256) if b != 37)
    case(every_byte)
    case(bytes(range(128, 256)))
    for byte in [0, 10, 32, 92, 127, 128, 255]:
        case(bytes([byte]))
        case(bytes([byte]) * 8 + b"%Y" + bytes([byte]) * 7)
    case("Köln, %H Uhr %M".encode(), zone=NOT_ASCII)
    case("stamp: \\-%Y\\*3;")
    for room in [0, 1, LARGEST_ROOM]:
        case("", room=room, zone=NOT_ASCII, **ALL_BAD)
    case("a" * 4096, room=4096)
    case("a" * 4096, room=4095)
    case("%Y" * 2048, room=8192)
    case("%Y" * 2048, room=8191)
    case("%" * 4096, room=2048)
    case("%" * 4095, room=2048)


def decoded_length(field):
    length = 0
    while field and field != "\\-":
        if field.startswith("\\*"):
            count, field = field[2:].split(";", 1)
            length += int(count) - 1
        else:
            length += 1
            field = field[3:] if field[0] == "\\" else field[1:]
    return length


# Buffers that are exactly full, and one byte short.
def rooms(driver):
    forms = [f"%{d}" for d in DIRECTIVES]
    forms += [f"%{d}" for d in ["20A", "20Y", "_20Y", "20D", "20N", "20Z", "20z"]]
    forms += ["%_10z", "%_5Y", "%020A", "%-20c", "plain", "%Q", "%:", "%EA"]
    forms += ["%Y-%m-%dT%H:%M:%S.%3N%:z", "sale %j %%%n", "\x80%\xff%e"]
    asked = [(form, RECORDS[at % 3]) for at, form in enumerate(forms)]
    wide = "\n".join(line(form, base, LARGEST_ROOM) for form, base in asked)
    told = subprocess.run([driver], input=wide, capture_output=True, text=True, check=True)
    for (form, base), answer in zip(asked, told.stdout.splitlines()):
        length = decoded_length(answer.split(" ")[16])
        case(form, base, length)
        case(form, base, length - 1)
    for room in range(11):
        case("%Y-%m-%d", room=room)
        case("%_10z", room=room)
        case("a%6B", room=room)


# Which refusal comes first. The widths lie on both sides of the limit.
def refusals():
    def both_sides(form, width_at_limit, **changes):
        for width in [width_at_limit, width_at_limit + 1]:
            for room in [0, 9, LARGEST_ROOM]:
                case(form.replace("W", str(width)), room=room, **changes)

    nine, ten, eleven = limit("%1234567A"), limit("%_1234567A"), limit("ab%1234567A")
    both_sides("%WA", nine + 6, day_of_week=0)
    both_sides("%WY", nine + 65535)
    both_sides("%_WY", ten + 65535, year=-1)
    both_sides("%WN", nine)
    both_sides("%Wz", nine - 1 + 5 - 1)
    both_sides("%Wz", nine - 1 + 5, utc_offset=36000)
    both_sides("%_Wz", ten + 5 - 1, utc_offset=-36000)
    both_sides("%WD", nine + 8)
    both_sides("%-WD", ten + 8)
    both_sides("%Wc", nine + 24, month=13)
    both_sides("%WZ", nine + 3)
    both_sides("%WZ", nine + 3, zone=b"")
    both_sides("%WZ", nine + 3, zone=NOT_ASCII)
    both_sides("%WB", nine + 8, month=13)
    both_sides("ab%WA", eleven - 2 + 6, day_of_week=0)
    both_sides("%Y%WA", eleven - 4 + 6, day_of_week=0)
    both_sides("%9n%WA", limit("%9n%1234567A") - 9 + 6, day_of_week=0)

    # The limit of the longest format is one more than the greatest width.
    greatest = "%2147483647A"
    for before in [0, 6, 7, 8]:
        for length in [4095, 4096]:
            form = "x" * before + greatest
            case(form + "x" * (length - len(form)), day_of_week=0, room=before)

    # A field out of range before and after a write that has no room.
    for room in range(6):
        case("abc%B", room=room, month=13)
        case("%B%Y", room=room, month=13)
        case("%5R%m", room=room, month=13)
        case("%8R%m", room=room, hour=24)
        case("%4m%Q", room=room, month=0)
    for room in [0, 11, 12, 13]:
        case("%20D", room=room, month=13)
        case("%-20D", room=room, day=32)
        case("%20m", room=room, month=13)
        case("%20A", room=room, day_of_week=7)
        case("%012Z", room=room, zone=NOT_ASCII)
    for combination in COMBINATIONS:
        case(f"%40{combination}", room=10, **ALL_BAD)
        case(f"%40{combination}", room=64, **ALL_BAD)
        case(f"%9999999{combination}", **ALL_BAD)

    # A cut format after a field out of range, and after a write that has no room.
    for month in [12, 13]:
        for room in [0, 2, 3, 8]:
            case("%b%", room=room, month=month)
            case("abc%5", room=room, month=month)
            case("%m%-", room=room, month=month)


def zones():
    names = ["", "A", "UTC", "utc", "CeSt", "Europe/Berlin", "x" * 64, "aZ09[`{@" * 8]
    names += [" ", "~", "\0", "\n", "\x1b[1m", "\x1f", "\x7f", "\\", "%Y"]
    for byte in "\x1b\x1f ~\x7f":
        names += [f"{byte}bc", f"a{byte}c", f"ab{byte}"]
    names += ["é", "UTC€", "\x80", "x" * 62 + "é", "日本標準時", "😀"]
    for name in names:
        zone = name.encode()
        case("%Z|%^Z|%#Z|%^#Z|%#^Z|%-Z|%-#Z|%_^Z", zone=zone, room=1024)
        case("%10Z|%-10Z|%_10Z|%010Z|%0-10Z|%-010Z|%_-10Z|%-_10Z", zone=zone, room=1024)
        case("%1Z|%3Z|%4Z|%^064Z|%#65Z|%-_#66Z|%0-^67Z", zone=zone, room=1024)
        case("%Z", zone=zone, room=len(zone))
        case("%Z", zone=zone, room=max(len(zone) - 1, 0))
        case("no zone is read %%", zone=zone)


# Formats drawn by lot, over records drawn by lot.
def mixed():
    lot = Lot(SEED)
    marks = ["", "", "-", "_", "0", "^", "#", "0-", "_^", "-#"]
    sizes = ["", "", "", "1", "3", "5", "9", "11", "14", "27", "2147483648"]
    texts = ["a", " ", "-", ":", "/", "stamp", "\xe9", "%E", "%Q", "%::", "%%", "%O"]
    for _ in range(250):
        form = ""
        for _ in range(1 + lot.below(6)):
            if lot.below(3) == 0:
                form += lot.one_of(texts)
            else:
                form += "%" + lot.one_of(marks) + lot.one_of(sizes) + lot.one_of(DIRECTIVES)
        if lot.below(16) == 0:
            form += "%"
        fields = {
            field: low + lot.below(high - low + 1) if lot.below(40) else lot.one_of(BAD[field])
            for field, (low, high) in RANGE.items()
        }
        fields["year"] = lot.below(24000) - 12000 if lot.below(8) else lot.one_of(I32)
        fields["to_int"] = lot.below(1 << 41) - (1 << 40) if lot.below(8) else lot.one_of(I64)
        fields["is_utc"] = lot.below(2)
        fields["utc_offset"] = lot.below(97) * 1800 - 86400 + (lot.below(4) == 0) * lot.below(1800)
        zone = lot.one_of([b"", b"UTC", b"CEST", b"Asia/Kolkata"])
        case(form, room=lot.below(60) if lot.below(3) == 0 else 256, zone=zone, **fields)


def main():
    stamps()
    flags()
    widths()
    long_widths()
    field_edges()
    years()
    counts()
    offsets()
    weeks()
    days_366()
    echoes()
    cuts()
    literals()
    rooms(sys.argv[1])
    refusals()
    zones()
    mixed()
    sys.stdout.write("".join(f"{text}\n" for text in lines))


main()
