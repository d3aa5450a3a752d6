"""Made-up texts near valid ones. The number of a case decides all of it."""
import random
from collections import namedtuple

Case = namedtuple("Case", "query stations daily options")

ELEMENTS = (b"PRCP", b"SNOW", b"SNWD", b"TMAX", b"TMIN")
NAMES = (b"ALPHA", b"BRAVO AIRPORT", b"", b"  CHARLIE", b"DELTA \xc3\xa9", b"A NAME OF THIRTY COLUMNS AND MO")
STATES = (b"  ", b"NY", b"CA", b"\xff ", b"A?")
IDS = (b"ZZA00000001", b"ZZA00000002", b"ZZB00000001", b"GMA!~000001", b"USW00094728")
PLACES = ((b" 10.0000", b"  20.0000"), (b" 90.0000", b" 180.0000"), (b"-90.0000", b"-180.0000"),
          (b"    -0.5", b"  -0.0001"), (b"    12.3", b"      179"))
FIELDS = (b"", b" ", b"-", b"-0", b"0", b"+1", b"1 ", b"1.5", b".5", b"5.", b"1-", b"--1", b"99999", b"-9999", b"-9998",
          b"00001", b"a", b"\xb2", b"\t1", b"1e3", b"91", b"-91", b"181", b"90.0001", b"180.0001", b"-999.9", b"0x1")
BYTES = b" \n\r\t-+.0139aZ?~!\x00\x7f\x80\xff"
BAD_WORDS = (b"top", b"0", b"1001", b"1000", b"00001", b"366", b"367", b"-1", b"+1", b"1.0", b"99999999999999999999",
             b"highest", b"lowest", b"sum", b"dry", b"wet", b"box", b"country", b"state", b"station", b"from", b"to",
             b"TMAX", b"tmax", b"PRCP", b"SNOW", b"SNWD", b"TAVG", b"-0", b"90", b"90.0001", b"-180", b"180.00000",
             b"hot", b"30", b"30.0", b"30.05", b"100.0", b"100.1", b"-100.0", b"-100.1", b"4294967396", b"99999999999",
             b"months", b"1..12", b"12..01", b"0..3", b"3..0", b"1..13", b"1-3", b"1..", b"..2", b"1...2", b"1.2",
             b"1..2..3", b"-1..2",
             b".5", b"5.", b"2020-02-30", b"2019-02-29", b"0000-01-01", b"0001-01-01", b"9999-12-31", b"2020-7-1",
             b"2020-07-01x", b"ZZ", b"Z", b"ZZZ", b"\xc3\xa9", b"x\ty")
# Of cases after these the query may have a word that no query had before.
LAST_WITHOUT_COLD = 20_000
LAST_WITHOUT_DAYS = 25_000
NEW_BAD_WORDS = (*BAD_WORDS, b"cold", b"cold", b"-10", b"-0.5")
NEWEST_BAD_WORDS = (*NEW_BAD_WORDS, b"days", b"days", b"02-29..02-29", b"02-30..03-01", b"12-15..01-15",
                    b"01-01..12-31", b"00-10..01-10", b"01-00..01-10", b"13-01..01-01", b"04-31..05-01", b"1-1..2-2",
                    b"01-01.02-02", b"01-01...02-02", b"01-01..02-02x", b"01-01..", b"..01-01", b"01-01",
                    b"0101..0202", b"01 01..02-02", b"2020-01-01..2020-02-02", b"01/01..02/02", b"+1-01..02-02")
LAST_WITHOUT_GROUPS = 30_000
GROUP_BAD_WORDS = (*NEWEST_BAD_WORDS, b"per", b"per", b"year", b"day")
DEGREES = (b"30", b"0", b"-0", b"0.9", b"1.0", b"020.5", b"-10.0", b"-29.9", b"100", b"-100")
KINDS = (b"highest", b"highest", b"lowest", b"sum", b"dry", b"wet", b"hot")
NEW_KINDS = (*KINDS, b"cold", b"cold")
# The scores of spells whose days a number of degrees selects, and their elements.
DEGREES_OF = {b"hot": b"TMAX", b"cold": b"TMIN"}
GROUPS = ([], [b"per", b"station"], [b"per", b"year"], [b"per", b"year"])
GUESSES = (0, 1, 55, -100, 300, 2**31, -2**31)

# A run starts threads from that many bytes of daily files on.
WORTH_THREADS = 1 << 24
# A station list of that many bytes or more is read piece by piece, and by two threads if several may read.
WORTH_PIECES = 1 << 21

# The smallest and the largest value of a month, and whether days are missing or flagged.
SHAPES = ((-300, 400, True), (0, 30, True), (0, 30, False), (0, 12, False), (-5, 5, True), (0, 0, False),
          (9, 10, False), (-9999, 99999, True))
OTHERS = b"TAVG", b"WT01", b"    ", b"W\x80\xff ", b"1AVG", b"TAV:", b"T[01"


def padding():
    """Enough blank lines that a run which has them too starts its threads."""
    line = b" " * 269 + b"\n"
    return line * (WORTH_THREADS // len(line) + 1)


def long_list(stations):
    """The stations of a list, and others after them, so many that the list is read piece by piece."""
    first = stations.splitlines(keepends=True)[0]
    return stations + b"".join(b"ZZZ%08d%s" % (it, first[11:]) for it in range(WORTH_PIECES // len(first) + 1))


def station_line(rng, name):
    latitude, longitude = rng.choice(PLACES)
    height = rng.choice((b" 100.0", b"-999.9", b"      ", b"   -50"))
    line = b"%s %s %s %s %s %-30s" % (name, latitude, longitude, height, rng.choice(STATES), rng.choice(NAMES)[:30])
    end = rng.choice((b"", b"", b" GSN     72201", b" \xff"))
    return (line + end) if rng.random() < 0.8 else line[:rng.choice((30, 31, 37, 40, 44, 71))]


def month_line(rng, name, element, year, month, shape):
    low, high, gaps = shape
    groups = []
    for _ in range(31):
        kind = rng.random() if gaps else 1
        value = rng.choice((b"-9999", b"     ")) if kind < 0.05 else b"%5d" % rng.randint(low, high)
        flags = b" X " if 0.05 < kind < 0.08 else rng.choice((b"   ", b"B S", b"  7"))
        groups.append(value + flags)
    line = b"%s%04d%02d%s%s" % (name, year, month, element, b"".join(groups))
    return line if rng.random() < 0.9 else line[:rng.randint(266, 269)] + b" " * rng.choice((0, 0, 3, 9))


def daily_lines(rng, names, element):
    """Months of some series, most of one element, one after the other, so that windows and spells join."""
    found = []
    for _ in range(rng.choice((0, 2, 3, 4, 5, 6, 8))):
        name = rng.choice(names) if names and rng.random() < 0.93 else rng.choice(IDS)
        element = element if rng.random() < 0.7 else rng.choice(ELEMENTS + OTHERS)
        any_month = rng.randint(12, 12 * 9998)
        month = rng.choice((12 * 2020 + 1, 12 * 2019 + 10, 12, 12 * 10000 - 3, 12 * 1969 + 10, any_month))
        shape = rng.choice(SHAPES)
        for step in range(rng.choice((1, 1, 2, 3, 6))):
            year, rest = divmod(month - 12 + step, 12)
            if year + 1 <= 9999:
                found.append(month_line(rng, name, element, year + 1, rest + 1, shape))
    if rng.random() < 0.3:
        rng.shuffle(found)
    return found if rng.random() < 0.02 else list({it[:21]: it for it in found}.values())


def changed_line(rng, line):
    """A line with a field, a byte or its end changed."""
    kind = rng.choice((0, 0, 0, 0, 1, 2, 3, 4, 5, 5))
    if kind == 0 and len(line) >= 266:
        at, size = rng.choice([(21 + 8 * j, 5) for j in range(31)] + [(11, 4), (15, 2), (0, 11), (17, 4)])
        return line[:at] + rng.choice(FIELDS).rjust(size)[:size] + line[at + size:]
    if kind == 0:
        at, size = rng.choice(((12, 8), (21, 9), (31, 6), (0, 11), (38, 2), (41, 30)))
        return line[:at] + rng.choice(FIELDS).rjust(size)[:size] + line[at + size:]
    if kind == 1:
        return line[:rng.randrange(len(line) + 1)]
    if kind == 2:
        return line + rng.choice((b" ", b"x", b"   ", b"\r", b"\r\r", b" \r"))
    at = rng.randrange(len(line) + 1)
    middle = bytes([rng.choice(BYTES)]) if kind != 3 else b""
    return line[:at] + middle + line[at + (kind != 4):]


def changed(rng, lines):
    """A list of lines with one change."""
    lines = list(lines)
    at = rng.randrange(len(lines) + 1)
    kind = rng.randrange(8)
    if kind == 0 or not lines:
        lines.insert(at, rng.choice((b"", b"   ", b"\r", b"  \r", b"x", b" \t", b"\r\r")))
    elif at == len(lines) or kind == 1:
        lines.append(rng.choice(lines))
    elif kind == 2:
        lines[at], lines[0] = lines[0], lines[at]
    elif kind == 3:
        del lines[at]
    else:
        lines[at] = changed_line(rng, lines[at])
    return lines


def text(rng, lines):
    """The lines as a text, with one line end or the other, now and then cut."""
    end = b"\r\n" if rng.random() < 0.15 else b"\n"
    whole = end.join(lines) + (end if lines and rng.random() < 0.8 else b"")
    return whole if rng.random() < 0.98 else whole[:rng.randrange(len(whole) + 1)]


def date(rng):
    year = rng.choice((1, 1969, 1970, 2019, 2020, 2020, 2021, 9999))
    return b"%04d-%02d-%02d" % (year, rng.randint(1, 12), rng.randint(1, 28))


def score(rng, kinds):
    """The words of a score of one of these kinds, and its element."""
    kind = rng.choice(kinds)
    if kind in DEGREES_OF:
        return [kind, rng.choice(DEGREES)], DEGREES_OF[kind]
    if kind in (b"dry", b"wet"):
        return [kind], b"PRCP"
    window = [rng.choice((b"1", b"2", b"3", b"5", b"30", b"031", b"366"))] if kind == b"sum" else []
    element = rng.choice({b"highest": ELEMENTS, b"lowest": ELEMENTS[3:], b"sum": ELEMENTS[:2]}[kind])
    return [kind, *window, element], element


def day_of_a_year(rng):
    month = rng.randint(1, 12)
    return b"%02d-%02d" % (month, rng.randint(1, 29 if month == 2 else 30))


def season_of_days(rng):
    """Two days of a year: any, at an edge of a month or a year, or one day."""
    kind = rng.randrange(4)
    if kind == 0:
        return rng.choice((b"02-29..02-29", b"03-01..02-28", b"02-28..03-01", b"12-31..01-01", b"01-01..12-31",
                           b"12-15..01-15", b"02-28..02-28", b"03-01..03-01", b"07-01..06-30", b"01-31..02-01"))
    first = day_of_a_year(rng)
    return first + b".." + (first if kind == 1 else day_of_a_year(rng))


def query_words(rng, names, asked, with_days):
    words = [b"top", rng.choice((b"1", b"2", b"3", b"10", b"100", b"1000", b"007")), *asked]
    region = rng.randrange(15)
    if region == 0:
        edges = [(b"-90", b"-180", b"90", b"180"), (b"-0.5", b"179", b"90.0000", b"-0.0001"),
                 (b"10", b"20", b"10.0", b"020"), (b"90", b"180", b"90", b"-180"), (b"-1", b"-0.00010", b"13", b"21")]
        words += [b"box", *rng.choice(edges)]
    elif region == 1:
        words += [b"country", rng.choice((b"ZZ", b"GM", b"US", b"DE"))]
    elif region == 2:
        words += [b"state", rng.choice((b"NY", b"CA", b"A?", b"??", b"TX"))]
    elif region == 3:
        words += [b"station", rng.choice(names or IDS)]
    if with_days and rng.random() < 0.5:
        words += [b"days", season_of_days(rng)]
    elif rng.random() < 0.3:
        words += [b"months", rng.choice((b"1..1", b"12..1", b"6..8", b"10..03", b"7..7", b"2..11", b"1..12", b"8..7"))]
    if rng.random() < 0.25:
        first, last = date(rng), date(rng)
        if rng.random() < 0.9:
            first, last = sorted((first, last))
        words += [b"from", first, b"to", last]
    return words


def query(rng, names, asked, bad_words, group):
    words = query_words(rng, names, asked, bad_words in (NEWEST_BAD_WORDS, GROUP_BAD_WORDS)) + group
    if rng.random() < 0.2:
        for _ in range(rng.randint(1, 2)):
            at = rng.randrange(len(words) + 1)
            other = [rng.choice(bad_words)]
            words[at:at + rng.randrange(2)] = rng.choice(([], other, other, words[at:at + 1] * 2))
        if rng.random() < 0.2:
            words = words[:rng.randrange(len(words) + 1)]
    blank = b" " * (1 if rng.random() < 0.9 else rng.choice((2, 10, 40)))
    return rng.choice((b"", b"", b" ")) + blank.join(words) + rng.choice((b"", b"", b"  "))


def options(rng):
    found = {}
    if rng.random() < 0.3:
        found["workers"] = rng.choice((1, 2, 3, 7, 64) if rng.random() < 0.9 else (0, 65, 2**64 - 1))
    if rng.random() < 0.3:
        found["guess"] = rng.choice(GUESSES if rng.random() < 0.9 else (2**31 + 1, -2**31 - 1))
    return found


def case(number):
    rng = random.Random(number)
    names = rng.sample(IDS, rng.choice((0, 2, 3, 4, 5, 5, 5)))
    stations = [station_line(rng, it) for it in names]
    kinds, bad_words = (KINDS, BAD_WORDS) if number <= LAST_WITHOUT_COLD else (NEW_KINDS, NEW_BAD_WORDS)
    if number > LAST_WITHOUT_DAYS:
        bad_words = NEWEST_BAD_WORDS
    asked, element = score(rng, kinds)
    daily = daily_lines(rng, names, element)
    for _ in range(rng.choice((0, 0, 1, 1, 2))):
        if rng.random() < 0.3:
            stations = changed(rng, stations)
        else:
            daily = changed(rng, daily)
    cuts = sorted(rng.randrange(len(daily) + 1) for _ in range(rng.randint(0, 2)))
    files = [daily[a:b] for a, b in zip([0] + cuts, cuts + [len(daily)])] if daily or rng.random() < 0.5 else []
    group = []
    if number > LAST_WITHOUT_GROUPS:
        bad_words, group = GROUP_BAD_WORDS, rng.choice(GROUPS)
    whole = query(rng, names, asked, bad_words, group)
    return Case(whole, text(rng, stations), [text(rng, it) for it in files], options(rng))


def queries(number, case_of_number):
    """A list of queries: that of the case of this number, and up to three of other cases, now and then with a change."""
    rng = random.Random(f"queries {number}")
    others = (case(number + 100_000 * step).query for step in range(1, rng.randint(1, 4)))
    found = [case_of_number.query, *others]
    rng.shuffle(found)
    return text(rng, found if rng.random() < 0.9 else changed(rng, found))
