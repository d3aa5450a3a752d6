"""What `extremes rank`, `extremes check` and `extremes describe` print for some texts, by docs/FORMATS.md and
docs/DEFINITIONS.md alone. Plain and slow: all candidates are listed and put in order. The daily files are named
`1.dly`, `2.dly` and so on.

An answer is what the program leaves: (status, standard output, standard error), for the arguments
and, as bytes, the station list, the report, the certificate and the daily files.
"""
import re
from collections import Counter, namedtuple
from datetime import date

ELEMENTS = (b"PRCP", b"SNOW", b"SNWD", b"TMAX", b"TMIN")
TEMPERATURES = (b"TMAX", b"TMIN")
FALLS = (b"PRCP", b"SNOW")
MOST = 2**20
MOST_CODES = 200
BLANK, BAD = "blank", "bad"
CODE = re.compile(rb"[A-Z][A-Z0-9]{3}")

Station = namedtuple("Station", "id latitude longitude elevation state name")
Query = namedtuple("Query", "k kind element number region is_in_season first last group text")
Candidate = namedtuple("Candidate", "score id first last name")


class Refused(Exception):
    """A refusal, as its line on standard error."""


# ---- lines, numbers and dates ----

def lines(text):
    """The lines that aren't blank, with their numbers."""
    pieces = text.split(b"\n")
    for number, line in enumerate(pieces if pieces[-1] else pieces[:-1], 1):
        line = line[:-1] if line.endswith(b"\r") else line
        if line.strip(b" "):
            yield number, line


def field(line, first, last):
    """The bytes of columns first to last, with blanks for those that are missing."""
    return line[first - 1:last].ljust(last - first + 1, b" ")


def number_of(text, places):
    """What a number field is read as."""
    if not text.strip(b" "):
        return BLANK
    point = b"" if places == 0 else rb"(?:\.([0-9]{1,%d}))?" % places
    found = re.fullmatch(rb" *(-?)([0-9]+)" + point, text)
    if not found:
        return BAD
    decimals = (found[3] if places else None) or b""
    value = int(found[2] + decimals.ljust(places, b"0")) * (-1 if found[1] else 1)
    return value if -2**31 <= value < 2**31 else BAD


def is_within(value, least, greatest):
    return value not in (BLANK, BAD) and least <= value <= greatest


def four_decimals(number):
    return b"%s%d.%04d" % (b"-" if number < 0 else b"", *divmod(abs(number), 10000))


def one_decimal(tenths):
    return b"%s%d.%d" % (b"-" if tenths < 0 else b"", abs(tenths) // 10, abs(tenths) % 10)


def visible(text):
    return all(33 <= it <= 126 for it in text)


def day_of(text):
    """The day of a date, None if it isn't a date."""
    if not re.fullmatch(rb"[0-9]{4}-[0-9]{2}-[0-9]{2}", text):
        return None
    try:
        return date(int(text[:4]), int(text[5:7]), int(text[8:])).toordinal()
    except ValueError:
        return None


def date_text(day):
    it = date.fromordinal(day)
    return b"%04d-%02d-%02d" % (it.year, it.month, it.day)


# ---- the station list and the daily files ----

def station_fault(line, listed):
    if len(line) < 30:
        return "Short"
    if not visible(line[:11]):
        return "BadId"
    if not is_within(number_of(field(line, 13, 20), 4), -900000, 900000):
        return "BadLatitude"
    if not is_within(number_of(field(line, 22, 30), 4), -1800000, 1800000):
        return "BadLongitude"
    if number_of(field(line, 32, 37), 1) == BAD:
        return "BadElevation"
    return "Duplicate" if line[:11] in listed else None


def read_stations(text):
    def printable(text):
        return bytes(it if 32 <= it <= 126 else ord("?") for it in text)

    listed = {}
    for number, line in lines(text):
        fault = station_fault(line, listed)
        if fault:
            raise Refused(f"refused 1 StationLine line {number} {fault}")
        if len(listed) == MOST:
            raise Refused("refused 2 TooManyStations")
        elevation = number_of(field(line, 32, 37), 1)
        listed[line[:11]] = Station(line[:11], number_of(field(line, 13, 20), 4), number_of(field(line, 22, 30), 4),
                                    None if elevation in (BLANK, -9999) else elevation,
                                    printable(field(line, 39, 40)), printable(field(line, 42, 71)).rstrip(b" "))
    return listed


def value_field(line, day):
    return field(line, 14 + 8 * day, 18 + 8 * day)


def daily_fault(line):
    """The first test that a line of an element fails by itself."""
    if len(line) < 266:
        return "Short"
    if line[269:].strip(b" "):
        return "TooLong"
    if not visible(line[:11]):
        return "BadId"
    if not is_within(number_of(field(line, 12, 15), 0), 1, 9999):
        return "BadYear"
    if not is_within(number_of(field(line, 16, 17), 0), 1, 12):
        return "BadMonth"
    return next((f"BadValue {day}" for day in range(1, 32) if number_of(value_field(line, day), 0) == BAD), None)


def read_daily(texts, listed):
    """The usable days of each station and element with their values, and the number of unlisted lines."""
    if len(texts) > MOST:
        raise Refused("refused 6 TooManyFiles")
    series, months, unlisted = {}, set(), 0
    for file, text in enumerate(texts, 1):
        for number, line in lines(text):
            station, element = line[:11], line[17:21]
            if len(line) >= 21 and element not in ELEMENTS:
                continue
            fault = daily_fault(line)
            if not fault and station not in listed:
                unlisted += 1
                continue
            month = (station, element, number_of(field(line, 12, 15), 0), number_of(field(line, 16, 17), 0))
            if fault or month in months:
                raise Refused(f"refused 5 DailyLine file {file} line {number} {fault or 'DuplicateMonth'}")
            months.add(month)
            for j in range(1, 32):
                value, flag = number_of(value_field(line, j), 0), field(line, 20 + 8 * j, 20 + 8 * j)
                day = day_of(b"%04d-%02d-%02d" % (month[2], month[3], j))
                missing = value in (BLANK, -9999) or (value < 0 and element not in TEMPERATURES)
                if day and not missing and flag == b" ":
                    series.setdefault((station, element), {})[day] = value
    return series, unlisted


def foreign(texts):
    """The word on files with a line that isn't blank and none of the five elements."""
    found = []
    for file, text in enumerate(texts, 1):
        codes = [field(line, 18, 21) for _, line in lines(text)]
        if codes and not any(it in ELEMENTS for it in codes):
            found.append(file)
    return b"foreign %d %d.dly\n" % (len(found), found[0]) if found else b""


def is_odd(line):
    """Whether a line has none of the five elements, and no code at all or more than blanks past its last column."""
    code = field(line, 18, 21)
    return code not in ELEMENTS and (not CODE.fullmatch(code) or bool(line[269:].strip(b" ")))


def odd(texts):
    """Each odd line, by its file and its number there, both from 1."""
    return [(file, number) for file, text in enumerate(texts, 1) for number, line in lines(text) if is_odd(line)]


def warnings(texts):
    """The words on foreign files and on odd lines."""
    found = odd(texts)
    return foreign(texts) + (b"odd %d %d.dly:%d\n" % (len(found), *found[0]) if found else b"")


# ---- descriptions ----

def shown(code):
    return bytes(it if 33 <= it <= 126 else ord("?") for it in code)


def element_line(element, its, days, flagged):
    """The line of an element, whose lines of listed stations these are, and whose usable days by station."""
    every = sorted(day for each in days for day in each)
    line = b"element %s lines %d series %d days %d flagged %d" % (element, its, len(days), len(every), flagged)
    return line + (b" from %s to %s" % (date_text(every[0]), date_text(every[-1])) if every else b"")


def flags(line):
    """How many days of a line that its month has bear a value and a quality flag."""
    year, month = number_of(field(line, 12, 15), 0), number_of(field(line, 16, 17), 0)
    return sum(number_of(value_field(line, j), 0) not in (BLANK, -9999) and field(line, 20 + 8 * j, 20 + 8 * j) != b" "
               for j in range(1, 32) if day_of(b"%04d-%02d-%02d" % (year, month, j)))


def describe(stations, daily):
    """The status and the outputs of `extremes describe`."""
    try:
        listed = read_stations(stations)
        series, unlisted = read_daily(daily, listed)
    except Refused as refusal:
        return 1, b"", f"{refusal}\n".encode()
    every = [it for text in daily for it in (text.split(b"\n") if text.split(b"\n")[-1] else text.split(b"\n")[:-1])]
    full = [line for text in daily for _, line in lines(text)]
    others = Counter(shown(line[17:21]) for line in full if line[17:21] not in ELEMENTS)
    named = sorted(others)[:MOST_CODES]
    found = [b"extremes description 1", b"stations %d" % len(listed)]
    found += [b"files %d" % len(daily), b"lines %d" % len(every)]
    for element in ELEMENTS:
        its = [line for line in full if line[17:21] == element and line[:11] in listed]
        days = [days for (_, code), days in series.items() if code == element]
        found.append(element_line(element, len(its), days, sum(flags(line) for line in its)))
    found += [b"other %s lines %d" % (code, others[code]) for code in named]
    further = sum(others.values()) - sum(others[code] for code in named)
    found += [b"others lines %d" % further] if further else []
    found += [b"odd lines %d" % len(odd(daily)), b"unlisted lines %d" % unlisted]
    found += [b"blank lines %d" % (len(every) - len(full)), b"end", b""]
    return 0, b"\n".join(found), warnings(daily)


# ---- queries ----

class Words:
    """The words of a query text, read from left to right."""

    def __init__(self, text):
        self.words = [it for it in text.split(b" ") if it]
        self.at = 0

    def next(self):
        if self.at == len(self.words):
            raise Refused("refused 9 QueryEnds")
        self.at += 1
        return self.words[self.at - 1]

    def is_next(self, *words):
        return self.at < len(self.words) and self.words[self.at] in words

    def wrong(self, name="8 UnexpectedWord"):
        raise Refused(f"refused {name} {self.at}")

    def one_of(self, *words):
        word = self.next()
        return word if word in words else self.wrong()

    def limited(self, greatest):
        word = self.next()
        if not re.fullmatch(rb"[0-9]+", word):
            self.wrong()
        return int(word) if 1 <= int(word) <= greatest else self.wrong("10 OutOfLimits")

    def degrees(self):
        """A number of degrees with one decimal at most, in tenths."""
        found = re.fullmatch(rb"(-?)([0-9]+)(?:\.([0-9]))?", self.next())
        if not found:
            self.wrong()
        value = int(found[2] + (found[3] or b"0")) * (-1 if found[1] else 1)
        return value if -1000 <= value <= 1000 else self.wrong("10 OutOfLimits")

    def season(self):
        """Two months."""
        found = re.fullmatch(rb"([0-9]+)\.\.([0-9]+)", self.next())
        if not found:
            self.wrong()
        first, last = int(found[1]), int(found[2])
        return (first, last) if 1 <= first <= 12 and 1 <= last <= 12 else self.wrong("10 OutOfLimits")

    def days(self):
        """Two days of a leap year, as month and day."""
        found = re.fullmatch(rb"([0-9]{2}-[0-9]{2})\.\.([0-9]{2}-[0-9]{2})", self.next())
        both = [day_of(b"2000-" + it) for it in found.groups()] if found else [None]
        if not all(both):
            self.wrong("11 BadDate")
        return [(date.fromordinal(it).month, date.fromordinal(it).day) for it in both]

    def edge(self, least, greatest):
        found = re.fullmatch(rb"(-?)([0-9]+)(?:\.([0-9]{1,4}))?", self.next())
        if not found:
            self.wrong("12 BadBox")
        value = int(found[2] + (found[3] or b"").ljust(4, b"0")) * (-1 if found[1] else 1)
        return value if least <= value <= greatest else self.wrong("12 BadBox")

    def code(self, size):
        word = self.next()
        return word if len(word) == size and visible(word) else self.wrong()

    def date(self):
        return day_of(self.next()) or self.wrong("11 BadDate")


def read_score(words):
    """The kind, the element, a number, and the words of the canonical text. The number is that of a window's days, the
    least value of a hot day, or the greatest one of a cold day."""
    kind = words.one_of(b"highest", b"lowest", b"sum", b"dry", b"wet", b"hot", b"cold")
    if kind in (b"dry", b"wet"):
        return kind, b"PRCP", 0, [kind]
    if kind in (b"hot", b"cold"):
        limit = words.degrees()
        return kind, b"TMAX" if kind == b"hot" else b"TMIN", limit, [kind, one_decimal(limit)]
    window = words.limited(366) if kind == b"sum" else 0
    element = words.one_of(*{b"highest": ELEMENTS, b"lowest": TEMPERATURES, b"sum": FALLS}[kind])
    return kind, element, window, [kind, b"%d" % window, element] if window else [kind, element]


def read_region(words):
    """The region as its first word and what follows, and the words of the canonical text."""
    if not words.is_next(b"box", b"country", b"state", b"station"):
        return None, []
    kind = words.next()
    if kind != b"box":
        code = words.code(11 if kind == b"station" else 2)
        return (kind, code), [kind, code]
    south = words.edge(-900000, 900000)
    west = words.edge(-1800000, 1800000)
    north = words.edge(south, 900000)
    edges = (south, west, north, words.edge(-1800000, 1800000))
    spelled = [b"%s%d.%04d" % (b"-" if it < 0 else b"", abs(it) // 10000, abs(it) % 10000) for it in edges]
    return (kind, *edges), [kind, *spelled]


def read_season(words):
    """Whether a date is admitted, and the words of the canonical text."""
    if words.is_next(b"months"):
        words.next()
        first, last = words.season()
        months = range(first, last + 1) if first <= last else [*range(first, 13), *range(1, last + 1)]
        return lambda it: it.month in months, [b"months", b"%d..%d" % (first, last)]
    if words.is_next(b"days"):
        words.next()
        first, last = words.days()
        goes_over = last < first
        text = b"%02d-%02d..%02d-%02d" % (*first, *last)
        return lambda it: ((first <= (it.month, it.day) or (it.month, it.day) <= last) if goes_over
                           else first <= (it.month, it.day) <= last), [b"days", text]
    return lambda it: True, []


def read_group(words):
    """What only the best record is ranked of, and the words of the canonical text."""
    if not words.is_next(b"per"):
        return None, []
    words.next()
    group = words.one_of(b"station", b"year")
    return group, [b"per", group]


def read_query(text):
    if len(text) > 256:
        raise Refused("refused 7 QueryTooLong")
    words = Words(text)
    words.one_of(b"top")
    k = words.limited(1000)
    kind, element, number, score = read_score(words)
    region, spelled = read_region(words)
    is_in_season, season = read_season(words)
    first, last, period = 1, date.max.toordinal(), []
    if words.is_next(b"from"):
        words.next()
        first = words.date()
        words.one_of(b"to")
        last = words.date()
        if last < first:
            raise Refused("refused 13 EmptyPeriod")
        period = [b"from", date_text(first), b"to", date_text(last)]
    group, grouped = read_group(words)
    if words.at < len(words.words):
        words.next()
        words.wrong()
    text = b" ".join([b"top", b"%d" % k, *score, *spelled, *season, *period, *grouped])
    return Query(k, kind, element, number, region, is_in_season, first, last, group, text)


def is_admitted(station, region):
    if region is None:
        return True
    if region[0] != b"box":
        return region[1] == {b"country": station.id[:2], b"state": station.state, b"station": station.id}[region[0]]
    _, south, west, north, east = region
    after, before = station.longitude >= west, station.longitude <= east
    return south <= station.latitude <= north and (after and before if west <= east else after or before)


# ---- candidates and the report ----

def runs(days):
    """The longest runs of consecutive days, each as its first and last."""
    found = []
    for day in sorted(days):
        if found and found[-1][1] == day - 1:
            found[-1][1] = day
        else:
            found.append([day, day])
    return found


def is_in_spell(query, value):
    if query.kind == b"hot":
        return value >= query.number
    if query.kind == b"cold":
        return value <= query.number
    return (value < 10) == (query.kind == b"dry")


def candidates(query, station, days):
    """All candidates of a series, whose admitted usable days these are."""
    if query.kind in (b"highest", b"lowest"):
        sign = -1 if query.kind == b"lowest" else 1
        found = [(sign * value, day, day) for day, value in days.items()]
    elif query.kind == b"sum":
        found = [(sum(days[it] for it in range(start, start + query.number)), start, start + query.number - 1)
                 for first, last in runs(days) for start in range(first, last - query.number + 2)]
    else:
        spell = [day for day, value in days.items() if is_in_spell(query, value)]
        found = [(last - first + 1, first, last) for first, last in runs(spell)]
    return best_of_groups(query, [Candidate(score, station.id, first, last, station.name) for score, first, last in found])


def best_of_groups(query, found):
    """Of the records of one station those that are ranked: all, or only the best one, or only the best one of each
    year in which some begin."""
    if query.group is None:
        return found
    years = {date.fromordinal(it.first).year if query.group == b"year" else None for it in found}
    return [min((it for it in found if year in (None, date.fromordinal(it.first).year)), key=in_order) for year in years]


def in_order(candidate):
    return -candidate.score, candidate.id, candidate.first


def has_decimal(query):
    return query.kind in (b"highest", b"lowest", b"sum") and query.element in (b"TMAX", b"TMIN", b"PRCP")


def unit(query):
    if query.kind in (b"dry", b"wet", b"hot", b"cold"):
        return b"days"
    return b"C" if query.element in TEMPERATURES else b"mm"


def row(query, rank, it):
    value = -it.score if query.kind == b"lowest" else it.score
    shown = one_decimal(value) if has_decimal(query) else b"%d" % value
    fields = [b"%d" % rank, it.id, date_text(it.first), date_text(it.last), shown, unit(query)]
    return b" ".join(fields + ([it.name] if it.name else [])) + b"\n"


def report(query, found):
    best = found[:query.k]
    rows = [row(query, rank, it) for rank, it in enumerate(best, 1)]
    end = b"end %d%s\n" % (len(best), b" all" if len(best) < query.k else b"")
    return b"extremes report 1\nquery %s\n%s%s" % (query.text, b"".join(rows), end)


def read_all(query_text, stations, daily):
    """The query, all candidates of each of its series by increasing ID, and the number of unlisted lines."""
    query = read_query(query_text)
    listed = read_stations(stations)
    series, unlisted = read_daily(daily, listed)
    found = {}
    for name in sorted(listed):
        days = {day: value for day, value in series.get((name, query.element), {}).items()
                if query.first <= day <= query.last and query.is_in_season(date.fromordinal(day))}
        if days and is_admitted(listed[name], query.region):
            found[name] = candidates(query, listed[name], days)
    return query, found, unlisted


def rank(query_text, stations, daily, workers=4, guess=None):
    """The status and the outputs of `extremes rank`."""
    try:
        if not 1 <= workers <= 64:
            raise Refused("refused 18 BadWorkers")
        if guess is not None and not -2**31 <= guess <= 2**31:
            raise Refused("refused 19 BadGuess")
        query, found, unlisted = read_all(query_text, stations, daily)
    except Refused as refusal:
        return 1, b"", f"{refusal}\n".encode()
    everyone = sorted((it for its in found.values() for it in its), key=in_order)
    told = warnings(daily) + (b"unlisted %d\n" % unlisted if unlisted else b"")
    return 0, report(query, everyone), told


def query_lines(text):
    """The lines of a list of queries; if it has none, an empty one."""
    pieces = text.split(b"\n")
    pieces = pieces if pieces[-1] or len(pieces) == 1 else pieces[:-1]
    return [it[:-1] if it.endswith(b"\r") else it for it in pieces]


def bad_query(path, text):
    """The status and the outputs of a run over a list of queries that has a bad line; None if it has none."""
    for number, line in enumerate(query_lines(text), 1):
        at = b"at %s:%d\n" % (path, number)
        try:
            line.decode()
            read_query(line)
        except UnicodeDecodeError:
            return 3, b"", b"file not read %s\n" % path + at
        except Refused as refusal:
            return 1, b"", f"{refusal}\n".encode() + at
    return None


def rank_each(path, queries, stations, daily, workers=4, there=(), folder=b"papers"):
    """The status and the outputs of `extremes rank --queries PATH`, and the report of each query. With `--papers`, the
    folder has these files before the run."""
    if not 1 <= workers <= 64:
        return (1, b"", b"refused 18 BadWorkers\n"), []
    wrong = bad_query(path, queries)
    if wrong is not None:
        return wrong, []
    for number, _ in enumerate(query_lines(queries), 1):
        for name in (f"{number}.certificate", f"{number}.report"):
            if name in there:
                return (3, b"", b"file not written %s/%s\n" % (folder, name.encode())), []
    answers = [rank(line, stations, daily) for line in query_lines(queries)]
    status, _, told = answers[0]
    reports = [it[1] for it in answers] if status == 0 else []
    return (status, b"".join(reports), told), reports
