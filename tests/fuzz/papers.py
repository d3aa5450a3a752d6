"""The report and the certificate of a run, both changed at random, the verdict of `extremes check` on them, merged
ones, and the table of reports, by docs/FORMATS.md and docs/CERTIFICATE.md alone."""
import csv
import io
import random
import re

import formats
from formats import Candidate, Refused

ROW = re.compile(rb"([0-9]+) ([!-~]{11}) ([0-9-]{10}) ([0-9-]{10}) (-?)(0|[1-9][0-9]*)(?:\.([0-9]))?"
                 rb" (C|mm|days)(?: ([ -~]{1,30}))?\n")
LINE = re.compile(rb"(scan|skip) ([!-~]{11}) (-?(?:0|[1-9][0-9]*))(?: (0|[1-9][0-9]*))?\n")
TITLE = b"extremes certificate 2\n"
TITLES = {b"extremes certificate 1\n": 1, TITLE: 2}
KTH = re.compile(rb"kth (none|-?(?:0|[1-9][0-9]*))\n")


class Unlike(Exception):
    """A line of a report or a certificate that doesn't match the format there."""


def is_number(text):
    """Whether such digits are the one spelling of a number of 64 bits."""
    return text != b"-0" and -2**63 <= int(text) < 2**63


def head(pieces, titles):
    """The query of a report or a certificate, whose first lines are its title and its query."""
    if not pieces or pieces[0] not in titles:
        raise Unlike(1)
    line = pieces[1] if len(pieces) > 1 else b""
    try:
        query = formats.read_query(line[6:-1])
    except Refused:
        raise Unlike(2) from None
    if line != b"query " + query.text + b"\n":
        raise Unlike(2)
    return query


def whole(pieces, at, end):
    """Holds if the report or the certificate ends by the line `end` at index `at`."""
    if pieces[at:at + 1] != [end]:
        raise Unlike(at + 1)
    if len(pieces) > at + 1:
        raise Unlike(at + 2)


def read_row(query, rank, line):
    """The candidate of a row, None if the line isn't in that format."""
    found = ROW.fullmatch(line)
    if not found or found[1] != b"%d" % rank or found[8] != formats.unit(query) or (found[9] or b"x").endswith(b" "):
        return None
    first, last = formats.day_of(found[3]), formats.day_of(found[4])
    number = found[5] + found[6] + (found[7] or b"")
    score = int(number) * (-1 if query.kind == b"lowest" else 1)
    if formats.has_decimal(query) != (found[7] is not None) or not first or not last or not -2**63 <= score < 2**63:
        return None
    return None if found[5] and int(number) == 0 else Candidate(score, found[2], first, last, found[9] or b"")


def lines_of(text):
    """The lines of a report or a certificate, each with its line feed if it has one."""
    return re.findall(rb"[^\n]*\n|[^\n]+", text)


def read_first(pieces):
    """The query and the rows of the report with which these lines begin, and how many lines it has."""
    query, rows = head(pieces, [b"extremes report 1\n"]), []
    for line in pieces[2:]:
        found = read_row(query, len(rows) + 1, line) if len(rows) < query.k else None
        if not found:
            break
        rows.append(found)
    end = b"end %d%s\n" % (len(rows), b" all" if len(rows) < query.k else b"")
    if pieces[2 + len(rows):3 + len(rows)] != [end]:
        raise Unlike(3 + len(rows))
    return query, rows, 3 + len(rows)


def read_report(text):
    pieces = lines_of(text)
    query, rows, count = read_first(pieces)
    if len(pieces) > count:
        raise Unlike(count + 1)
    return query, rows


def read_line(version, line):
    """What a line of a series says, its count None if it has none; None if it isn't in that format."""
    found = LINE.fullmatch(line)
    if not found or not is_number(found[3]) or (found[4] is not None) != (version == 2 and found[1] == b"scan"):
        return None
    if found[4] is not None and int(found[4]) > 1000:
        return None
    return found[1], found[2], int(found[3]), None if found[4] is None else int(found[4])


def read_certificate(text):
    pieces = lines_of(text)
    query, series = head(pieces, TITLES), []
    kth = KTH.fullmatch(pieces[2]) if len(pieces) > 2 else None
    if not kth or (kth[1] != b"none" and not is_number(kth[1])):
        raise Unlike(3)
    for line in pieces[3:]:
        found = read_line(TITLES[pieces[0]], line)
        if not found:
            break
        series.append(found)
    whole(pieces, 3 + len(series), b"end %d\n" % len(series))
    return query, None if kth[1] == b"none" else int(kth[1]), series


def bound(its):
    """The greatest score of a series, 0 if it has no candidate."""
    return max((it.score for it in its), default=0)


def judge_report(query, everyone, paper, rows):
    """The first line of the report that fails a test, and why."""
    if paper.text != query.text:
        return 2, "OtherQuery"
    for i, it in enumerate(rows):
        if it not in everyone:
            return 3 + i, "NotACandidate"
        if i and formats.in_order(rows[i - 1]) >= formats.in_order(it):
            return 3 + i, "OutOfOrder"
        if everyone.index(it) != i:
            return 3 + i, "NotBest"
    return (3 + len(rows), "TooFew") if len(rows) < min(query.k, len(everyone)) else None


def judge_certificate(query, found, everyone, rows, paper, kth, series):
    """The first line of the certificate that fails a test, and why."""
    floor = everyone[query.k - 1].score if len(everyone) >= query.k else None
    if paper.text != query.text:
        return 2, "OtherQuery"
    if kth != floor:
        return 3, "OtherFloor"
    names = list(found)
    for i, (kind, name, limit, count) in enumerate(series):
        if names[i:i + 1] != [name]:
            return 4 + i, "OtherSeries"
        if any(it.score > limit for it in found[name]):
            return 4 + i, "NoBound"
        if kind == b"skip" and (floor is None or limit >= floor):
            return 4 + i, "NotBelow"
        if count is not None and count != sum(it.id == name for it in rows):
            return 4 + i, "NotCounted"
    return (4 + len(series), "OtherSeries") if len(series) < len(names) else None


def verdict(query, found, everyone, report, certificate):
    forms = []
    for name, read, text in (("report", read_report, report), ("certificate", read_certificate, certificate)):
        try:
            forms.append(read(text))
        except Unlike as line:
            return name, (line, "Form")
    wrong = judge_report(query, everyone, *forms[0])
    if wrong:
        return "report", wrong
    return "certificate", judge_certificate(query, found, everyone, forms[0][1], *forms[1])


def check(query_text, stations, daily, report, certificate):
    """The status and the outputs of `extremes check`."""
    try:
        query, found, _ = formats.read_all(query_text, stations, daily)
    except Refused as refusal:
        return 1, b"", f"{refusal}\n".encode()
    everyone = sorted((it for its in found.values() for it in its), key=formats.in_order)
    paper, wrong = verdict(query, found, everyone, report, certificate)
    if not wrong:
        return 0, b"accepted\n", formats.warnings(daily)
    return 1, f"refused {paper} line {wrong[0]} {wrong[1]}\n".encode(), formats.warnings(daily)


def check_each(queries, stations, daily, folder, texts, part=False):
    """The status and the outputs of `extremes check --queries`, with `--part` or without it: of a list of queries, by
    its path and its text, and of a folder, by its path and the texts of its files."""
    wrong = formats.bad_query(*queries)
    if wrong is not None:
        return wrong
    lines = formats.query_lines(queries[1])
    names = [[f"{number}.{paper}" for paper in ("report", "certificate")] for number in range(1, len(lines) + 1)]
    for name in sum(names, []):
        if name not in texts:
            return 3, b"", b"file not read %s/%s\n" % (folder, name.encode())
    try:
        read = [formats.read_all(line, stations, daily) for line in lines]
    except Refused as refusal:
        return 1, b"", f"{refusal}\n".encode()
    answers = [judged(query, found, *(texts[it] for it in both), part) for (query, found, _), both in zip(read, names)]
    return max(it[0] for it in answers), b"".join(it[1] for it in answers), formats.warnings(daily)


def judged(query, found, report, certificate, part):
    """The status and the line of a verdict on a report and a certificate, as those of a whole or of a part."""
    if part:
        paper, wrong = part_verdict(query, found, report, certificate)
        accepted = None if isinstance(paper, str) else f"accepted {paper} of {wrong}\n"
    else:
        everyone = sorted((it for its in found.values() for it in its), key=formats.in_order)
        paper, wrong = verdict(query, found, everyone, report, certificate)
        accepted = None if wrong else "accepted\n"
    return (0, accepted.encode()) if accepted else (1, f"refused {paper} line {wrong[0]} {wrong[1]}\n".encode())


def papers(query_text, stations, daily, version=2):
    """A right report, and a certificate of a version with the smallest bounds."""
    query, found, _ = formats.read_all(query_text, stations, daily)
    everyone = sorted((it for its in found.values() for it in its), key=formats.in_order)
    kth = everyone[query.k - 1].score if len(everyone) >= query.k else None
    series = []
    for name, its in found.items():
        kind = b"skip" if kth is not None and bound(its) < kth else b"scan"
        count = b" %d" % sum(it in everyone[:query.k] for it in its) if version == 2 and kind == b"scan" else b""
        series.append(b"%s %s %d%s\n" % (kind, name, bound(its), count))
    shown = b"none" if kth is None else b"%d" % kth
    head = b"extremes certificate %d\nquery %s\nkth %s\n" % (version, query.text, shown)
    certificate = head + b"".join(series) + b"end %d\n" % len(series)
    return formats.report(query, everyone), certificate


def head_fault(query, asked, rows, other, kth, series):
    """What can be seen without data to be wrong with a report and a certificate of a part, None if nothing is."""
    if not asked.text == other.text == query.text:
        return "OtherQuery"
    for i in range(1, len(rows)):
        if formats.in_order(rows[i - 1]) >= formats.in_order(rows[i]):
            return f"report line {3 + i} OutOfOrder"
    if kth != (rows[-1].score if len(rows) == query.k else None):
        return "OtherFloor"
    for i in range(1, len(series)):
        if series[i - 1][1] >= series[i][1]:
            return f"certificate line {4 + i} NotRising"
    scanned = {name for kind, name, _, _ in series if kind == b"scan"}
    for i, it in enumerate(rows):
        if it.id not in scanned:
            return f"report line {3 + i} NotScanned"
    for i, (_, name, _, count) in enumerate(series):
        if count is not None and count != sum(it.id == name for it in rows):
            return f"certificate line {4 + i} NotCounted"
    return None


def head_refusal(query, asked, rows, other, kth, series):
    """The same as the verdict of a part reports it: `report` or `certificate`, its line and why."""
    fault = head_fault(query, asked, rows, other, kth, series)
    if fault is None:
        return None
    if fault == "OtherQuery":
        return "report" if asked.text != query.text else "certificate", (2, "OtherQuery")
    if fault == "OtherFloor":
        return "certificate", (3, "OtherFloor")
    paper, _, line, why = fault.split()
    return paper, (int(line), {"NotRising": "OtherSeries", "NotScanned": "NotACandidate"}.get(why, why))


def line_fault(its, rows, worst, kind, limit):
    """Why a line of a series with these candidates, of which the report has these rows, is refused."""
    if any(row not in its for row in rows):
        return "NotACandidate"
    within = [it for it in its if not worst or it == worst or formats.in_order(it) < formats.in_order(worst)]
    if any(it not in rows for it in within):
        return "NotBest"
    if any(it.score > limit for it in its):
        return "NoBound"
    return "NotBelow" if kind == b"skip" and not (worst and limit < worst.score) else None


def part_verdict(query, found, report, certificate):
    """The verdict of files with these series on the report and the certificate of a whole archive: the numbers of
    series and of lines, or which of the two is refused, the line and why."""
    forms = []
    for name, read, text in (("report", read_report, report), ("certificate", read_certificate, certificate)):
        try:
            forms += read(text)
        except Unlike as line:
            return name, (line, "Form")
    wrong = head_refusal(query, *forms)
    if wrong:
        return wrong
    rows, series = forms[1], forms[4]
    worst = rows[-1] if len(rows) == query.k else None
    for i, (kind, name, limit, _) in enumerate(series):
        if name in found:
            why = line_fault(found[name], [it for it in rows if it.id == name], worst, kind, limit)
            if why:
                return "certificate", (4 + i, why)
    if set(found) - {name for _, name, _, _ in series}:
        return "certificate", (4 + len(series), "OtherSeries")
    return len(found), len(series)


def read_part(query, number, report, certificate):
    """The rows of the report of a part, and the lines of its certificate."""
    forms = []
    for paper, read, text in (("report", read_report, report), ("certificate", read_certificate, certificate)):
        try:
            forms += read(text)
        except Unlike as line:
            raise Refused(f"refused part {number} {paper} line {line} Bad{paper.capitalize()}") from None
    fault = head_fault(query, *forms)
    if fault:
        raise Refused(f"refused part {number} {fault}")
    return forms[1], forms[4]


def merge(query_text, parts):
    """The status and the outputs of `extremes merge`, and the certificate that it writes, None if it writes none."""
    try:
        query = formats.read_query(query_text)
        read = [read_part(query, number, *it) for number, it in enumerate(parts, 1)]
        series = sorted((it for _, its in read for it in its), key=lambda it: it[1])
        for one, next in zip(series, series[1:]):
            if one[1] == next[1]:
                raise Refused(f"refused twice {one[1].decode()}")
    except Refused as refusal:
        return (1, b"", f"{refusal}\n".encode()), None
    rows = sorted((it for its, _ in read for it in its), key=formats.in_order)
    best = rows[:query.k]
    kth = b"%d" % best[-1].score if len(best) == query.k else b"none"
    shown = [b"%s %s %d%s\n" % (kind, name, limit, b" %d" % sum(it.id == name for it in best) if kind == b"scan" else b"")
             for kind, name, limit, _ in series]
    head = b"%squery %s\nkth %s\n" % (TITLE, query.text, kth)
    return (0, formats.report(query, rows), b""), head + b"".join(shown) + b"end %d\n" % len(series)


# ---- the table of reports ----

def read_reports(number, text):
    """The reports of the text of file `number`, each after how many lines: at least one, one after the other."""
    pieces, at = lines_of(text), 0
    while not at or at < len(pieces):
        try:
            query, rows, count = read_first(pieces[at:])
        except Unlike as unlike:
            raise Refused(f"refused file {number} line {at + unlike.args[0]} BadReport") from None
        yield at, query, rows
        at += count


def place(listed, id):
    """The coordinates and the elevation of a station, as a table has them."""
    its = listed[id]
    return [formats.four_decimals(its.latitude), formats.four_decimals(its.longitude),
            b"" if its.elevation is None else formats.one_decimal(its.elevation)]


def table(texts, stations=None):
    """The status and the outputs of `extremes table` for the texts of files of reports, and for a station list if there
    is one."""
    try:
        listed = None if stations is None else formats.read_stations(stations)
        reports = [(number, *it) for number, text in enumerate(texts, 1) for it in read_reports(number, text)]
        records = [b"query rank id first last value unit name".split()]
        if listed is not None:
            records[0] += [b"latitude", b"longitude", b"elevation"]
        for number, at, query, rows in reports:
            for rank, it in enumerate(rows, 1):
                if listed is not None and it.id not in listed:
                    raise Refused(f"refused file {number} line {at + 2 + rank} NotListed")
                fields = formats.row(query, rank, it._replace(name=b""))[:-1].split(b" ")
                records.append([query.text, *fields, it.name, *(place(listed, it.id) if listed is not None else [])])
    except Refused as refusal:
        return 1, b"", f"{refusal}\n".encode()
    made = io.StringIO()
    csv.writer(made, lineterminator="\n").writerows([[it.decode() for it in record] for record in records])
    return 0, made.getvalue().encode(), b""


def changed_number(rng, line):
    """A line with one number changed, or spelled another way."""
    numbers = list(re.finditer(rb"[0-9]+", line))
    if not numbers:
        return line
    it = rng.choice(numbers[-2:] if rng.random() < 0.7 else numbers)
    value = int(it[0])
    other = b"%0*d" % (len(it[0]), rng.choice((value + 1, value + 1, max(0, value - 1), 0, 2**63, 2**63 - 1)))
    return line[:it.start()] + (rng.choice((b"0", b"-")) if rng.random() < 0.1 else b"") + other + line[it.end():]


def changed_byte(rng, line):
    column = rng.randrange(len(line) + 1)
    byte = rng.choice((b"", b" ", b"0", b"-", b"\n", b"\r", b"x", b"\xff", b" all"))
    return line[:column] + byte + line[column + rng.randrange(2):]


def changed(rng, paper):
    """A report or a certificate with one change: of a line, a number, a word or a byte."""
    lines = paper.splitlines(keepends=True) or [b"\n"]
    at = rng.randrange(len(lines)) if rng.random() < 0.3 else rng.randrange(2, max(3, len(lines) - 1)) % len(lines)
    kind = rng.randrange(9)
    if kind == 0:
        lines[at:at + 1] = [lines[at]] * 2
    elif kind < 3:
        del lines[at]
    elif kind == 3:
        lines[at], lines[at - 1] = lines[at - 1], lines[at]
    elif kind == 4:
        lines[at] = exchanged(lines[at])
    elif kind < 8:
        lines[at] = changed_number(rng, lines[at])
    else:
        lines[at] = changed_byte(rng, lines[at])
    text = b"".join(lines)
    return text if rng.random() < 0.95 else text[:rng.randrange(len(text) + 1)]


def exchanged(line):
    """A line of a series with its first word exchanged for the other, or of `kth` without its score."""
    if line.startswith(b"kth "):
        return b"kth none\n"
    words = {b"scan": b"skip", b"skip": b"scan"}
    return words.get(line[:4], line[:4]) + line[4:]


def recounted(paper):
    """A report or a certificate whose ranks and whose end line are those of its rows, or of its lines of series."""
    head, lines = paper.splitlines(keepends=True)[:2], paper.splitlines(keepends=True)[2:]
    if not lines or not lines[-1].startswith(b"end "):
        return paper
    if lines[0].startswith(b"kth "):
        return b"".join(head + lines[:-1]) + b"end %d\n" % (len(lines) - 2)
    rows = [b"%d %s" % (rank, it.partition(b" ")[2]) for rank, it in enumerate(lines[:-1], 1)]
    asked = re.match(rb"query top ([0-9]{1,4}) ", head[1])
    short = asked and len(rows) < int(asked[1])
    return b"".join(head + rows) + b"end %d%s\n" % (len(rows), b" all" if short else b"")


def change(number, report, certificate):
    """The report and the certificate, most of them with some changes. The number alone decides the changes."""
    rng = random.Random(f"papers {number}")
    made = [report, certificate]
    for _ in range(rng.choice((0, 1, 1, 1, 2))):
        at = rng.randrange(2)
        made[at] = changed(rng, made[at])
        if rng.random() < 0.7:
            made[at] = recounted(made[at])
    return made
