"""The job over whole columns, in numpy: the lines are the rows of a matrix of bytes.

python3 byte_matrix.py STATIONS QUERY FILE..     (each line of 269 bytes, ended by a line feed)
"""
import sys

import numpy as np


def asked(query):
    """How many, which score, which element, and the days of a window."""
    words = query.split()
    if words[2] in ("highest", "lowest"):
        return int(words[1]), words[2], words[3], 1
    if words[2] == "sum":
        return int(words[1]), "sum", words[4], int(words[3])
    return int(words[1]), words[2], "PRCP", 1


def lines_of(files, element):
    """The lines of one element."""
    code = np.frombuffer(element.encode(), np.uint8)
    parts = [np.zeros((0, 270), np.uint8)]
    for path in files:
        lines = np.fromfile(path, np.uint8).reshape(-1, 270)
        parts.append(lines[(lines[:, 17:21] == code).all(axis=1)])
    return np.concatenate(parts)


def usable_values(lines, listed, element):
    """Station (by place in the sorted list), day number and value of each usable day, in order."""
    ids = np.ascontiguousarray(lines[:, :11]).view("S11").ravel()
    place = np.searchsorted(listed, ids)
    place[place == len(listed)] = 0
    known = listed[place] == ids
    lines, place = lines[known], place[known].astype(np.int32)
    digits = lines[:, 11:17].astype(np.int32) - ord("0")
    year = digits[:, :4] @ [1000, 100, 10, 1]
    month = digits[:, 4] * 10 + digits[:, 5]
    months = ((year - 1970) * 12 + month - 1).astype("datetime64[M]")
    first = months.astype("datetime64[D]").astype(np.int32)
    length = (months + 1).astype("datetime64[D]").astype(np.int32) - first
    groups = lines[:, 21:269].reshape(-1, 31, 8)
    values = np.zeros(groups.shape[:2], np.int32)
    for column in range(5):
        digit = groups[:, :, column].astype(np.int32) - ord("0")
        values = np.where((digit >= 0) & (digit <= 9), values * 10 + digit, values)
    values = np.where((groups[:, :, :5] == ord("-")).any(axis=2), -values, values)
    blank = (groups[:, :, :5] == ord(" ")).all(axis=2)
    usable = (groups[:, :, 6] == ord(" ")) & (values != -9999) & ~blank
    usable &= np.arange(31)[None, :] < length[:, None]
    if not element.startswith("T"):
        usable &= values >= 0
    row, day = np.nonzero(usable)
    station, number, value = place[row], first[row] + day.astype(np.int32), values[row, day].astype(np.int64)
    order = np.lexsort((number, station))
    return station[order], number[order], value[order]


def candidates(station, day, value, score, days):
    """Station, first day, last day and score of each candidate."""
    if score in ("highest", "lowest"):
        return station, day, day, value if score == "highest" else -value
    if score == "sum":
        whole = (station[days - 1:] == station[:len(station) - days + 1])
        whole &= day[days - 1:] - day[:len(day) - days + 1] == days - 1
        totals = np.concatenate(([0], np.cumsum(value)))
        at = np.nonzero(whole)[0]
        return station[at], day[at], day[at] + days - 1, (totals[days:] - totals[:-days])[at]
    such = value < 10 if score == "dry" else value >= 10
    station, day = station[such], day[such]
    breaks = np.nonzero((station[1:] != station[:-1]) | (day[1:] != day[:-1] + 1))[0] + 1
    begin = np.concatenate(([0], breaks))[:len(station)]
    end = np.concatenate((breaks, [len(station)]))[:len(begin)] - 1
    return station[begin], day[begin], day[end], (day[end] - day[begin] + 1).astype(np.int64)


def main():
    k, score, element, days = asked(sys.argv[2])
    with open(sys.argv[1], "rb") as text:
        listed = np.array(sorted(line[:11] for line in text if line.strip()), dtype="S11")
    values = usable_values(lines_of(sys.argv[3:], element), listed, element)
    station, first, last, number = candidates(*values, score, days)
    if len(number) > k:
        least = -np.partition(-number, k - 1)[k - 1]
        best = np.nonzero(number >= least)[0]
        station, first, last, number = station[best], first[best], last[best], number[best]
    tenths = score not in ("dry", "wet") and not element.startswith("SN")
    for rank, at in enumerate(np.lexsort((first, station, -number))[:k], 1):
        value = -number[at] if score == "lowest" else number[at]
        text = f"{'-' if value < 0 else ''}{abs(value) // 10}.{abs(value) % 10}" if tenths else str(value)
        dates = np.datetime64(int(first[at]), "D"), np.datetime64(int(last[at]), "D")
        print(rank, listed[station[at]].decode(), *dates, text)


main()
