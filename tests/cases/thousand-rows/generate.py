#!/usr/bin/env python3
"""Writes 1.dly, 2.dly and 3.dly, and the report that is expected: the 1000 greatest of 1095 values.

Each of three stations has a maximum temperature on each day of 2019. There are 40 different values,
so most rows are ties, and the last row is one of a tie that the report cuts.
"""
from datetime import date, timedelta

NAMES = ["ALPHA", "BRAVO", "CHARLIE"]
FIRST = date(2019, 1, 1)


def tenths(station, day):
    return 10 * ((7 * (day - FIRST).days + 5 * station) % 40) - 53


def with_decimal(value):
    return f"{'-' if value < 0 else ''}{abs(value) // 10}.{abs(value) % 10}"


days = [FIRST + timedelta(number) for number in range(365)]
rows = []
for station, name in enumerate(NAMES, 1):
    code = f"ZZA{station:08}"
    with open(f"{station}.dly", "w") as daily:
        for month in range(1, 13):
            groups = ["-9999   "] * 31
            for day in days:
                if day.month == month:
                    groups[day.day - 1] = f"{tenths(station, day):5}   "
            daily.write(f"{code}2019{month:02}TMAX{''.join(groups)}\n")
    rows += [(-tenths(station, day), code, day, name) for day in days]

with open("stdout", "w") as report:
    report.write("extremes report 1\nquery top 1000 highest TMAX\n")
    for rank, (negated, code, day, name) in enumerate(sorted(rows)[:1000], 1):
        report.write(f"{rank} {code} {day} {day} {with_decimal(-negated)} C {name}\n")
    report.write("end 1000\n")
