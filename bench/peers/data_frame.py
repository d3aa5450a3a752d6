"""The job in the usual way with pandas: columns by read_fwf, long form, the largest.

python3 data_frame.py STATIONS QUERY FILE..
"""
import sys

import pandas as pd

DAYS = range(1, 32)


def asked(query):
    """How many, which score, which element, and the days of a window."""
    words = query.split()
    if words[2] in ("highest", "lowest"):
        return int(words[1]), words[2], words[3], 1
    if words[2] == "sum":
        return int(words[1]), "sum", words[4], int(words[3])
    return int(words[1]), words[2], "PRCP", 1


def lines_of(files, element):
    """The lines of one element."""
    names, columns = ["ID", "YEAR", "MONTH", "ELEMENT"], [(0, 11), (11, 15), (15, 17), (17, 21)]
    kinds, missing = {"ID": str, "ELEMENT": str}, {}
    for day in DAYS:
        start = 13 + 8 * day
        names += [f"VALUE{day}", f"QFLAG{day}"]
        columns += [(start, start + 5), (start + 6, start + 7)]
        kinds[f"QFLAG{day}"] = str
        missing[f"VALUE{day}"] = ["", "-9999"]
    parts = []
    for path in files:
        lines = pd.read_fwf(path, colspecs=columns, names=names, dtype=kinds, keep_default_na=False,
                            na_values=missing)
        parts.append(lines[lines.ELEMENT == element])
    return pd.concat(parts)


def usable_values(lines, element):
    """ID, day and value of each usable day, in order."""
    days = pd.concat([
        pd.DataFrame({"ID": lines.ID, "year": lines.YEAR, "month": lines.MONTH, "day": day,
                      "value": lines[f"VALUE{day}"], "flag": lines[f"QFLAG{day}"]}) for day in DAYS])
    days = days[days.value.notna() & (days.flag == "")]
    days["first"] = pd.to_datetime(days[["year", "month", "day"]], errors="coerce")
    days = days[days["first"].notna()]
    days["value"] = days.value.astype("int64")
    if not element.startswith("T"):
        days = days[days.value >= 0]
    return days.sort_values(["ID", "first"])[["ID", "first", "value"]].reset_index(drop=True)


def candidates(days, score, length):
    """ID, first day, last day and score of each candidate."""
    if score in ("highest", "lowest"):
        number = days.value if score == "highest" else -days.value
        return days.assign(last=days["first"], score=number)
    if score == "sum":
        by_station = days.groupby("ID")
        whole = (days["first"] - by_station["first"].shift(length - 1)).dt.days == length - 1
        total = by_station.value.cumsum()
        total = total - total.groupby(days.ID).shift(length).fillna(0)
        first = days["first"] - pd.Timedelta(days=length - 1)
        found = pd.DataFrame({"ID": days.ID, "first": first, "last": days["first"], "score": total.astype("int64")})
        return found[whole]
    such = days[(days.value < 10) if score == "dry" else (days.value >= 10)]
    apart = (such.ID != such.ID.shift()) | (such["first"] != such["first"].shift() + pd.Timedelta(days=1))
    return such.groupby(apart.cumsum()).agg(
        ID=("ID", "first"), first=("first", "first"), last=("first", "last"), score=("value", "size"))


def main():
    k, score, element, length = asked(sys.argv[2])
    listed = pd.read_fwf(sys.argv[1], colspecs=[(0, 11)], names=["ID"], dtype=str).ID
    lines = lines_of(sys.argv[3:], element)
    found = candidates(usable_values(lines[lines.ID.isin(listed)], element), score, length)
    best = found.nlargest(k, "score", keep="all")
    best = best.sort_values(["score", "ID", "first"], ascending=[False, True, True]).head(k)
    tenths = score not in ("dry", "wet") and not element.startswith("SN")
    for rank, row in enumerate(best.to_dict("records"), 1):
        value = -row["score"] if score == "lowest" else row["score"]
        text = f"{'-' if value < 0 else ''}{abs(value) // 10}.{abs(value) % 10}" if tenths else str(value)
        print(rank, row["ID"], row["first"].date(), row["last"].date(), text)


main()
