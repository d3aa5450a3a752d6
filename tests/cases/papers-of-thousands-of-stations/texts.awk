# The texts of a run over 6000 stations, and the report and the certificate that it has to leave; text
# says which one is wanted. Station i has i * 37 % 6007 tenths of a degree on 2020-07-01, and 500 less
# on the day after. 6007 is a prime number, so no two stations have the same values. Half of the 1000
# rows are ties of two stations, and 250 stations have two rows.
function id(i) {
    return sprintf("ZZA%08d", i)
}
function greatest(i) {
    return i * 37 % 6007
}
# Adds the row of a station, if there is one and fewer rows than asked for.
function row(i, day, tenths) {
    if (i == 0 || rows == 1000)
        return
    of[i]++
    kth = tenths
    if (text == "report")
        printf "%d %s 2020-07-0%d 2020-07-0%d %d.%d C STATION %d\n",
            rows + 1, id(i), day, day, int(tenths / 10), tenths % 10, i
    rows++
}
# Adds the rows of a value, in the order of the stations.
function rows_of(tenths, one, two) {
    if (one < two) {
        row(one, 1, tenths)
        row(two, 2, tenths)
    } else {
        row(two, 2, tenths)
        row(one, 1, tenths)
    }
}
BEGIN {
    for (j = 3; j <= 31; j++)
        rest = rest "-9999   "
    for (i = 1; i <= 6000; i++) {
        at[greatest(i)] = i
        if (text == "stations")
            printf "%s  10.0000   20.0000  100.0    STATION %d\n", id(i), i
        if (text == "days")
            printf "%s202007TMAX%5d   %5d   %s\n", id(i), greatest(i), greatest(i) - 500, rest
    }
    if (text == "report" || text == "certificate") {
        printf "extremes %s %d\nquery top 1000 highest TMAX\n", text, text == "report" ? 1 : 2
        for (tenths = 6006; rows < 1000; tenths--)
            rows_of(tenths, at[tenths] + 0, at[tenths + 500] + 0)
    }
    if (text == "report")
        print "end 1000"
    if (text == "certificate") {
        # One worker draws the stations by falling bound, so it skips exactly those whose bound is
        # below the last row.
        print "kth " kth
        for (i = 1; i <= 6000; i++)
            if (greatest(i) < kth)
                print "skip " id(i) " " greatest(i)
            else
                print "scan " id(i) " " greatest(i) " " of[i] + 0
        print "end 6000"
    }
}
