# The texts of a run over 25000 stations, and the bounds of its certificate; text says which one is
# wanted. Station i has i * 37 % 25013 tenths of a millimetre on 2020-07-01. 25013 is a prime number,
# so no two stations have the same value. Two lines of other elements come after each: a run that
# reads 16 MiB and more starts its threads.
function id(i) {
    return sprintf("ZZA%08d", i)
}
function value(i) {
    return i * 37 % 25013
}
BEGIN {
    for (j = 2; j <= 31; j++)
        rest = rest "-9999   "
    for (i = 1; i <= 25000; i++) {
        if (text == "stations")
            printf "%s  10.0000   20.0000  100.0    STATION %d\n", id(i), i
        if (text == "days") {
            printf "%s202007PRCP%5d   %s\n", id(i), value(i), rest
            printf "%s202007TOBS%5d   %s\n", id(i), 200, rest
            printf "%s202007WSFG%5d   %s\n", id(i), 80, rest
        }
        if (text == "bounds")
            print id(i) " " value(i)
    }
}
