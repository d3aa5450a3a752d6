# A line of each of 200 codes, by falling codes
BEGIN {
    for (i = 1199; i >= 1000; i--) print "ZZA00000001202007" i
}
