# A line of each of 202 codes, that of the last twice, by falling codes
BEGIN {
    for (i = 1201; i >= 1000; i--) print "ZZA00000001202007" i
    print "ZZA000000012020071201"
}
