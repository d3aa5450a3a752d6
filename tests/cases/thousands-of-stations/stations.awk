# A station list of 4000 stations, the greatest ID first.
BEGIN {
    for (i = 4000; i >= 1; i--)
        printf "ZZA%08d  10.0000   20.0000  100.0    STATION %d\n", i, i
}
