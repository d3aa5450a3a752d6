# Rain on 2020-07-01: at each of the 4000 stations another amount from 0.1 to 400.0 mm, and at 3000
# stations that the list lacks more than at any of these. 4001 is a prime number, so i * 37 % 4001
# is each number from 1 to 4000 once.
function day(id, tenths) {
    printf "%s202007PRCP%5d   ", id, tenths
    for (j = 2; j <= 31; j++)
        printf "-9999   "
    printf "\n"
}
BEGIN {
    for (i = 1; i <= 4000; i++) {
        day(sprintf("ZZA%08d", i), i * 37 % 4001)
        if (i <= 3000)
            day(sprintf("ZZB%08d", i), 5000)
    }
}
