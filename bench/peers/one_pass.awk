# One pass that keeps the k best in a short list, for any awk.
#   LC_ALL=C mawk -v query='top 10 highest TMAX' -f one_pass.awk ghcnd-stations.txt FILE.dly..
# The months of a station must come in order, as they do in NOAA's files.

BEGIN {
    split(query, words, " ")
    k = words[2]; score = words[3]; days = 1; element = "PRCP"; count = 0
    if (score == "highest" || score == "lowest") element = words[4]
    if (score == "sum") { days = words[4]; element = words[5] }
    spells = score == "dry" || score == "wet"
    sign = score == "lowest" ? -1 : 1
    tenths = !spells && element !~ /SN/
    split("31 28 31 30 31 30 31 31 30 31 30 31", lengths, " ")
}

FNR == NR { listed[substr($0, 1, 11)] = 1; next }

substr($0, 18, 4) == element {
    id = substr($0, 1, 11)
    if (!(id in listed)) next
    year_month = substr($0, 12, 6); year = substr(year_month, 1, 4) + 0; month = substr(year_month, 5, 2) + 0
    len = lengths[month]
    if (month == 2 && (year % 4 == 0 && year % 100 != 0 || year % 400 == 0)) len = 29
    number = day_number(year, month)
    if (id != run_id || number != next_number) end_run()
    run_id = id
    for (day = 1; day <= len; day++) {
        value = substr($0, 14 + 8 * day, 5) + 0
        usable = value != -9999 && substr($0, 20 + 8 * day, 1) == " "
        if (usable && value < 0 && element !~ /^T/) usable = 0
        if (!usable || spells && (value < 10) != (score == "dry")) { end_run(); continue }
        today = year_month (day < 10 ? "0" : "") day
        if (spells || score == "sum") {
            if (run == 0) run_first = today
            run++
            run_last = today
        }
        if (score == "sum") add_to_window()
        else if (!spells) offer(sign * value, today, today)
    }
    next_number = number + len
}

END {
    end_run()
    for (i = 1; i <= count; i++) {
        value = sign * best[i]
        printf "%d %s %s %s ", i, substr(place[i], 1, 11), date(substr(place[i], 12)), date(last[i])
        printf tenths ? "%.1f\n" : "%d\n", tenths ? value / 10 : value
    }
}

# Days before a month, from a fixed day on.
function day_number(year, month,    before) {
    before = month <= 2 ? year - 1 : year
    return 365 * before + int(before / 4) - int(before / 100) + int(before / 400) + int((153 * ((month + 9) % 12) + 2) / 5)
}

function date(digits) {
    return substr(digits, 1, 4) "-" substr(digits, 5, 2) "-" substr(digits, 7, 2)
}

function add_to_window() {
    sum += value - (run > days ? ring[run % days] : 0)
    ring[run % days] = value; first_of[run % days] = today
    if (run >= days) offer(sum, first_of[(run + 1) % days], today)
}

function end_run() {
    if (spells && run > 0) offer(run, run_first, run_last)
    run = 0; sum = 0
}

# A candidate's place in the order among equals is the text of its station and its first day.
function offer(value, first, end,    i) {
    if (count == k && value < best[k]) return
    if (count == k && value == best[k] && (run_id first) > place[k]) return
    if (count < k) count++
    for (i = count; i > 1 && (best[i-1] < value || best[i-1] == value && place[i-1] > (run_id first)); i--) {
        best[i] = best[i-1]; place[i] = place[i-1]; last[i] = last[i-1]
    }
    best[i] = value; place[i] = run_id first; last[i] = end
}
