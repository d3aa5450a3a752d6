/* corpus - writes an archive in the form of GHCN-Daily, with weather made up.
 *
 *   corpus S|M|L FOLDER
 *
 * FOLDER/ghcnd-stations.txt has the stations, sorted by ID; FOLDER/dly/ID.dly the lines of one
 * station each, in order of month and element. As in NOAA's archive a third of the lines belong to
 * elements that are not ranked, some values are missing or flagged, months and years are missing,
 * a few files belong to stations that the list lacks, and a sixth of the list has no file. The
 * columns are those of the readme of GHCN-Daily. Only whole numbers are used, so the bytes depend on
 * the size alone. */
#include <errno.h>
#include <stdint.h>
#include <stdio.h>
#include <stdlib.h>
#include <string.h>
#include <sys/stat.h>

/* ---- chance ---- */

typedef struct {
    uint64_t state;
} Chance;

/* The next number of splitmix64 (Steele, Lea and Flood 2014). */
static uint64_t next(Chance *chance) {
    uint64_t mixed = chance->state += 0x9E3779B97F4A7C15u;
    mixed = (mixed ^ (mixed >> 30)) * 0xBF58476D1CE4E5B9u;
    mixed = (mixed ^ (mixed >> 27)) * 0x94D049BB133111EBu;
    return mixed ^ (mixed >> 31);
}

/* From 0 to limit - 1. */
static int below(Chance *chance, int limit) {
    return (int)(((next(chance) >> 32) * (uint64_t)limit) >> 32);
}

static int happens(Chance *chance, int per_mille) {
    return below(chance, 1000) < per_mille;
}

/* Around 0, near normal, with about this standard deviation. */
static int around(Chance *chance, int deviation) {
    uint64_t bits = next(chance);
    int sum = (int)(bits & 0xFFFF) + (int)((bits >> 16) & 0xFFFF) + (int)((bits >> 32) & 0xFFFF)
        + (int)(bits >> 48);
    return (int)((int64_t)(sum - 131070) * deviation / 37837);
}

/* At least 0, falling off exponentially, with about this mean. */
static int exponential(Chance *chance, int mean) {
    uint64_t bits = next(chance) | 1;
    int halvings = __builtin_clzll(bits);
    int fraction = (int)((bits << halvings << 1) >> 56);
    return (int)((int64_t)(halvings * 256 + 255 - fraction) * mean * 10 / 3693);
}

/* ---- what is measured ---- */

enum Element {
    TMAX, TMIN, TOBS, TAVG, PRCP, SNOW, SNWD, AWND, DAPR, EVAP, MDPR, PGTM,
    WDF2, WDFG, WESD, WSF2, WSFG, WT01, WT03, WT05, WT08, WT16, ELEMENTS
};

static const char *const CODES[ELEMENTS] = {
    "TMAX", "TMIN", "TOBS", "TAVG", "PRCP", "SNOW", "SNWD", "AWND", "DAPR", "EVAP", "MDPR", "PGTM",
    "WDF2", "WDFG", "WESD", "WSF2", "WSFG", "WT01", "WT03", "WT05", "WT08", "WT16"};

/* A network of stations: its share in per mille, the form of its IDs (# a digit, @ a letter), how
 * many years its stations have on average in percent of all, the years in which they began, its
 * source flag, and how many of its stations, in per mille, have an element. */
typedef struct {
    int share;
    const char *form;
    int years;
    int began_first, began_last;
    char source;
    int has[ELEMENTS];
} Network;

static const Network NETWORKS[] = {
    {260, "USC00######", 145, 1880, 1990, '0',
     {[TMAX] = 740, [TMIN] = 740, [TOBS] = 550, [PRCP] = 980, [SNOW] = 880, [SNWD] = 780, [MDPR] = 500,
      [DAPR] = 500, [EVAP] = 80, [WESD] = 50, [WT01] = 420, [WT03] = 420, [WT05] = 350, [WT16] = 220}},
    {240, "US1@@@@####", 30, 1998, 2016, 'N',
     {[PRCP] = 1000, [SNOW] = 900, [SNWD] = 500, [MDPR] = 700, [DAPR] = 700, [WESD] = 300, [WT05] = 80}},
    {50, "USW000#####", 175, 1870, 1990, 'W',
     {[TMAX] = 1000, [TMIN] = 1000, [PRCP] = 1000, [SNOW] = 850, [SNWD] = 800, [AWND] = 800, [PGTM] = 800,
      [WDF2] = 500, [WSF2] = 500, [WDFG] = 700, [WSFG] = 700, [TAVG] = 400, [WT01] = 700, [WT03] = 700,
      [WT05] = 400, [WT08] = 700, [WT16] = 700}},
    {40, "USS00##@##S", 80, 1978, 2000, 'T',
     {[TMAX] = 1000, [TMIN] = 1000, [TAVG] = 1000, [TOBS] = 500, [PRCP] = 600, [WESD] = 500, [SNWD] = 500}},
    {130, "ASN000#####", 130, 1870, 2000, 'a',
     {[PRCP] = 970, [TMAX] = 160, [TMIN] = 160, [MDPR] = 800, [DAPR] = 800}},
    {80, "CA00#######", 95, 1880, 1995, 'C',
     {[TMAX] = 850, [TMIN] = 850, [PRCP] = 970, [SNOW] = 900, [SNWD] = 500, [MDPR] = 100, [WDFG] = 80,
      [WSFG] = 80}},
    {40, "BR00#######", 80, 1930, 1990, 'B', {[PRCP] = 990, [TMAX] = 100, [TMIN] = 100, [TAVG] = 80}},
    {50, "MXN000#####", 100, 1920, 1985, 'I',
     {[TMAX] = 950, [TMIN] = 950, [PRCP] = 980, [TOBS] = 900, [EVAP] = 500, [WT03] = 400, [WT05] = 400}},
    {30, "IN0########", 110, 1900, 1970, 'Q',
     {[PRCP] = 990, [TMAX] = 120, [TMIN] = 120, [TAVG] = 100}},
    {80, "@@M000#####", 150, 1880, 1985, 'S',
     {[TMAX] = 950, [TMIN] = 950, [PRCP] = 930, [TAVG] = 700, [SNWD] = 400, [SNOW] = 50}}};

enum { NETWORK_COUNT = sizeof NETWORKS / sizeof *NETWORKS, LAST_YEAR = 2024, MEAN_YEARS = 30, MISSING = -9999 };

/* ---- stations ---- */

typedef struct {
    char id[12];
    const Network *network;
    Chance chance;
    int latitude, longitude, elevation; /* ten-thousandths of a degree; tenths of a metre */
    int first_year, last_year;
    int has[ELEMENTS];
} Station;

static void make_id(Chance *chance, const char *form, char *id) {
    for (int place = 0; place <= 11; place++) {
        char c = form[place];
        id[place] = c == '#' ? (char)('0' + below(chance, 10)) : c == '@' ? (char)('A' + below(chance, 26)) : c;
    }
}

static Station make_station(Chance *chance) {
    Station made = {.chance = {next(chance)}};
    int share = below(chance, 1000);
    const Network *network = NETWORKS;
    while (share >= network->share) {
        share -= network++->share;
    }
    made.network = network;
    make_id(chance, network->form, made.id);
    made.latitude = below(chance, 1200000) - 450000;
    made.longitude = below(chance, 3600000) - 1800000;
    made.elevation = exponential(chance, 3000);
    int mean = MEAN_YEARS * network->years;
    int years = (mean / 4 + exponential(chance, mean * 3 / 8) + exponential(chance, mean * 3 / 8)) / 100;
    years = years < 5 ? 5 : years > 150 ? 150 : years;
    made.first_year = network->began_first + below(chance, network->began_last - network->began_first + 1);
    if (made.first_year + years > LAST_YEAR) {
        made.first_year = LAST_YEAR + 1 - years;
    }
    made.last_year = made.first_year + years - 1;
    for (int element = 0; element < ELEMENTS; element++) {
        made.has[element] = happens(chance, network->has[element]);
    }
    return made;
}

static int by_id(const void *a, const void *b) {
    return strcmp(((const Station *)a)->id, ((const Station *)b)->id);
}

/* `count` stations, sorted, with distinct IDs; fewer if an ID was drawn twice. */
static int make_stations(Chance *chance, Station *stations, int count) {
    for (int i = 0; i < count; i++) {
        stations[i] = make_station(chance);
    }
    qsort(stations, (size_t)count, sizeof *stations, by_id);
    int distinct = 0;
    for (int i = 0; i < count; i++) {
        if (distinct == 0 || by_id(&stations[distinct - 1], &stations[i]) != 0) {
            stations[distinct++] = stations[i];
        }
    }
    return distinct;
}

static void write_station(FILE *list, const Station *station) {
    fprintf(list, "%s %8.4f %9.4f %6.1f    STATION %-22s              \n", station->id,
            station->latitude / 10000.0, station->longitude / 10000.0, station->elevation / 10.0,
            station->id + 5);
}

/* ---- weather ---- */

typedef struct {
    int value; /* MISSING if there is none */
    char quality;
} Reading;

typedef struct {
    Reading days[ELEMENTS][31];
} Month;

/* What one day hands to the next. */
typedef struct {
    int warmth;     /* tenths of a degree off the season's */
    int wet;        /* whether it rained */
    int snow_depth; /* millimetres */
} Weather;

static int days_in(int year, int month) {
    static const int LENGTHS[] = {31, 28, 31, 30, 31, 30, 31, 31, 30, 31, 30, 31};
    int leap = (year % 4 == 0 && year % 100 != 0) || year % 400 == 0;
    return LENGTHS[month - 1] + (month == 2 && leap);
}

/* From -1000 at midwinter to 1000 at midsummer, by parabolas. */
static int season(const Station *station, int month, int day) {
    int phase = ((month - 1) * 30 + day + (station->latitude < 0 ? 155 : 335)) % 360;
    int half = phase % 180;
    int height = half * (180 - half) * 1000 / 8100;
    return phase < 180 ? height : -height;
}

static void put(Month *month, int element, int day, int value) {
    month->days[element][day] = (Reading){value, ' '};
}

static void make_day(const Station *station, Chance *chance, Weather *weather, Month *month, int number,
                     int day, int missing) {
    int degrees_off_equator = abs(station->latitude) / 10000;
    int summer = season(station, number, day);
    weather->wet = happens(chance, weather->wet ? 520 : 180);
    weather->warmth = weather->warmth * 7 / 10 + around(chance, 25);
    int mean = 275 - degrees_off_equator * degrees_off_equator * 8 / 100 - station->elevation * 6 / 1000
        + degrees_off_equator * summer * 3 / 1000 + weather->warmth;
    int half_range = weather->wet ? 35 : 60;
    int greatest = mean + half_range + around(chance, 8);
    int least = mean - half_range - abs(around(chance, 12));
    int rain = weather->wet ? exponential(chance, 75) : 0;
    int fall = mean < 10 ? rain : 0;
    int melt = mean > 0 ? mean / 5 + 5 : 3;
    weather->snow_depth += fall * 7 / 10 - melt;
    weather->snow_depth = weather->snow_depth < 0 ? 0 : weather->snow_depth > 4500 ? 4500 : weather->snow_depth;
    int wind = 30 + exponential(chance, 14);
    int values[ELEMENTS] = {
        [TMAX] = greatest, [TMIN] = least, [TOBS] = least + below(chance, greatest - least + 1),
        [TAVG] = (greatest + least) / 2, [PRCP] = rain, [SNOW] = fall, [SNWD] = weather->snow_depth,
        [AWND] = wind, [EVAP] = greatest > 0 ? greatest / 5 : 0, [PGTM] = below(chance, 24) * 100,
        [WDF2] = below(chance, 36) * 10, [WDFG] = below(chance, 36) * 10, [WESD] = weather->snow_depth / 4,
        [WSF2] = wind * 3 / 2, [WSFG] = wind * 2};
    for (int element = 0; element < MDPR; element++) {
        if (station->has[element] && element != DAPR && !happens(chance, missing)) {
            put(month, element, day, values[element]);
        }
    }
    for (int element = PGTM; element < WT01; element++) {
        if (station->has[element] && !happens(chance, missing * 2)) {
            put(month, element, day, values[element]);
        }
    }
    if (station->has[MDPR] && happens(chance, 3)) {
        put(month, MDPR, day, exponential(chance, 200));
        put(month, DAPR, day, 2 + below(chance, 5));
    }
    for (int element = WT01; element < ELEMENTS; element++) {
        int share = element == WT16 ? (weather->wet ? 900 : 0) : element == WT05 ? 12 : 55;
        if (station->has[element] && happens(chance, share)) {
            put(month, element, day, 1);
        }
    }
}

/* Gives three values of a thousand a quality flag; half of these are wildly off. */
static void flag_values(Chance *chance, Month *month) {
    for (int element = TMAX; element <= SNWD; element++) {
        for (int day = 0; day < 31; day++) {
            Reading *reading = &month->days[element][day];
            if (reading->value == MISSING || !happens(chance, 3)) {
                continue;
            }
            reading->quality = "DGIKLNOSTXMRWZ"[below(chance, 14)];
            if (happens(chance, 500)) {
                int off = 150 + below(chance, 300);
                reading->value = element == TMIN ? reading->value - off : (reading->value + off) % 9000;
            }
        }
    }
}

/* ---- lines ---- */

/* Writes a value into five columns, which it ends. */
static void write_value(char *columns, int value) {
    int magnitude = abs(value);
    int place = 4;
    memset(columns, ' ', 5);
    do {
        columns[place--] = (char)('0' + magnitude % 10);
        magnitude /= 10;
    } while (magnitude != 0);
    if (value < 0) {
        columns[place] = '-';
    }
}

static void write_line(FILE *file, const Station *station, int year, int month, int element,
                       const Reading *days) {
    char line[271];
    snprintf(line, 22, "%s%04d%02d%s", station->id, year, month, CODES[element]);
    for (int day = 0; day < 31; day++) {
        char *group = line + 21 + 8 * day;
        int missing = days[day].value == MISSING;
        write_value(group, days[day].value);
        group[5] = ' ';
        group[6] = missing ? ' ' : days[day].quality;
        group[7] = missing ? ' ' : station->network->source;
    }
    line[269] = '\n';
    fwrite(line, 1, 270, file);
}

static void write_month(FILE *file, const Station *station, int year, int number, const Month *month) {
    for (int element = 0; element < ELEMENTS; element++) {
        for (int day = 0; day < 31; day++) {
            if (month->days[element][day].value != MISSING) {
                write_line(file, station, year, number, element, month->days[element]);
                break;
            }
        }
    }
}

static void write_days(FILE *file, Station *station) {
    Chance *chance = &station->chance;
    Weather weather = {0, 0, 0};
    int gap = below(chance, 12);
    for (int year = station->first_year; year <= station->last_year; year++) {
        for (int number = 1; number <= 12; number++) {
            gap = gap > 0 ? gap - 1 : happens(chance, 4) ? below(chance, 20) : 0;
            if (gap > 0) {
                continue;
            }
            Month month;
            for (int element = 0; element < ELEMENTS; element++) {
                for (int day = 0; day < 31; day++) {
                    put(&month, element, day, MISSING);
                }
            }
            int missing = happens(chance, 50) ? 250 : 10;
            for (int day = 0; day < days_in(year, number); day++) {
                make_day(station, chance, &weather, &month, number, day, missing);
            }
            flag_values(chance, &month);
            write_month(file, station, year, number, &month);
        }
    }
}

/* ---- files ---- */

static FILE *create(const char *folder, const char *name, const char *end) {
    char path[4096];
    snprintf(path, sizeof path, "%s/%s%s", folder, name, end);
    FILE *file = fopen(path, "w");
    if (!file) {
        perror(path);
        exit(3);
    }
    return file;
}

static void close_written(FILE *file) {
    if (ferror(file) | fclose(file)) {
        perror("corpus");
        exit(3);
    }
}

static void make_folder(const char *path) {
    if (mkdir(path, 0777) != 0 && errno != EEXIST) {
        perror(path);
        exit(3);
    }
}

int main(int count, char **words) {
    int size = count == 3 && strlen(words[1]) == 1 ? words[1][0] : 0;
    int stations = size == 'S' ? 24 : size == 'M' ? 340 : size == 'L' ? 3400 : 0;
    if (stations == 0) {
        fprintf(stderr, "usage: corpus S|M|L FOLDER\n");
        return 2;
    }
    make_folder(words[2]);
    char daily[4000];
    snprintf(daily, sizeof daily, "%s/dly", words[2]);
    make_folder(daily);
    Chance chance = {(uint64_t)size};
    Station *made = calloc((size_t)stations, sizeof *made);
    if (!made) {
        return 3;
    }
    stations = make_stations(&chance, made, stations);
    FILE *list = create(words[2], "ghcnd-stations", ".txt");
    for (int i = 0; i < stations; i++) {
        if (i % 100 != 7) {
            write_station(list, &made[i]);
        }
        if (i % 6 != 5) {
            FILE *file = create(daily, made[i].id, ".dly");
            write_days(file, &made[i]);
            close_written(file);
        }
    }
    close_written(list);
    return 0;
}
