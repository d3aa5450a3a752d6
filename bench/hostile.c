/* hostile - writes three station lists of 2^20 lines, the most that a list may have.
 *
 *   hostile FOLDER
 *
 * FOLDER/ordered.txt has IDs in their order, as NOAA's list has them. FOLDER/scattered.txt has IDs
 * that aren't sorted. FOLDER/colliding.txt has the same, but in its last 32nd part IDs that collide in a
 * hash table of the toolchain's `indexmap` under its default hasher, whose seed is fixed, so that
 * the writer of a list can look for them as this program does. In such a table each of them begins
 * its search at one place, and finds it taken by those before. */
#include <stdint.h>
#include <stdio.h>
#include <stdlib.h>
#include <string.h>

enum { LINES = 1 << 20, COLLIDING = LINES / 32, FIRST_BYTE = '0', LAST_BYTE = 'z' };

/* A table of 2^20 entries has 2^17 groups, and the last bits of a hash say at which one a search begins. */
static const uint32_t GROUP_BITS = (1 << 17) - 1;

/* ---- the default hasher ---- */

static const uint64_t MULTIPLIER = 0x9E3779B97F4A7C15u;

static uint64_t folded_multiply(uint64_t a, uint64_t b) {
    unsigned __int128 product = (unsigned __int128)a * b;
    return (uint64_t)product ^ (uint64_t)(product >> 64);
}

/* The state before the first byte of a text of eleven. */
static uint64_t first_state(void) {
    return folded_multiply(0x243F6A8885A308D3u ^ 11, MULTIPLIER ^ 16);
}

static uint64_t after_byte(uint64_t state, unsigned char byte) {
    return folded_multiply(state ^ byte * (uint64_t)0x010101, MULTIPLIER ^ 2);
}

static uint32_t hash_of(uint64_t state) {
    return (uint32_t)(state ^ (state >> 32));
}

/* ---- lines ---- */

static void write_line(FILE *list, const char *id) {
    fprintf(list, "%s  10.0000   20.0000  100.0    STATION %-36s\n", id, id);
}

static void write_ordered(FILE *list) {
    for (int i = 0; i < LINES; i++) {
        char id[12];
        snprintf(id, sizeof id, "ZZ%09d", i);
        write_line(list, id);
    }
}

static void write_scattered(FILE *list, int first, int end) {
    for (int i = first; i < end; i++) {
        char id[12];
        snprintf(id, sizeof id, "ZZ%09u", (unsigned)((uint64_t)i * 387420489u % 1000000000u));
        write_line(list, id);
    }
}

/* The IDs that begin with these digits, and end in two bytes by which the search begins at place 0. */
static int write_colliding_after(FILE *list, const char *digits, int most) {
    uint64_t state = first_state();
    for (int i = 0; i < 9; i++) {
        state = after_byte(state, (unsigned char)digits[i]);
    }
    int written = 0;
    for (int last_but_one = FIRST_BYTE; last_but_one <= LAST_BYTE; last_but_one++) {
        uint64_t before = after_byte(state, (unsigned char)last_but_one);
        for (int last = FIRST_BYTE; last <= LAST_BYTE; last++) {
            if ((hash_of(after_byte(before, (unsigned char)last)) & GROUP_BITS) == 0 && written < most) {
                char id[12];
                snprintf(id, sizeof id, "%s%c%c", digits, last_but_one, last);
                write_line(list, id);
                written++;
            }
        }
    }
    return written;
}

static void write_colliding(FILE *list, int count) {
    for (unsigned number = 0; count > 0; number++) {
        char digits[10];
        snprintf(digits, sizeof digits, "%09u", number);
        count -= write_colliding_after(list, digits, count);
    }
}

static FILE *create(const char *folder, const char *name) {
    char path[4096];
    snprintf(path, sizeof path, "%s/%s", folder, name);
    FILE *file = fopen(path, "w");
    if (!file) {
        perror(path);
        exit(3);
    }
    return file;
}

int main(int count, char **words) {
    if (count != 2) {
        fprintf(stderr, "usage: hostile FOLDER\n");
        return 2;
    }
    FILE *ordered = create(words[1], "ordered.txt");
    write_ordered(ordered);
    FILE *scattered = create(words[1], "scattered.txt");
    write_scattered(scattered, 0, LINES);
    FILE *colliding = create(words[1], "colliding.txt");
    write_scattered(colliding, 0, LINES - COLLIDING);
    write_colliding(colliding, COLLIDING);
    if (fclose(ordered) != 0 || fclose(scattered) != 0 || fclose(colliding) != 0) {
        perror("hostile");
        return 3;
    }
    return 0;
}
