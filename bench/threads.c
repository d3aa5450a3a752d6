/* threads ROUNDS: what four threads of this machine gain over one, if they share nothing. Prints
 * two lines: what was computed, and the shortest time in milliseconds with one, two, three and four threads.
 *
 * chain   one operation after the other, each of which waits for the one before
 * lanes   many operations at a time: the wet days of blocks that stay in the cache of a processor
 *
 * Two processors that are threads of one core gain next to a whole core in the first, and little in
 * the second, since one of them has the core's units busy already. */
#define _GNU_SOURCE
#include <pthread.h>
#include <stdint.h>
#include <stdio.h>
#include <stdlib.h>
#include <time.h>

enum { MOST = 4, BLOCKS = 4096, VISITS = 1 << 21, STEPS = 1 << 25 };

struct part {
    int values[BLOCKS][32];
    long visits, steps;
    uint64_t answer;
};

static struct part parts[MOST];

static double milliseconds(void) {
    struct timespec now;
    clock_gettime(CLOCK_MONOTONIC, &now);
    return 1e3 * now.tv_sec + 1e-6 * now.tv_nsec;
}

static void *chain(void *given) {
    struct part *part = given;
    uint64_t x = 1;
    for (long step = 0; step < part->steps; step++) {
        x ^= x << 13;
        x ^= x >> 7;
        x ^= x << 17;
    }
    part->answer = x;
    return NULL;
}

static void *lanes(void *given) {
    struct part *part = given;
    uint64_t days = 0;
    for (long visit = 0; visit < part->visits; visit++) {
        uint32_t word = 0;
        for (int day = 0; day < 32; day++) {
            word |= (uint32_t)(part->values[visit % BLOCKS][day] >= 10) << day;
        }
        days += __builtin_popcount(word);
    }
    part->answer = days;
    return NULL;
}

/* The milliseconds that this many threads take for the work, each for its share. */
static double took(void *(*work)(void *), int threads) {
    pthread_t handles[MOST];
    double start = milliseconds();
    for (int at = 0; at < threads; at++) {
        parts[at].visits = VISITS / threads;
        parts[at].steps = STEPS / threads;
        if (pthread_create(&handles[at], NULL, work, &parts[at]) != 0) {
            fprintf(stderr, "threads: no thread\n");
            exit(2);
        }
    }
    for (int at = 0; at < threads; at++) {
        pthread_join(handles[at], NULL);
    }
    return milliseconds() - start;
}

static void print(const char *name, void *(*work)(void *), int rounds) {
    double least[MOST];
    for (int round = 0; round < rounds; round++) {
        for (int at = 0; at < MOST; at++) {
            nanosleep(&(struct timespec){.tv_nsec = 50000000}, NULL);
            double now = took(work, at + 1);
            least[at] = round == 0 || now < least[at] ? now : least[at];
        }
    }
    printf("%s %.1f %.1f %.1f %.1f\n", name, least[0], least[1], least[2], least[3]);
}

int main(int count, char **words) {
    int rounds = count == 2 ? atoi(words[1]) : 0;
    if (rounds < 1) {
        fprintf(stderr, "usage: threads ROUNDS\n");
        return 2;
    }
    uint32_t random = 1;
    for (int at = 0; at < MOST; at++) {
        for (int block = 0; block < BLOCKS; block++) {
            for (int day = 0; day < 32; day++) {
                random = random * 1664525 + 1013904223;
                parts[at].values[block][day] = random >> 26;
            }
        }
    }
    print("chain", chain, rounds);
    print("lanes", lanes, rounds);
    return 0;
}
