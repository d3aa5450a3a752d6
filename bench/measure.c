/* measure OUTPUT COMMAND WORD..: runs a command with its standard output in a file, and prints its
 * wall seconds, its processor seconds (user and system), its peak memory in KiB and its status.
 *
 * It is a program of its own since the memory of a process counts from the program that it was
 * before: a command started from here begins with next to none. */
#define _GNU_SOURCE
#include <fcntl.h>
#include <stdio.h>
#include <sys/resource.h>
#include <sys/wait.h>
#include <time.h>
#include <unistd.h>

static double seconds_of_clock(void) {
    struct timespec now;
    clock_gettime(CLOCK_MONOTONIC, &now);
    return now.tv_sec + now.tv_nsec * 1e-9;
}

static double seconds_of(struct timeval time) {
    return time.tv_sec + time.tv_usec * 1e-6;
}

int main(int count, char **words) {
    if (count < 3) {
        fprintf(stderr, "usage: measure OUTPUT COMMAND WORD..\n");
        return 2;
    }
    double start = seconds_of_clock();
    pid_t child = fork();
    if (child == 0) {
        int output = open(words[1], O_WRONLY | O_CREAT | O_TRUNC, 0666);
        if (output < 0 || dup2(output, 1) < 0) {
            _exit(126);
        }
        execvp(words[2], words + 2);
        _exit(127);
    }
    int status;
    if (child < 0 || waitpid(child, &status, 0) < 0) {
        perror("measure");
        return 3;
    }
    double wall = seconds_of_clock() - start;
    struct rusage used;
    getrusage(RUSAGE_CHILDREN, &used);
    printf("%.6f %.6f %ld %d\n", wall, seconds_of(used.ru_utime) + seconds_of(used.ru_stime),
           used.ru_maxrss, WIFEXITED(status) ? WEXITSTATUS(status) : 128 + WTERMSIG(status));
    return 0;
}
