/* limit FILE..: the least work that any program does for the job on one thread. It reads each file into
 * one buffer, finds the ends of the lines, and adds up all bytes, so that each was really read. */
#include <fcntl.h>
#include <stdint.h>
#include <stdio.h>
#include <stdlib.h>
#include <string.h>
#include <sys/stat.h>
#include <unistd.h>

/* The whole of a file, in a buffer that grows as it must. */
static size_t read_file(const char *path, unsigned char **buffer, size_t *capacity) {
    int file = open(path, O_RDONLY);
    struct stat about;
    if (file < 0 || fstat(file, &about) != 0) {
        perror(path);
        exit(3);
    }
    size_t length = (size_t)about.st_size;
    if (length > *capacity) {
        free(*buffer);
        *capacity = length + length / 4;
        *buffer = malloc(*capacity);
    }
    size_t got = 0;
    while (*buffer && got < length) {
        ssize_t more = read(file, *buffer + got, length - got);
        if (more <= 0) {
            break;
        }
        got += (size_t)more;
    }
    if (got < length) {
        perror(path);
        exit(3);
    }
    close(file);
    return length;
}

static uint64_t count_lines(const unsigned char *text, size_t length) {
    uint64_t lines = 0;
    const unsigned char *end = text + length;
    while (text < end && (text = memchr(text, '\n', (size_t)(end - text)))) {
        lines++;
        text++;
    }
    return lines;
}

/* In short sums, which the compiler adds several at a time. */
static uint64_t sum_of(const unsigned char *text, size_t length) {
    uint64_t sum = 0;
    for (size_t start = 0; start < length; start += 256) {
        size_t end = length - start < 256 ? length : start + 256;
        uint16_t part = 0;
        for (size_t i = start; i < end; i++) {
            part = (uint16_t)(part + text[i]);
        }
        sum += part;
    }
    return sum;
}

int main(int count, char **words) {
    unsigned char *buffer = NULL;
    size_t capacity = 0;
    uint64_t lines = 0, sum = 0;
    for (int i = 1; i < count; i++) {
        size_t length = read_file(words[i], &buffer, &capacity);
        lines += count_lines(buffer, length);
        sum += sum_of(buffer, length);
    }
    printf("lines %llu sum %llu\n", (unsigned long long)lines, (unsigned long long)sum);
    return 0;
}
