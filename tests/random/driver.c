#define _POSIX_C_SOURCE 200809L

#include "driver.h"

#include <errno.h>
#include <stdio.h>
#include <stdlib.h>
#include <sys/stat.h>
#include <time.h>

_Noreturn void give_up(const char *what)
{
    perror(what);
    exit(2);
}

double seconds(void)
{
    struct timespec now;

    clock_gettime(CLOCK_MONOTONIC, &now);
    return (double)now.tv_sec + (double)now.tv_nsec / 1e9;
}

bool number_argument(const char *text, uint64_t *value)
{
    char *end;

    errno = 0;
    *value = strtoull(text, &end, 10);
    return errno == 0 && end != text && *end == '\0' && text[0] != '-';
}

void make_folder(const char *path)
{
    if (mkdir(path, 0777) != 0 && errno != EEXIST)
        give_up(path);
}

void keep_input(const char *dir, uint64_t seed, const uint8_t *input,
                size_t length)
{
    char path[4096];
    FILE *out;

    snprintf(path, sizeof path, "%s/seed-%llu.bin", dir, (unsigned long long)seed);
    out = fopen(path, "wb");
    if (out == NULL || fwrite(input, 1, length, out) != length || fclose(out) != 0)
        give_up(path);
    printf("  input kept in %s\n", path);
}

unsigned coverage_rows(FILE *out, const char *thing, const struct row *rows,
                       size_t count)
{
    unsigned never = 0;

    fprintf(out, "%ss:\n", thing);
    for (size_t i = 0; i < count; i++) {
        fprintf(out, "  %-42s %9lu\n", rows[i].what, rows[i].met);
        if (rows[i].met == 0) {
            fprintf(out, "never met: %s, %s\n", thing, rows[i].what);
            never++;
        }
    }
    return never;
}
