/* Reads pairs of counts, hardware swaps and then finished calls, one pair a line, and prints the rate of each. */
#include <errno.h>
#include <inttypes.h>
#include <stdio.h>
#include <stdlib.h>

#include "lisqotay.h"

/* The decimal number at *text, which is moved past it; 0 if there is none of 32 bits. */
static int read_count(char **text, uint32_t *count)
{
    char *start = *text;
    if (*start < '0' || *start > '9') {
        return 0;
    }
    errno = 0;
    unsigned long long n = strtoull(start, text, 10);
    *count = (uint32_t)n;
    return errno == 0 && n <= UINT32_MAX;
}

static int read_pair(char *line, uint32_t *hardware_swaps, uint32_t *finished_calls)
{
    if (!read_count(&line, hardware_swaps) || *line != ' ') {
        return 0;
    }
    line++;
    return read_count(&line, finished_calls) && *line == '\n';
}

int main(void)
{
    char line[64];
    uint32_t hardware_swaps, finished_calls;
    while (fgets(line, sizeof line, stdin)) {
        if (!read_pair(line, &hardware_swaps, &finished_calls)) {
            fputs("rates: a line is no pair of 32-bit counts\n", stderr);
            return 1;
        }
        printf("%" PRIu64 "\n", lisqotay_rate(hardware_swaps, finished_calls));
    }
    if (ferror(stdin) || fflush(stdout) != 0) {
        fputs("rates: cannot read or write\n", stderr);
        return 1;
    }
    return 0;
}
