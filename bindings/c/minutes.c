/*
 * Counts the samples that lie inside a wedge of planned load, as the program `minutes` does, in an input of any length.
 *
 * Standard input: the wedge, six coordinates of a triangle, then a sample a line, second of day and Mbit/s; all parted by tabs. It writes
 * `inside`, how many samples the wedge contains, and how many there were; or `refused` and the number, if the wedge is refused; or `bad line`, the
 * number of the first line that is no such line, and which field, counted from 1: 0, if it has another number of fields or more than 128 bytes; or
 * `too long` past 4,294,967,295 samples. The status is 1 if there is no count; a read that fails is said on standard error, and nothing is counted then.
 */
#include <inttypes.h>
#include <stdio.h>

#include "beamacorn.h"

enum { LONGEST = 128 };

/* Reads a line without its LF: as many bytes as a good line may have, and one. False at the end of the input. */
static bool next_line(char *line, int *length)
{
    int byte = getchar();

    *length = 0;
    if (byte == EOF) {
        return false;
    }
    for (; byte != EOF && byte != '\n'; byte = getchar()) {
        if (*length <= LONGEST) {
            line[(*length)++] = (char)byte;
        }
    }
    return true;
}

/* Reads an optional minus and one to ten digits that an int32_t holds. */
static bool read_coordinate(const char *at, const char *end, int32_t *value)
{
    bool negative = at < end && *at == '-';
    int64_t sum = 0;

    at += negative;
    if (end - at < 1 || end - at > 10) {
        return false;
    }
    for (; at < end; ++at) {
        if (*at < '0' || *at > '9') {
            return false;
        }
        sum = 10 * sum + (*at - '0');
    }
    if (negative) {
        sum = -sum;
    }
    if (sum < INT32_MIN || sum > INT32_MAX) {
        return false;
    }
    *value = (int32_t)sum;
    return true;
}

/* Reads a line of `count` coordinates, parted by tabs: -1, or which field is none, counted from 1, or 0 if they are not so many or the line is too long. */
static int read_fields(const char *line, int length, int32_t *values, int count)
{
    int tabs = 0;

    for (int i = 0; i < length; ++i) {
        tabs += line[i] == '\t';
    }
    if (length > LONGEST || tabs != count - 1) {
        return 0;
    }
    for (int field = 0, start = 0, stop; field < count; ++field, start = stop + 1) {
        for (stop = start; stop < length && line[stop] != '\t'; ++stop) {
        }
        if (!read_coordinate(line + start, line + stop, &values[field])) {
            return field + 1;
        }
    }
    return -1;
}

/* Reads a line of `count` coordinates, and says so if it is none. */
static bool good_line(const char *line, int length, int32_t *values, int count, uint64_t number)
{
    int field = read_fields(line, length, values, count);

    if (field >= 0) {
        printf("bad line\t%" PRIu64 "\t%d\n", number, field);
    }
    return field < 0;
}

/* Says so if a question on the wedge was refused. */
static bool refused(uint32_t number)
{
    if (number != BEAMACORN_DONE) {
        printf("refused\t%" PRIu32 "\n", number);
    }
    return number != BEAMACORN_DONE;
}

/* Says so if a read failed. */
static bool unread(void)
{
    if (ferror(stdin)) {
        perror("standard input");
        return true;
    }
    return false;
}

/* Writes the answer to an input, and answers the status. */
static int count(void)
{
    char line[LONGEST + 1];
    int length;
    int32_t w[6], p[2];
    uint32_t inside = 0, samples = 0;

    next_line(line, &length);
    /* A wedge is refused whether samples follow or not. */
    if (unread() || !good_line(line, length, w, 6, 1) || refused(beamacorn_triangle_rows(w[0], w[1], w[2], w[3], w[4], w[5]).number)) {
        return 1;
    }
    while (next_line(line, &length)) {
        if (unread() || !good_line(line, length, p, 2, (uint64_t)samples + 2)) {
            return 1;
        }
        if (samples == UINT32_MAX) {
            printf("too long\n");
            return 1;
        }
        beamacorn_verdict sample = beamacorn_triangle_contains(w[0], w[1], w[2], w[3], w[4], w[5], p[0], p[1]);
        if (refused(sample.number)) {
            return 1;
        }
        inside += sample.yes;
        ++samples;
    }
    if (unread()) {
        return 1;
    }
    printf("inside\t%" PRIu32 "\t%" PRIu32 "\n", inside, samples);
    return 0;
}

int main(void)
{
    int status = count();

    if (fflush(stdout) != 0) {
        perror("standard output");
        return 1;
    }
    return status;
}
