/*
 * The point of a listing is kept between runs in a small text file: one line with the three numbers
 * taken, held and denied of the resolution shown last, or the word "start" for the point before the
 * first pair. Where there is no such file, the listing begins at its start.
 */
#include "points.h"

#include <errno.h>
#include <inttypes.h>
#include <stdio.h>
#include <stdlib.h>
#include <string.h>

enum {
    POINT_MOST = 80 /* longer than any line of a point file */
};

bool read_number(const char **at, uint64_t *number)
{
    const char *s = *at;
    uint64_t sum = 0;
    for (; *s >= '0' && *s <= '9'; s++) {
        uint64_t digit = (uint64_t)(*s - '0');
        if (sum > (UINT64_MAX - digit) / 10) {
            return false;
        }
        sum = 10 * sum + digit;
    }
    if (s == *at) {
        return false;
    }
    *at = s;
    *number = sum;
    return true;
}

/* Reads three numbers with a space between each two, and nothing more. */
static bool read_pair(const char *line, pair *p)
{
    const char *at = line;
    return read_number(&at, &p->taken) && *at++ == ' '
        && read_number(&at, &p->held) && *at++ == ' '
        && read_number(&at, &p->denied) && strcmp(at, "\n") == 0;
}

/* Reads the one line of an open point file. */
static bool read_point_line(FILE *file, const char *name, point *at)
{
    char line[POINT_MOST];
    bool good = fgets(line, sizeof line, file) != NULL && fgetc(file) == EOF && !ferror(file);
    at->begun = good && strcmp(line, "start\n") != 0;
    if (!good || (at->begun && !read_pair(line, &at->at))) {
        return fail(name, "this is not a point: it should hold three numbers on one line, or the word start");
    }
    return true;
}

bool read_point(const char *name, point *at)
{
    memset(at, 0, sizeof *at);
    FILE *file = fopen(name, "r");
    if (file == NULL) {
        return errno == ENOENT || fail(name, strerror(errno));
    }
    bool good = read_point_line(file, name, at);
    fclose(file);
    return good;
}

/* Writes the point into a new file of the given name. */
static bool write_point_file(const char *name, point at)
{
    FILE *file = fopen(name, "w");
    if (file == NULL) {
        return fail(name, strerror(errno));
    }
    int wrote = at.begun
        ? fprintf(file, "%" PRIu64 " %" PRIu64 " %" PRIu64 "\n", at.at.taken, at.at.held, at.at.denied)
        : fprintf(file, "start\n");
    bool closed = fclose(file) == 0;
    if (wrote > 0 && closed) {
        return true;
    }
    remove(name);
    return fail(name, "the point could not be written");
}

char *joined(const char *name, const char *ending)
{
    size_t length = strlen(name) + strlen(ending) + 1;
    char *both = malloc(length);
    if (both != NULL) {
        snprintf(both, length, "%s%s", name, ending);
    }
    return both;
}

/* Writes the point down: first beside the old one, then in its place, so that a failure leaves the old one whole. */
bool write_point(const char *name, point at)
{
    char *beside = joined(name, ".new");
    if (beside == NULL) {
        return fail(name, "there is no memory for its name");
    }
    bool good = write_point_file(beside, at);
    if (good && rename(beside, name) != 0) {
        good = fail(name, strerror(errno));
        remove(beside);
    }
    free(beside);
    return good;
}
