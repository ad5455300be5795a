/*
 * Checks chart texts by way of the C interface.
 *
 *     check FILE...             says of each file whether it is a chart, or why it is refused
 *     check -n COUNT FILE...    checks each file COUNT times, and prints only the nanoseconds that one check took
 *
 * Exit status: 0 if every file could be read, refused charts included; 1 if one could not, or if the answers could not be
 * printed; 2 if called in another way.
 */
#define _POSIX_C_SOURCE 199309L

#include <errno.h>
#include <stdint.h>
#include <stdio.h>
#include <stdlib.h>
#include <string.h>
#include <time.h>

#include "pewterfinch.h"

/* One byte more than a text may have is enough to see that there are too many. */
#define MOST_READ_BYTES (PEWTERFINCH_MOST_TEXT_BYTES + 1)

static const char *meaning(uint16_t answer)
{
    switch (answer) {
    case PEWTERFINCH_OVERSIZE:
        return "the text has more than 16,384 bytes";
    case PEWTERFINCH_UNENDED:
        return "a line has no end: no byte 10 follows from its start on";
    case PEWTERFINCH_OVERLONG:
        return "a line has more than 96 bytes";
    case PEWTERFINCH_WRONG_KEY:
        return "a line does not begin with the key that is due and `=`";
    case PEWTERFINCH_FORM:
        return "an element is not written as it should be";
    case PEWTERFINCH_RANGE:
        return "an element is outside its limits or names something that there is not";
    case PEWTERFINCH_TRAILING:
        return "the text goes on behind its last due line";
    case PEWTERFINCH_MISPLACED:
        return "automaton 0 is not under `top`, or a later one not under a state of a lower-numbered automaton";
    case PEWTERFINCH_STRAY_INITIAL:
        return "the `first` of an automaton does not lie in it";
    case PEWTERFINCH_SPLIT_ENDS:
        return "`from` and `to` of a transition lie in different automata";
    case PEWTERFINCH_ILL_FORMED:
        return "a `with` has a state that is not below its `from`, or two that are not orthogonal";
    case PEWTERFINCH_NOT_FULL:
        return "an `into` has a state that is not basic or not below its `to`, or two that are not orthogonal, or lacks one";
    default:
        return "a number that has no meaning";
    }
}

/* The start of the file, as much of it as there is room for, and how much that is. Answers 0, or an error's number. */
static int read_file(const char *path, uint8_t *text, size_t room, size_t *length)
{
    FILE *file;
    int error = 0;

    errno = 0;
    file = fopen(path, "rb");
    if (file == NULL) {
        return errno != 0 ? errno : EIO;
    }
    *length = fread(text, 1, room, file);
    if (ferror(file)) {
        error = errno != 0 ? errno : EIO;
    }
    fclose(file);
    return error;
}

/* The nanoseconds of one check, as the mean of so many. */
static double nanoseconds(const uint8_t *text, size_t length, unsigned long count)
{
    struct timespec start;
    struct timespec end;
    unsigned long i;

    clock_gettime(CLOCK_MONOTONIC, &start);
    for (i = 0; i < count; i++) {
        pewterfinch_check(text, length);
    }
    clock_gettime(CLOCK_MONOTONIC, &end);
    return ((double)(end.tv_sec - start.tv_sec) * 1e9 + (double)(end.tv_nsec - start.tv_nsec)) / (double)count;
}

static void print_answer(const char *path, uint16_t answer)
{
    if (answer == PEWTERFINCH_ACCEPTED) {
        printf("%s: accepted\n", path);
    } else {
        printf("%s: refusal %u: %s\n", path, (unsigned)answer, meaning(answer));
    }
}

/* How often each file is checked: a number from 1 on, in decimal digits; or 0 if it is not written so. */
static unsigned long count_of(const char *digits)
{
    unsigned long count;
    char *end;

    if (digits[0] < '0' || digits[0] > '9') {
        return 0;
    }
    errno = 0;
    count = strtoul(digits, &end, 10);
    return errno == 0 && *end == '\0' ? count : 0;
}

int main(int argc, char **argv)
{
    static uint8_t text[MOST_READ_BYTES];
    unsigned long count = 0;
    int first = 1;
    int status = 0;
    int i;

    if (argc > 1 && strcmp(argv[1], "-n") == 0) {
        count = argc > 2 ? count_of(argv[2]) : 0;
        first = count > 0 ? 3 : argc;
    }
    if (first >= argc) {
        fprintf(stderr, "usage: check [-n COUNT] FILE...\n");
        return 2;
    }
    for (i = first; i < argc; i++) {
        size_t length = 0;
        int error = read_file(argv[i], text, sizeof text, &length);

        if (error != 0) {
            fprintf(stderr, "%s cannot be read: %s\n", argv[i], strerror(error));
            status = 1;
        } else if (count == 0) {
            print_answer(argv[i], pewterfinch_check(text, length));
        } else {
            printf("%.1f\n", nanoseconds(text, length, count));
        }
    }
    if (fflush(stdout) != 0) {
        fprintf(stderr, "the answers cannot be printed\n");
        status = 1;
    }
    return status;
}
