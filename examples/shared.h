/* What the programs of this folder share: exit statuses, what they say, and numbers; and, for those that run a vote, a
   docket and a group of workers. Each defines PROGRAM, its name, first. */
#ifndef SHARED_H
#define SHARED_H

#include <inttypes.h>
#include <stdint.h>
#include <stdio.h>

#include "docket.h"

enum {
    DONE = 0,
    REFUSED = 1,
    TROUBLE = 2,
    MOST_BYTES = DOCKET_MAX_BYTES + 1,  /* so that a longer file is refused as too long */
    STEPS_AT_ONCE = 100000              /* the limit of one call that runs groups */
};

struct docket {
    uint8_t bytes[MOST_BYTES];
    size_t len;
    uint64_t states, rules;   /* how many, known once the docket is accepted */
};

struct group {
    uint32_t counts[DOCKET_MAX_STATES];
    size_t len;
};

/* ---- all programs */

static inline int usage(const char *arguments)
{
    fprintf(stderr, "usage: " PROGRAM " %s\n", arguments);
    return TROUBLE;
}

static inline int trouble(const char *what, const char *why)
{
    fprintf(stderr, PROGRAM ": %s: %s\n", what, why);
    return TROUBLE;
}

static inline int say_refused(const char *what, uint32_t number, uint32_t place)
{
    printf("%s: refused %" PRIu32 " %" PRIu32 ": %s\n", what, number, place, docket_refusal_text(number));
    return REFUSED;
}

/* The status, or TROUBLE where what was printed could not be written. */
static inline int printed(int status)
{
    if (fflush(stdout) != 0 || ferror(stdout))
        return trouble("standard output", "cannot be written");
    return status;
}

/* Reads a decimal number. Returns 1 where text is one up to most, which is 9 or more, else 0. */
static inline int read_number(const char *text, uint64_t most, uint64_t *number)
{
    uint64_t value = 0;
    if (*text == '\0')
        return 0;
    for (; *text != '\0'; text++) {
        if (*text < '0' || *text > '9')
            return 0;
        uint64_t digit = (uint64_t)(*text - '0');
        if (value > (most - digit) / 10)
            return 0;
        value = value * 10 + digit;
    }
    *number = value;
    return 1;
}

/* ---- those that run a vote */

/* Reads the file, or its first MOST_BYTES bytes where it has more. */
static inline int read_docket(const char *name, struct docket *docket)
{
    FILE *file = fopen(name, "rb");
    if (file == NULL)
        return trouble(name, "cannot be read");
    docket->len = fread(docket->bytes, 1, sizeof docket->bytes, file);
    int failed = ferror(file);
    if (fclose(file) != 0 || failed)
        return trouble(name, "cannot be read");
    return DONE;
}

/* Reads the next count of a group. */
static inline int read_count(const char *text, struct group *group)
{
    uint64_t count = 0;
    if (group->len == DOCKET_MAX_STATES)
        return trouble(text, "more counts than a docket has states");
    if (!read_number(text, UINT32_MAX, &count))
        return trouble(text, "not a count");
    group->counts[group->len++] = (uint32_t)count;
    return DONE;
}

/* Reads n counts. */
static inline int read_counts(int n, char **text, struct group *group)
{
    int status = DONE;
    for (int i = 0; i < n && status == DONE; i++)
        status = read_count(text[i], group);
    return status;
}

static inline int check_docket(struct docket *docket)
{
    uint64_t figures[6];
    uint64_t code = docket_figures(docket->bytes, docket->len, figures);
    if (code != 0)
        return say_refused("docket", docket_check_number(code), docket_check_place(code));
    docket->states = figures[0];
    docket->rules = figures[1];
    printf("docket: accepted, %" PRIu64 " states\n", docket->states);
    return DONE;
}

/* The start test of a group. Counts that are missing at the end are 0. A refusal is said with the name. */
static inline int start_test(const struct docket *docket, struct group *group, const char *name)
{
    if (group->len < docket->states)
        group->len = docket->states;
    uint64_t code = docket_start_test(docket->bytes, docket->len, group->counts, group->len);
    if (code != 0)
        return say_refused(name, docket_call_number(code), docket_call_place(code));
    return DONE;
}

/* Checks the docket and tests the start. */
static inline int begin(struct docket *docket, struct group *group)
{
    int status = check_docket(docket);
    if (status == DONE)
        status = start_test(docket, group, "start");
    if (status == DONE)
        printf("start: passed\n");
    return status;
}

static inline void say_counts(const struct group *group)
{
    printf(", counts");
    for (size_t i = 0; i < group->len; i++)
        printf(" %" PRIu32, group->counts[i]);
}

/* The verdict of a group in words. A refusal is said with the name. */
static inline int ask_verdict(const struct docket *docket, const struct group *group, const char *name,
                              const char **verdict)
{
    uint64_t answer = 0;
    uint64_t code = docket_verdict(docket->bytes, docket->len, group->counts, group->len, &answer);
    if (code != 0)
        return say_refused(name, docket_call_number(code), docket_call_place(code));
    *verdict = answer == 0 ? "0" : answer == 1 ? "1" : "mixed";
    return DONE;
}

static inline int read_verdict(const struct docket *docket, const struct group *group)
{
    const char *verdict = NULL;
    int status = ask_verdict(docket, group, "verdict", &verdict);
    if (status == DONE)
        printf("verdict: %s\n", verdict);
    return status;
}

#endif
