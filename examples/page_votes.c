/*
 * Checks a docket, runs the votes of a page, each on counts of its own, with docket_run_page, and reads the verdicts, all
 * through docket.h.
 *
 *     cc -std=c99 -Iinclude examples/page_votes.c target/staticlib/libdocket.a -o page_votes
 *     ./page_votes DOCKET GROUP...           the counts of a group, as in page_reader.c, with commas between them: 2,1
 *
 * Groups are numbered from 0 on in the order of the arguments. One that is no start is left out of the page.
 * Exit status: 0 all verdicts were read, 1 something was refused, 2 bad usage, a file that cannot be read or too little
 * memory.
 */
#define PROGRAM "page_votes"
#include "shared.h"

#include <stdlib.h>
#include <string.h>

/* A group, its number among the arguments, and the steps it has made. */
struct vote {
    size_t number;
    struct group group;
    uint64_t steps;
};

/* The votes, and what a call takes of those on the page: the counts behind each other, and two results for each. */
struct page {
    struct vote *votes;
    size_t len;
    uint32_t *counts;
    uint64_t *results;
};

/* What a vote is called. */
static const char *name_of(const struct vote *vote)
{
    static char name[40];
    snprintf(name, sizeof name, "group %zu", vote->number);
    return name;
}

/* Room for n votes. */
static int new_page(struct page *page, size_t n)
{
    page->votes = calloc(n, sizeof *page->votes);
    page->counts = calloc(n, DOCKET_MAX_STATES * sizeof *page->counts);
    page->results = calloc(n, 2 * sizeof *page->results);
    if (page->votes == NULL || page->counts == NULL || page->results == NULL)
        return trouble("the page", "too little memory");
    return DONE;
}

static void free_page(struct page *page)
{
    free(page->votes);
    free(page->counts);
    free(page->results);
}

/* Reads the counts of a group, and takes the text apart at the commas. */
static int read_group(char *text, struct group *group)
{
    int status = DONE;
    while (text != NULL && status == DONE) {
        char *comma = strchr(text, ',');
        if (comma != NULL)
            *comma = '\0';
        status = read_count(text, group);
        text = comma == NULL ? NULL : comma + 1;
    }
    return status;
}

static int read_groups(size_t n, char **text, struct page *page)
{
    int status = new_page(page, n);
    for (; page->len < n && status == DONE; page->len++) {
        page->votes[page->len].number = page->len;
        status = read_group(text[page->len], &page->votes[page->len].group);
    }
    return status;
}

/* Makes the start test of each group, and leaves those out of the page that fail it. */
static int start_tests(const struct docket *docket, struct page *page)
{
    size_t passed = 0;
    int status = DONE;
    for (size_t i = 0; i < page->len; i++) {
        struct vote *vote = &page->votes[i];
        if (start_test(docket, &vote->group, name_of(vote)) == DONE)
            page->votes[passed++] = *vote;
        else
            status = REFUSED;
    }
    page->len = passed;
    return status;
}

/* Takes the counts and the results of a call into the votes. Hands back how many rest in resting. */
static int take_results(size_t states, struct page *page, size_t *resting)
{
    *resting = 0;
    for (size_t g = 0; g < page->len; g++) {
        const uint64_t *result = &page->results[2 * g];
        struct vote *vote = &page->votes[g];
        if (result[0] != 0)
            return say_refused(name_of(vote), (uint32_t)result[0], 0);
        memcpy(vote->group.counts, &page->counts[g * states], states * sizeof *page->counts);
        vote->steps += result[1] / 2;
        *resting += result[1] % 2;
    }
    return DONE;
}

/* Runs all groups to rest. With an accepted docket docket_run_page always gets there, so the loop ends. */
static int run_to_rest(const struct docket *docket, struct page *page)
{
    size_t states = docket->states, resting = 0;
    int status = DONE;
    for (size_t g = 0; g < page->len; g++)
        memcpy(&page->counts[g * states], page->votes[g].group.counts, states * sizeof *page->counts);
    while (resting < page->len && status == DONE) {
        uint64_t code = docket_run_page(docket->bytes, docket->len, page->counts, page->len * states, STEPS_AT_ONCE,
                                        page->results, 2 * page->len);
        if (code != 0)
            return say_refused("page", docket_call_number(code), docket_call_place(code));
        status = take_results(states, page, &resting);
    }
    return status;
}

static int read_verdicts(const struct docket *docket, const struct page *page)
{
    for (size_t g = 0; g < page->len; g++) {
        const struct vote *vote = &page->votes[g];
        const char *verdict = NULL;
        int status = ask_verdict(docket, &vote->group, name_of(vote), &verdict);
        if (status != DONE)
            return status;
        printf("%s: at rest after %" PRIu64 " steps", name_of(vote), vote->steps);
        say_counts(&vote->group);
        printf(", verdict %s\n", verdict);
    }
    return DONE;
}

static int vote(struct docket *docket, struct page *page)
{
    int status = check_docket(docket);
    if (status != DONE)
        return status;
    int started = start_tests(docket, page);
    status = run_to_rest(docket, page);
    if (status == DONE)
        status = read_verdicts(docket, page);
    return status == DONE ? started : status;
}

int main(int argc, char **argv)
{
    static struct docket docket;
    static struct page page;
    if (argc < 3)
        return usage("DOCKET GROUP...");
    int status = read_groups((size_t)argc - 2, argv + 2, &page);
    if (status == DONE)
        status = read_docket(argv[1], &docket);
    if (status == DONE)
        status = vote(&docket, &page);
    free_page(&page);
    return printed(status);
}
