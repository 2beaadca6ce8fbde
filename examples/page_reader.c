/*
 * Checks a docket, runs its vote on counts of workers and reads the verdict, all through docket.h.
 *
 *     cc -std=c99 -Iinclude examples/page_reader.c target/staticlib/libdocket.a -o page_reader
 *     ./page_reader DOCKET COUNT...          one count for each state, fixed workers among them; missing ones at the end
 *                                            are 0
 *
 * Exit status: 0 the verdict was read, 1 something was refused, 2 bad usage or a file that cannot be read.
 */
#define PROGRAM "page_reader"
#include "shared.h"

/* Runs the group to rest. With an accepted docket docket_run always gets there, so the loop ends. */
static int run_to_rest(const struct docket *docket, struct group *group)
{
    uint64_t total = 0;
    uint64_t rests = 0;
    while (!rests) {
        uint64_t steps = 0;
        uint64_t code =
            docket_run(docket->bytes, docket->len, group->counts, group->len, STEPS_AT_ONCE, &steps, &rests);
        if (code != 0)
            return say_refused("run", docket_call_number(code), docket_call_place(code));
        total += steps;
    }
    printf("run: at rest after %" PRIu64 " steps", total);
    say_counts(group);
    printf("\n");
    return DONE;
}

static int vote(struct docket *docket, struct group *group)
{
    int status = begin(docket, group);
    if (status == DONE)
        status = run_to_rest(docket, group);
    if (status == DONE)
        status = read_verdict(docket, group);
    return status;
}

int main(int argc, char **argv)
{
    static struct docket docket;
    struct group group = {{0}, 0};
    if (argc < 2)
        return usage("DOCKET COUNT...");
    int status = read_counts(argc - 2, argv + 2, &group);
    if (status == DONE)
        status = read_docket(argv[1], &docket);
    if (status == DONE)
        status = vote(&docket, &group);
    return printed(status);
}
