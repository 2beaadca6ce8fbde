/*
 * Checks a docket, draws the meetings of a vote at random until it rests, and reads the verdict, all through docket.h.
 *
 *     cc -std=c99 -Iinclude examples/random_vote.c target/staticlib/libdocket.a -o random_vote
 *     ./random_vote DOCKET SEED LIMIT COUNT...
 *
 * SEED fixes all draws: the same arguments give the same vote on every machine. LIMIT is how many meetings are made at
 * the most. Both are numbers of 64 bits. COUNT is as in page_reader.c.
 *
 * A draw takes one of all cases, each as likely as any other: a case is a pair of workers and a rule by which they can
 * meet. So a pair of workers with two rules is two cases, and one without a rule none.
 *
 * Exit status: 0 the verdict was read, 1 something was refused, 2 bad usage or a file that cannot be read, 3 the vote
 * did not rest.
 */
#define PROGRAM "random_vote"
#include "shared.h"

enum { NOT_AT_REST = 3 };

/* The next number of 64 bits: splitmix64, that is SplittableRandom of Steele, Lea and Flood, "Fast splittable
   pseudorandom number generators", OOPSLA 2014. */
static uint64_t next_random(uint64_t *state)
{
    uint64_t z = *state += UINT64_C(0x9e3779b97f4a7c15);
    z = (z ^ (z >> 30)) * UINT64_C(0xbf58476d1ce4e5b9);
    z = (z ^ (z >> 27)) * UINT64_C(0x94d049bb133111eb);
    return z ^ (z >> 31);
}

/* A number below n, each as likely as any other; n is not 0. The lowest 2^64 mod n random numbers are dropped, so that
   each remainder on division by n is left equally often. */
static uint64_t draw_below(uint64_t n, uint64_t *state)
{
    uint64_t dropped = (0 - n) % n;
    uint64_t number;
    do
        number = next_random(state);
    while (number < dropped);
    return number % n;
}

/* Asks for the pairs of workers that could meet by each rule. Their sum is how many cases there are. */
static int count_pairs(const struct docket *docket, const struct group *group, uint64_t *pairs, uint64_t *sum)
{
    *sum = 0;
    for (uint32_t rule = 0; rule < docket->rules; rule++) {
        uint64_t code =
            docket_can_act(docket->bytes, docket->len, group->counts, group->len, rule, &pairs[rule]);
        if (code != 0)
            return say_refused("can act", docket_call_number(code), docket_call_place(code));
        *sum += pairs[rule];
    }
    return DONE;
}

/* The rule of a case, where the cases of rule 0 come first, then those of rule 1, and so on. */
static uint32_t rule_of(uint64_t number, const uint64_t *pairs)
{
    uint32_t rule = 0;
    while (number >= pairs[rule])
        number -= pairs[rule++];
    return rule;
}

/* Draws meetings until no rule can act or limit meetings are made. */
static int draw_to_rest(const struct docket *docket, struct group *group, uint64_t seed, uint64_t limit)
{
    uint64_t pairs[DOCKET_MAX_RULES];
    uint64_t meetings = 0;
    uint64_t sum;
    int status = count_pairs(docket, group, pairs, &sum);
    while (status == DONE && sum != 0 && meetings < limit) {
        uint32_t rule = rule_of(draw_below(sum, &seed), pairs);
        uint64_t code = docket_step(docket->bytes, docket->len, group->counts, group->len, rule);
        if (code != 0)
            return say_refused("step", docket_call_number(code), docket_call_place(code));
        meetings++;
        status = count_pairs(docket, group, pairs, &sum);
    }
    if (status != DONE)
        return status;
    printf("vote: %s after %" PRIu64 " meetings", sum == 0 ? "at rest" : "not at rest", meetings);
    say_counts(group);
    printf("\n");
    return sum == 0 ? DONE : NOT_AT_REST;
}

static int vote(struct docket *docket, struct group *group, uint64_t seed, uint64_t limit)
{
    int status = begin(docket, group);
    if (status == DONE)
        status = draw_to_rest(docket, group, seed, limit);
    if (status == DONE)
        status = read_verdict(docket, group);
    return status;
}

int main(int argc, char **argv)
{
    static struct docket docket;
    struct group group = {{0}, 0};
    uint64_t seed = 0, limit = 0;
    if (argc < 4)
        return usage("DOCKET SEED LIMIT COUNT...");
    if (!read_number(argv[2], UINT64_MAX, &seed))
        return trouble(argv[2], "not a number of 64 bits");
    if (!read_number(argv[3], UINT64_MAX, &limit))
        return trouble(argv[3], "not a number of 64 bits");
    int status = read_counts(argc - 4, argv + 4, &group);
    if (status == DONE)
        status = read_docket(argv[1], &docket);
    if (status == DONE)
        status = vote(&docket, &group, seed, limit);
    return printed(status);
}
