/*
 * The C boundary of docket_run_page: hands it exact copies of docket files, pages of one group to thousands, and results
 * of right and wrong lengths.
 *
 *     page FILE.docket...
 *
 * As in boundary.c, each call is made on three kinds of copies, here of docket, counts and results. Dockets of the last
 * two kinds stand in pages that cannot be written. The results hold other numbers before the call in each kind. A call
 * must leave each group, and say of it, what docket_run does with that group alone. A refused call is made once more with
 * counts that cannot be written and results that can be neither read nor written.
 */
#include "shared.h"

#include <inttypes.h>

enum {
    MANY_GROUPS = 300,
    MOST_GROUPS = 5000,
    ONE_IN = 5,                              /* dockets that pass tests 1 to 8 has a page of MOST_GROUPS */
    MOST_COUNTS = MOST_GROUPS * DOCKET_MAX_STATES,
    MOST_RESULTS = 2 * MOST_GROUPS,
    WORKERS = 1000000,
    NUMBERS = 40                             /* those of refusals are less */
};

/* What a group holds. */
enum filling { NOBODY, TWO_WORKERS, SPREAD, ALL_BITS, A_MILLION, ONE_OVER, ONE_WORKER, OVER_32_BITS, FILLINGS };

/* Counts before a call, and how many counts and results are lent. */
struct page {
    uint32_t counts[MOST_COUNTS];
    size_t counts_len;
    size_t results_len;
    uint32_t limit;
};

struct file {
    const char *name;
    uint8_t bytes[DOCKET_MAX_BYTES];
    size_t len;
    size_t states;
    const char *variant;                     /* what is lent of the file, in every kind of copy */
    const uint8_t *copy[KINDS];
    size_t copy_len;
    uint64_t checked;                        /* what docket_check says of it */
    struct page page;
    unsigned failures;
};

/* What a call must return and leave. */
struct outcome {
    uint64_t code;
    uint32_t counts[MOST_COUNTS];
    uint64_t results[MOST_RESULTS];
};

static struct region docket_regions[KINDS];
static struct region counts_regions[KINDS];
static struct region results_regions[KINDS];
static struct region read_only;              /* room for counts that cannot be written */
static void *no_access;                      /* room for results that can be neither read nor written */
static uint64_t calls[NUMBERS];              /* made, by the number of their refusal, or 0 */
static uint64_t files[NUMBERS];              /* tried, by the number with which docket_check refuses them, or 0 */
static uint64_t groups_refused, groups_at_rest, groups_not_at_rest;
static int passed, failed;

static void expect(struct file *file, int holds, const char *what)
{
    const struct page *page = &file->page;
    if (!holds && file->failures++ < SHOWN)
        printf("%s: %s, %zu bytes, %zu counts, limit %" PRIu32 ", %zu results: %s\n", file->name, file->variant,
               file->copy_len, page->counts_len, page->limit, page->results_len, what);
}

/* ---- pages */

static uint32_t filled(enum filling filling, size_t states, size_t group, size_t state)
{
    int chosen = state == group % states, last = state == states - 1;
    switch (filling) {
    case ONE_WORKER:
        return chosen ? 1 : 0;
    case TWO_WORKERS:
        return (chosen ? 1 : 0) + (last ? 1 : 0);
    case SPREAD:
        return (uint32_t)((group + 3 * state) % 5);
    case A_MILLION:
        return chosen ? WORKERS : 0;
    case ONE_OVER:
        return (state == 0 ? WORKERS : 0) + (last ? 1 : 0);
    case OVER_32_BITS: /* their sum in 32 bits is 2 */
        return state == 0 ? UINT32_MAX : last ? 3 : 0;
    case ALL_BITS:
        return UINT32_MAX;
    default:
        return 0;
    }
}

/* Fills so many groups: the first with this filling, each other with one that is so much further on than that of the group
   before. Two results are lent for each. */
static void fill(struct file *file, size_t groups, size_t first, size_t further)
{
    struct page *page = &file->page;
    for (size_t g = 0; g < groups; g++)
        for (size_t i = 0; i < file->states; i++)
            page->counts[g * file->states + i] =
                filled((enum filling)((first + g * further) % FILLINGS), file->states, g, i);
    page->counts_len = groups * file->states;
    page->results_len = 2 * groups;
}

/* Whether test 21 passes these counts. */
static int is_group(const uint32_t *counts, size_t states)
{
    uint64_t sum = 0;
    for (size_t i = 0; i < states; i++)
        sum += counts[i];
    return sum >= 2 && sum <= WORKERS;
}

/* ---- what must come of a call */

static uint64_t expected_code(const struct file *file)
{
    const struct page *page = &file->page;
    uint32_t number = docket_check_number(file->checked);
    if (is_of_tests_1_to_8(number))
        return refusal(number, docket_check_place(file->checked));
    if (page->counts_len == 0 || page->counts_len % file->states != 0)
        return refusal(32, 0);
    return page->results_len == 2 * (page->counts_len / file->states) ? 0 : refusal(33, 0);
}

/* Runs each group alone. */
static void run_alone(struct file *file, struct outcome *o)
{
    size_t states = file->states;
    for (size_t g = 0; g < file->page.counts_len / states; g++) {
        uint64_t steps = 0, rests = 0, expected = is_group(o->counts + g * states, states) ? 0 : refusal(21, 0);
        uint64_t code = docket_run(file->copy[HEAP], file->copy_len, o->counts + g * states, states, file->page.limit,
                                   &steps, &rests);
        expect(file, code == expected, "docket_run refuses a group wrongly, or does not");
        o->results[2 * g] = docket_call_number(code);
        o->results[2 * g + 1] = 2 * steps + rests;
        groups_refused += code != 0;
        groups_at_rest += code == 0 && rests;
        groups_not_at_rest += code == 0 && !rests;
    }
}

static void find_outcome(struct file *file, struct outcome *o)
{
    o->code = expected_code(file);
    memcpy(o->counts, file->page.counts, file->page.counts_len * sizeof(uint32_t));
    if (o->code == 0)
        run_alone(file, o);
}

/* ---- calls */

/* What a result holds before a call on this kind of copies: 0, a number like that of a group, and one that is none. */
static uint64_t old_result(enum kind kind, size_t at)
{
    return kind == HEAP ? 0 : kind == ENDS_AT_GUARD ? 21 + at % 2 : UINT64_MAX - at;
}

static int is_old(const uint64_t *results, size_t len, enum kind kind)
{
    size_t at = 0;
    while (at < len && results[at] == old_result(kind, at))
        at++;
    return at == len;
}

static uint64_t run_page(struct file *file, enum kind kind, uint32_t *counts, uint64_t *results)
{
    const struct page *page = &file->page;
    uint64_t code = docket_run_page(file->copy[kind], file->copy_len, counts, page->counts_len, page->limit, results,
                                    page->results_len);
    uint32_t number = docket_call_number(code);
    calls[number < NUMBERS ? number : NUMBERS - 1]++;
    expect(file, code == 0 || has_text(number), "a refusal without a text");
    return code;
}

/* A refused call again: it writes no counts, and neither reads nor writes results. */
static void run_without_access(struct file *file, enum kind kind, uint32_t *counts, uint64_t code)
{
    expect(file, run_page(file, kind, counts, no_access) == code,
           "another refusal where counts and results cannot be written");
}

/* Makes the call on one kind of copies. */
static void try_kind(struct file *file, const struct outcome *expected, enum kind kind)
{
    const struct page *page = &file->page;
    size_t counts_size = page->counts_len * sizeof(uint32_t), results_size = page->results_len * sizeof(uint64_t);
    uint32_t *counts = new_block(counts_regions[kind], kind, counts_size);
    uint64_t *results = new_block(results_regions[kind], kind, results_size);
    memcpy(counts, page->counts, counts_size);
    for (size_t i = 0; i < page->results_len; i++)
        results[i] = old_result(kind, i);
    uint64_t code = run_page(file, kind, counts, results);
    expect(file, code == expected->code, "not the code that docket and lengths have");
    expect(file, memcmp(counts, expected->counts, counts_size) == 0, "not the counts of each group alone");
    if (code != 0) {
        expect(file, is_old(results, page->results_len, kind), "a refused call wrote results");
        run_without_access(file, kind, new_block(read_only, ENDS_AT_GUARD, counts_size), code);
    } else {
        expect(file, memcmp(results, expected->results, results_size) == 0, "not the results of each group alone");
    }
    if (kind == HEAP) {
        free(counts);
        free(results);
    }
}

static void try_page(struct file *file)
{
    static struct outcome expected;
    find_outcome(file, &expected);
    for (enum kind k = HEAP; k < KINDS; k++)
        try_kind(file, &expected, k);
    /* The other kinds stand in pages that cannot be written. */
    expect(file, memcmp(file->copy[HEAP], file->copy[ENDS_AT_GUARD], file->copy_len) == 0, "docket changed");
}

/* ---- what is tried on a docket */

/* No counts, and lengths around those of a page of so many groups: each number of counts with each of results. */
static void try_lengths(struct file *file, size_t groups)
{
    fill(file, groups + 1, 1, 1);
    file->page.limit = 100;
    for (size_t i = 0; i < 4; i++)
        for (size_t j = 0; j < 6; j++) {
            file->page.counts_len = i == 3 ? 0 : groups * file->states + 1 - i;
            file->page.results_len = j == 5 ? 0 : 2 * groups + 2 - j;
            try_page(file);
        }
}

/* Lengths that no memory has are refused by themselves, with no look at the counts. The pointers have no such counts and
   results, which no caller may do: only docket and lengths are looked at. */
static void try_long(struct file *file)
{
    const size_t S = file->states, HIGH = (size_t)1 << 32;
    const size_t COUNTS = PTRDIFF_MAX / sizeof(uint32_t), RESULTS = PTRDIFF_MAX / sizeof(uint64_t);
    const size_t lengths[][2] = {
        {S, HIGH},         {S, HIGH + 2},           {S, RESULTS},
        {HIGH * S, 0},     {HIGH * S + S, 2},       {HIGH * S, 2 * HIGH + 2},
        {HIGH * S + 1, 2}, {COUNTS / S * S, 0},     {COUNTS / S * S, RESULTS},
        {HIGH, 0},         {COUNTS / S * S - 1, 2}, {COUNTS / S * S - 1, RESULTS},
    };
    for (size_t i = 0; i < sizeof lengths / sizeof lengths[0]; i++) {
        file->page.counts_len = lengths[i][0];
        file->page.results_len = lengths[i][1];
        run_without_access(file, HEAP, no_access, expected_code(file));
    }
}

/* Pages of so many groups: every filling first, and every filling second. */
static void try_small(struct file *file, size_t groups)
{
    const uint32_t limits[] = {0, 1, 1000};
    for (size_t first = 0; first < FILLINGS; first++)
        for (size_t further = 0; further < FILLINGS; further++)
            for (size_t i = 0; i < sizeof limits / sizeof limits[0]; i++) {
                fill(file, groups, first, further);
                file->page.limit = limits[i];
                try_page(file);
            }
}

/* Pages with great limits: with an accepted docket every group rests, or is refused. */
static void try_to_rest(struct file *file)
{
    const uint32_t limits[] = {UINT32_C(1) << 31, UINT32_MAX};
    uint64_t before = groups_not_at_rest;
    if (file->checked != 0)
        return;
    for (size_t i = 0; i < sizeof limits / sizeof limits[0]; i++) {
        fill(file, 3, TWO_WORKERS, 1);
        file->page.limit = limits[i];
        try_page(file);
    }
    expect(file, groups_not_at_rest == before, "a group does not rest");
}

/* Pages of many groups, with refused ones between, and now and then one of thousands. */
static void try_large(struct file *file)
{
    static unsigned dockets;
    fill(file, MANY_GROUPS, NOBODY, 3);
    file->page.limit = 20;
    try_page(file);
    if (dockets++ % ONE_IN != 0)
        return;
    fill(file, MOST_GROUPS, SPREAD, 5);
    file->page.limit = 7;
    try_page(file);
}

static void lend(struct file *file, const char *variant, const uint8_t *bytes, size_t len)
{
    free((void *)(uintptr_t)file->copy[HEAP]);
    file->variant = variant;
    file->copy_len = len;
    for (enum kind k = HEAP; k < KINDS; k++)
        file->copy[k] = new_copy(docket_regions[k], k, bytes, len);
    file->checked = docket_check(file->copy[HEAP], len);
}

static void try_truncations(struct file *file)
{
    static uint8_t bytes[DOCKET_MAX_BYTES];
    const size_t lengths[] = {0, HEADER - 1, HEADER, file->len - 1};
    for (size_t i = 0; i < sizeof lengths / sizeof lengths[0]; i++) {
        size_t len = lengths[i];
        if (len >= file->len)
            continue;
        lend(file, "truncated", file->bytes, len);
        try_lengths(file, 1);
        if (len < HEADER)
            continue;
        memcpy(bytes, file->bytes, len);
        set16(bytes, 22, len);
        lend(file, "truncated, total length set", bytes, len);
        try_lengths(file, 1);
    }
}

/* Returns 1 where all that was tried on the file held, else 0. */
static int try_file(const char *name)
{
    static struct file file;
    memset(&file, 0, sizeof file);
    file.name = name;
    file.len = read_bytes(name, file.bytes, sizeof file.bytes);
    file.states = header_states(file.bytes);
    lend(&file, "whole file", file.bytes, file.len);
    uint32_t number = docket_check_number(file.checked);
    files[number]++;
    try_lengths(&file, 1);
    try_lengths(&file, 3);
    try_long(&file);
    if (!is_of_tests_1_to_8(number)) {
        try_lengths(&file, MANY_GROUPS);
        for (size_t groups = 1; groups <= 3; groups++)
            try_small(&file, groups);
        try_to_rest(&file);
        try_large(&file);
    }
    try_truncations(&file);
    free((void *)(uintptr_t)file.copy[HEAP]);
    return file.failures == 0;
}

/* ---- the program */

static void count(int good)
{
    passed += good;
    failed += !good;
}

/* Says how often something was met; that it was met at all is a test. */
static void say_met(const char *what, uint64_t times)
{
    printf("docket_run_page: %" PRIu64 " %s\n", times, what);
    count(times > 0);
}

/* The refusals of calls: 32 and 33, and those of tests 1 to 8 that docket_check has for a file. */
static void say_refusals(void)
{
    for (uint32_t number = 1; number < NUMBERS; number++) {
        char what[40];
        if (number != 32 && number != 33 && !(is_of_tests_1_to_8(number) && files[number] > 0))
            continue;
        snprintf(what, sizeof what, "calls refused with %" PRIu32, number);
        say_met(what, calls[number]);
    }
}

int main(int argc, char **argv)
{
    for (enum kind k = ENDS_AT_GUARD; k < KINDS; k++) {
        docket_regions[k] = new_region(DOCKET_MAX_BYTES);
        counts_regions[k] = new_region(MOST_COUNTS * sizeof(uint32_t));
        results_regions[k] = new_region(MOST_RESULTS * sizeof(uint64_t));
    }
    read_only = new_region(MOST_COUNTS * sizeof(uint32_t));
    protect(read_only, PROT_READ);
    no_access = new_no_access(MOST_RESULTS * sizeof(uint64_t));
    for (int i = 1; i < argc; i++)
        count(try_file(argv[i]));
    say_met("calls not refused", calls[0]);
    say_refusals();
    say_met("groups refused with 21", groups_refused);
    say_met("groups at rest", groups_at_rest);
    say_met("groups not at rest", groups_not_at_rest);
    printf("%d passed, %d failed\n", passed, failed);
    return failed == 0 ? 0 : 1;
}
