/*
 * The C boundary: hands every function of docket.h but docket_write and docket_run_page exact copies of docket files and
 * of shortened ones, and docket_can_act counts at their limits.
 *
 *     boundary FILE.docket...          FILE.expect stands beside each
 *
 * The library is not instrumented, so each call is made on three kinds of copies: blocks of the heap of exactly the
 * size, for AddressSanitizer; blocks that end where a page without access begins; and blocks that begin where such a
 * page ends. Dockets of the last two kinds stand in pages that cannot be written. A refused call is made once more with
 * answers that can be neither read nor written.
 */
#include "shared.h"

#include <inttypes.h>

enum {
    TABLE = HEADER + 2 + RULE + 8 + 12,      /* bytes of a docket with two states, a rule, a layer and a node */
    MOST_LENT = DOCKET_MAX_BYTES + 65536,    /* of what is handed over as a docket */
    MOST_COUNTS = DOCKET_MAX_STATES + 1,
    WORKERS = 1000000,
    CALLS = 14,
    FIGURES = 6
};

enum function { START_TEST, CAN_ACT, IS_STANDSTILL, VERDICT, STEP, RUN, CHECK, CHECK_FIGURES, FUNCTIONS };
enum filling { START, ONE_MISSING, ZEROS, ALL_BITS, A_MILLION, FILLINGS };

static const char *const names[FUNCTIONS] = {"docket_start_test", "docket_can_act", "docket_is_standstill",
                                             "docket_verdict",    "docket_step",    "docket_run",
                                             "docket_check",      "docket_figures"};

struct call {
    enum function function;
    uint32_t argument; /* rule number or limit */
};

struct file {
    const char *name;
    uint8_t bytes[MOST_LENT];
    size_t len;
    size_t states;
    struct call calls[CALLS];
    unsigned failures;
};

/* What the line in FILE.expect stands for: the code of docket_check, and the figures where it is 0. */
struct expected {
    uint64_t code;
    uint64_t figures[FIGURES];
};

/* One docket in every kind of copy, and the answer of docket_check for it. */
struct lent {
    const char *variant;
    const uint8_t *copy[KINDS];
    size_t len;
    uint64_t checked;
};

/* Counts as they are before each call, and where each kind of copy of them stands. */
struct counts {
    uint32_t before[MOST_COUNTS];
    uint32_t *copy[KINDS];
    size_t len;
};

struct outcome {
    uint64_t code;
    uint64_t first;
    uint64_t second;
};

static struct region docket_regions[KINDS];
static struct region counts_regions[KINDS];
static uint64_t *no_access;    /* room for answers, in a page that can be neither read nor written */
static uint64_t calls_made[FUNCTIONS];
static uint64_t calls_not_refused[FUNCTIONS];
static uint64_t calls_refused_14[FUNCTIONS];

static void lend(struct lent *lent, const char *variant, const uint8_t *bytes, size_t len)
{
    *lent = (struct lent){.variant = variant, .len = len};
    for (enum kind k = HEAP; k < KINDS; k++)
        lent->copy[k] = new_copy(docket_regions[k], k, bytes, len);
}

static void expect(struct file *file, const struct lent *lent, const struct call *call, int holds, const char *what)
{
    if (holds)
        return;
    if (file->failures++ < SHOWN)
        printf("%s: %s, %zu bytes, %s(%" PRIu32 "): %s\n", file->name, lent->variant, lent->len,
               names[call->function], call->argument, what);
}

static uint64_t make(const struct call *call, const uint8_t *docket, size_t len, uint32_t *counts, size_t counts_len,
                     uint64_t *first, uint64_t *second)
{
    switch (call->function) {
    case START_TEST:
        return docket_start_test(docket, len, counts, counts_len);
    case CAN_ACT:
        return docket_can_act(docket, len, counts, counts_len, call->argument, first);
    case IS_STANDSTILL:
        return docket_is_standstill(docket, len, counts, counts_len, first);
    case VERDICT:
        return docket_verdict(docket, len, counts, counts_len, first);
    case STEP:
        return docket_step(docket, len, counts, counts_len, call->argument);
    case RUN:
        return docket_run(docket, len, counts, counts_len, call->argument, first, second);
    default:
        return docket_check(docket, len);
    }
}

/* Whether a call of the machine may return this code for a docket with this answer of docket_check:
   a refusal of tests 1 to 8 is passed back, and after them come only 20 to 24. */
static int follows(uint64_t code, uint64_t checked)
{
    uint32_t number = docket_check_number(checked);
    if (is_of_tests_1_to_8(number))
        return docket_call_number(code) == number && docket_call_place(code) == docket_check_place(checked);
    return code == 0 || (docket_call_number(code) >= 20 && docket_call_number(code) <= 24);
}

/* Counts a call by the code that it returned. */
static void count(enum function function, uint64_t code)
{
    int checks = function == CHECK || function == CHECK_FIGURES;
    uint32_t number = checks ? docket_check_number(code) : docket_call_number(code);
    calls_made[function]++;
    calls_not_refused[function] += code == 0;
    calls_refused_14[function] += number == 14;
}

/* Makes the call on one kind of copies, and checks that it wrote only what it may. */
static struct outcome try_kind(struct file *file, const struct lent *lent, const struct counts *counts,
                               const struct call *call, enum kind kind)
{
    enum { OLD = 77, EDGE = 99 };
    uint64_t out[5] = {EDGE, OLD, EDGE, OLD, EDGE};
    size_t size = counts->len * sizeof(uint32_t);
    memcpy(counts->copy[kind], counts->before, size);
    uint64_t code = make(call, lent->copy[kind], lent->len, counts->copy[kind], counts->len, &out[1], &out[3]);
    count(call->function, code);

    int may_move = code == 0 && (call->function == STEP || call->function == RUN);
    expect(file, lent, call, may_move || memcmp(counts->copy[kind], counts->before, size) == 0, "counts changed");
    expect(file, lent, call, code == 0 || (out[1] == OLD && out[3] == OLD), "a refused call wrote an answer");
    if (code != 0) {
        uint64_t again = make(call, lent->copy[kind], lent->len, counts->copy[kind], counts->len, no_access, no_access);
        expect(file, lent, call, again == code, "another refusal where the answers cannot be written");
    }
    expect(file, lent, call, out[0] == EDGE && out[2] == EDGE && out[4] == EDGE, "wrote beside an answer");
    /* The other kinds stand in pages that cannot be written. */
    if (kind == HEAP)
        expect(file, lent, call, memcmp(lent->copy[HEAP], lent->copy[ENDS_AT_GUARD], lent->len) == 0, "docket changed");
    return (struct outcome){code, out[1], out[3]};
}

/* Makes the call on every kind of copies, and compares what came of it. */
static struct outcome try_call(struct file *file, const struct lent *lent, const struct counts *counts,
                               const struct call *call)
{
    size_t size = counts->len * sizeof(uint32_t);
    struct outcome heap = try_kind(file, lent, counts, call, HEAP);
    for (enum kind k = ENDS_AT_GUARD; k < KINDS; k++) {
        struct outcome o = try_kind(file, lent, counts, call, k);
        int same = o.code == heap.code && o.first == heap.first && o.second == heap.second;
        expect(file, lent, call, same, "another answer for another copy");
        expect(file, lent, call, memcmp(counts->copy[k], counts->copy[HEAP], size) == 0, "other counts in a copy");
    }
    return heap;
}

/* Makes docket_figures on every kind of copies: the code of docket_check, and figures where it is 0. */
static void try_figures(struct file *file, const struct lent *lent, uint64_t figures[FIGURES])
{
    enum { OLD = 77, EDGE = 99 };
    static const struct call call = {CHECK_FIGURES, 0};
    for (enum kind k = HEAP; k < KINDS; k++) {
        uint64_t out[FIGURES + 2] = {EDGE, OLD, OLD, OLD, OLD, OLD, OLD, EDGE};
        const uint64_t before[FIGURES] = {OLD, OLD, OLD, OLD, OLD, OLD};
        uint64_t code = docket_figures(lent->copy[k], lent->len, out + 1);
        int untouched = memcmp(out + 1, before, sizeof before) == 0;
        count(CHECK_FIGURES, code);
        expect(file, lent, &call, code == lent->checked, "another code than that of docket_check");
        expect(file, lent, &call, code == 0 || untouched, "a refused call wrote figures");
        expect(file, lent, &call, out[0] == EDGE && out[FIGURES + 1] == EDGE, "wrote beside the figures");
        if (code != 0)
            expect(file, lent, &call, docket_figures(lent->copy[k], lent->len, no_access) == code,
                   "another refusal where the figures cannot be written");
        if (k == HEAP)
            memcpy(figures, out + 1, sizeof before);
        expect(file, lent, &call, memcmp(figures, out + 1, sizeof before) == 0, "other figures for another copy");
    }
}

/* The fixed agents of a state. */
static uint32_t fixed_agents(const struct file *file, size_t state)
{
    size_t at = HEADER + 3 * state;
    if (get16(file->bytes, 0) != 2 || state >= file->states || at + 3 > file->len)
        return 0;
    return (uint32_t)get16(file->bytes, at + 1);
}

/* The last state with fixed agents, or the number of states where there is none. */
static size_t last_fixed(const struct file *file)
{
    for (size_t state = file->states; state > 0; state--)
        if (fixed_agents(file, state - 1) > 0)
            return state - 1;
    return file->states;
}

/* The fixed agents of a state, and three more where it is an input. */
static uint32_t at_start(const struct file *file, size_t state)
{
    size_t at = HEADER + state_length(get16(file->bytes, 0)) * state;
    int input = at < file->len && state < file->states && (file->bytes[at] & 2) != 0;
    return fixed_agents(file, state) + (input ? 3 : 0);
}

static uint32_t filled(const struct file *file, enum filling filling, size_t state)
{
    switch (filling) {
    case START:
        return at_start(file, state);
    case ONE_MISSING:
        return state == last_fixed(file) && state < file->states ? fixed_agents(file, state) - 1 : at_start(file, state);
    case ALL_BITS:
        return UINT32_MAX;
    case A_MILLION:
        return state == 0 ? WORKERS : 0;
    default:
        return 0;
    }
}

/* Whether the start test may return this code for counts filled so: a start is passed, and refused with 22 where one of
   the fixed agents is missing. */
static int starts(const struct file *file, const struct lent *lent, size_t len, enum filling filling, uint64_t code)
{
    uint32_t number = docket_check_number(lent->checked);
    size_t state = last_fixed(file);
    if (is_of_tests_1_to_8(number) || len != file->states || filling > ONE_MISSING)
        return 1;
    if (filling == START || state == file->states)
        return code == 0;
    return docket_call_number(code) == 22 && docket_call_place(code) == state;
}

/* Finds the places of the copies of counts. */
static void lend_counts(struct counts *counts)
{
    for (enum kind k = HEAP; k < KINDS; k++)
        counts->copy[k] = new_block(counts_regions[k], k, counts->len * sizeof(uint32_t));
}

/* How many pairs of workers could make the meeting of a rule. */
static uint64_t pairs(const uint8_t *docket, const uint32_t *counts, uint32_t rule)
{
    const uint8_t *record = docket + get16(docket, 14) + RULE * rule;
    uint64_t in_p = counts[record[0]], in_q = counts[record[1]];
    if (record[0] != record[1])
        return in_p * in_q;
    return in_p < 2 ? 0 : in_p * (in_p - 1) / 2;
}

static void try_counts(struct file *file, const struct lent *lent, size_t len, enum filling filling)
{
    struct counts counts = {.len = len};
    for (size_t i = 0; i < len; i++)
        counts.before[i] = filled(file, filling, i);
    lend_counts(&counts);
    for (size_t i = 0; i < CALLS; i++) {
        const struct call *call = &file->calls[i];
        struct outcome o = try_call(file, lent, &counts, call);
        expect(file, lent, call, follows(o.code, lent->checked), "not the refusal that the docket has");
        expect(file, lent, call, o.code == 0 || has_text(docket_call_number(o.code)), "a refusal without a text");
        if (call->function == START_TEST)
            expect(file, lent, call, starts(file, lent, len, filling, o.code), "not the answer to a start");
        if (call->function == CAN_ACT && o.code == 0)
            expect(file, lent, call, o.first == pairs(lent->copy[HEAP], counts.before, call->argument),
                   "not the number of pairs");
    }
    free(counts.copy[HEAP]);
}

/* A docket of two states with this rule alone. */
static void make_table(uint8_t table[TABLE], const uint8_t rule[RULE])
{
    static const uint8_t header[HEADER] = {1,  0, 2,  0, 1,  0, 1,  0, 1,     0, 0,     0,
                                           24, 0, 26, 0, 31, 0, 39, 0, TABLE, 0, TABLE, 0};
    memset(table, 0, TABLE);
    memcpy(table, header, HEADER);
    table[HEADER] = 2; /* an input */
    memcpy(table + HEADER + 2, rule, RULE);
}

/* Rules that meet another kind and their own. */
static const uint8_t OTHER[RULE] = {0, 1, 1, 1, 0}, OWN[RULE] = {0, 0, 0, 1, 0};

/* A rule, counts of two states, a rule number, and the number of the refusal, or 0 and the number of pairs. */
struct meeting {
    const uint8_t *rule;
    uint32_t counts[2];
    uint32_t number;
    uint32_t refused;
    uint64_t pairs;
};

static const struct meeting meetings[] = {
    {OTHER, {1, 1}, 0, 0, 1},
    {OTHER, {2, 3}, 0, 0, 6},
    {OTHER, {0, 2}, 0, 0, 0},
    {OTHER, {WORKERS, 0}, 0, 0, 0},
    {OTHER, {WORKERS - 1, 1}, 0, 0, 999999},
    {OTHER, {65536, 65536}, 0, 0, UINT64_C(4294967296)},
    {OTHER, {WORKERS / 2, WORKERS / 2}, 0, 0, UINT64_C(250000000000)},
    {OWN, {0, 2}, 0, 0, 0},
    {OWN, {1, WORKERS - 1}, 0, 0, 0},
    {OWN, {2, 0}, 0, 0, 1},
    {OWN, {3, 7}, 0, 0, 3},
    {OWN, {65537, 0}, 0, 0, UINT64_C(2147516416)},
    {OWN, {WORKERS - 1, 1}, 0, 0, UINT64_C(499998500001)},
    {OWN, {WORKERS, 0}, 0, 0, UINT64_C(499999500000)},
    {OTHER, {WORKERS, 1}, 0, 21, 0},
    {OTHER, {UINT32_MAX, UINT32_MAX}, 0, 21, 0},
    {OWN, {WORKERS + 1, 0}, 0, 21, 0},
    {OWN, {UINT32_MAX, 3}, 0, 21, 0},
    {OWN, {1, 0}, 1, 21, 0},
    {OWN, {WORKERS, 0}, 1, 23, 0},
    {OTHER, {1, 1}, UINT32_MAX, 23, 0},
};

static void try_meeting(struct file *file, const struct meeting *m)
{
    uint8_t table[TABLE];
    struct counts counts = {.before = {m->counts[0], m->counts[1]}, .len = 2};
    const struct call call = {CAN_ACT, m->number};
    struct lent lent;
    make_table(table, m->rule);
    lend(&lent, m->rule == OWN ? "own kind" : "other kind", table, TABLE);
    lend_counts(&counts);
    struct outcome o = try_call(file, &lent, &counts, &call);
    uint32_t refused_at = m->refused == 23 ? m->number : 0;
    int as_named = docket_call_number(o.code) == m->refused && docket_call_place(o.code) == refused_at;
    expect(file, &lent, &call, as_named, "another refusal than the counts have");
    expect(file, &lent, &call, o.code != 0 || o.first == m->pairs, "not the number of pairs");
    free((void *)(uintptr_t)lent.copy[HEAP]);
    free(counts.copy[HEAP]);
}

/* Returns 1 where docket_can_act says what it must of all these, else 0. */
static int try_meetings(void)
{
    static struct file file = {.name = "counts at their limits"};
    for (size_t i = 0; i < sizeof meetings / sizeof meetings[0]; i++)
        try_meeting(&file, &meetings[i]);
    return file.failures == 0;
}

/* Test 1 of the check. */
static int length_is_wrong(const uint8_t *bytes, size_t len)
{
    return len < HEADER || (size_t)(bytes[22] + 256 * bytes[23]) != len;
}

/* Makes every call on one docket. Returns what docket_check and docket_figures said. */
static struct expected try_docket(struct file *file, const char *variant, const uint8_t *bytes, size_t len)
{
    static const struct call check = {CHECK, 0};
    const size_t lengths[] = {0, file->states - 1, file->states, file->states + 1};
    uint32_t none = 0;
    struct counts no_counts = {.len = 0, .copy = {&none, &none, &none}};
    struct lent lent;
    struct expected said;
    lend(&lent, variant, bytes, len);
    lent.checked = try_call(file, &lent, &no_counts, &check).code;
    said.code = lent.checked;
    try_figures(file, &lent, said.figures);
    expect(file, &lent, &check, said.code == 0 || has_text(docket_check_number(said.code)), "a refusal without a text");
    int refused_1 = lent.checked == 65536;
    expect(file, &lent, &check, refused_1 == length_is_wrong(bytes, len), "refusal 1, 0 at the wrong place");
    for (size_t i = 0; i < sizeof lengths / sizeof lengths[0]; i++)
        for (enum filling f = START; f < FILLINGS; f++)
            try_counts(file, &lent, lengths[i], f);
    free((void *)(uintptr_t)lent.copy[HEAP]);
    return said;
}

/* Cuts the docket behind a node, with number of nodes, offset and total length to match and no leaf. */
static void try_cut(struct file *file, size_t len)
{
    static uint8_t bytes[MOST_LENT];
    size_t nodes = get16(file->bytes, 18);
    if (nodes < HEADER || len <= nodes || (len - nodes) % 12 != 0 || len > get16(file->bytes, 20))
        return;
    memcpy(bytes, file->bytes, len);
    set16(bytes, 8, (len - nodes) / 12);
    set16(bytes, 10, 0);
    set16(bytes, 20, len);
    set16(bytes, 22, len);
    try_docket(file, "cut behind a node", bytes, len);
}

static void try_truncations(struct file *file)
{
    static uint8_t bytes[MOST_LENT];
    for (size_t len = 0; len < file->len; len++) {
        if (file->len > 2000 && len >= 200 && len + 200 < file->len && len % 101 != 0)
            continue;
        try_docket(file, "truncated", file->bytes, len);
        if (len < HEADER)
            continue;
        memcpy(bytes, file->bytes, len);
        set16(bytes, 22, len);
        try_docket(file, "truncated, total length set", bytes, len);
        try_cut(file, len);
    }
}

/* Exchanges two rules that stand next to each other, at the first place, in the middle and at the last one. In version 2,
   where the file passes tests 1 to 8, test 14 names the second of the two; in version 1 it refuses nothing. */
static void try_exchanged(struct file *file, uint64_t checked)
{
    static uint8_t bytes[MOST_LENT];
    static const struct call check = {CHECK, 0};
    size_t rules = get16(file->bytes, 4);
    int ordered = get16(file->bytes, 0) == 2;
    if (is_of_tests_1_to_8(docket_check_number(checked)) || rules < 2)
        return;
    for (size_t which = 0; which < EXCHANGES; which++) {
        memcpy(bytes, file->bytes, file->len);
        size_t later = exchange_rules(bytes + get16(bytes, 14), rules, which);
        const struct lent lent = {.variant = "two rules exchanged", .len = file->len};
        uint64_t code = try_docket(file, lent.variant, bytes, file->len).code;
        int as_named = ordered ? code == 14 * 65536 + later : docket_check_number(code) != 14;
        expect(file, &lent, &check, as_named, "not the refusal that the order has");
    }
}

/* One byte more, and as many more as a length of 16 bits does not show. */
static void try_longer(struct file *file)
{
    try_docket(file, "one byte more", file->bytes, file->len + 1);
    try_docket(file, "65,536 bytes more", file->bytes, file->len + 65536);
}

/* What the line in FILE.expect stands for; the code is 1, which is none, where there is no such line. */
static struct expected expected_of(const char *docket_name)
{
    static const char tail[] = ".docket";
    const struct expected none = {1, {0}};
    struct expected e = {0, {0}};
    char name[4096];
    char line[128];
    uint64_t number = 0, place = 0, *f = e.figures;
    size_t stem = strlen(docket_name) >= sizeof tail ? strlen(docket_name) - (sizeof tail - 1) : 0;
    if (stem == 0 || strcmp(docket_name + stem, tail) != 0)
        return none;
    int written = snprintf(name, sizeof name, "%.*s.expect", (int)stem, docket_name);
    if (written < 0 || (size_t)written >= sizeof name)
        return none;
    FILE *file = fopen(name, "r");
    if (file == NULL)
        return none;
    int got = fgets(line, sizeof line, file) != NULL;
    if (fclose(file) != 0 || !got)
        return none;
    if (sscanf(line, "accepted %" SCNu64 " %" SCNu64 " %" SCNu64 " %" SCNu64 " %" SCNu64 " %" SCNu64, &f[0], &f[1],
               &f[2], &f[3], &f[4], &f[5]) == FIGURES)
        return e;
    if (sscanf(line, "refused %" SCNu64 " %" SCNu64, &number, &place) != 2)
        return none;
    e.code = number * 65536 + place;
    return e;
}

/* Whether the line in FILE.expect says the same; figures count only where the docket is accepted. */
static int as_expected(const char *name, const struct expected *said)
{
    struct expected e = expected_of(name);
    int figures = memcmp(e.figures, said->figures, sizeof e.figures) == 0;
    return e.code == said->code && (e.code != 0 || figures);
}

static void list_calls(struct file *file, uint32_t rules)
{
    const struct call calls[CALLS] = {
        {START_TEST, 0}, {IS_STANDSTILL, 0},   {VERDICT, 0},     {RUN, 0},          {RUN, 1}, {RUN, 1000},
        {CAN_ACT, 0},    {CAN_ACT, rules - 1}, {CAN_ACT, rules}, {CAN_ACT, UINT32_MAX},
        {STEP, 0},       {STEP, rules - 1},    {STEP, rules},    {STEP, UINT32_MAX},
    };
    memcpy(file->calls, calls, sizeof calls);
}

/* Reads the file. The numbers of states and rules are the header's, or 2 and 1 where it has no such header. */
static void read_file(struct file *file, const char *name)
{
    memset(file, 0, sizeof *file);
    file->name = name;
    file->len = read_bytes(name, file->bytes, DOCKET_MAX_BYTES);
    size_t rules = get16(file->bytes, 4);
    file->states = header_states(file->bytes);
    list_calls(file, rules <= 256 ? (uint32_t)rules : 1);
}

/* Returns 1 where all that was tried on the file held, else 0. */
static int try_file(const char *name)
{
    static struct file file;
    read_file(&file, name);
    struct expected said = try_docket(&file, "whole file", file.bytes, file.len);
    if (!as_expected(name, &said)) {
        file.failures++;
        printf("%s: docket_check returned %" PRIu64 ", and this or the figures are not what the .expect file says\n", name,
               said.code);
    }
    try_truncations(&file);
    try_longer(&file);
    try_exchanged(&file, said.code);
    return file.failures == 0;
}

/* Prints how many calls were made. Returns 1 where every function was at least once not refused and at least once refused
   with 14, else 0. */
static int say_calls(void)
{
    uint64_t made = 0, not_refused = 0;
    int all_worked = 1;
    for (int f = 0; f < FUNCTIONS; f++) {
        printf("%s: %" PRIu64 " calls, %" PRIu64 " not refused, %" PRIu64 " refused with 14\n", names[f], calls_made[f],
               calls_not_refused[f], calls_refused_14[f]);
        made += calls_made[f];
        not_refused += calls_not_refused[f];
        all_worked = all_worked && calls_not_refused[f] > 0 && calls_refused_14[f] > 0;
    }
    printf("%" PRIu64 " calls, %" PRIu64 " not refused\n", made, not_refused);
    return all_worked;
}

int main(int argc, char **argv)
{
    int passed = 0, all = argc;    /* the files, and the meetings */
    for (enum kind k = ENDS_AT_GUARD; k < KINDS; k++) {
        docket_regions[k] = new_region(MOST_LENT);
        counts_regions[k] = new_region(MOST_COUNTS * sizeof(uint32_t));
    }
    no_access = new_no_access(FIGURES * sizeof *no_access);
    passed += try_meetings();
    for (int i = 1; i < argc; i++)
        passed += try_file(argv[i]);
    if (!say_calls()) {
        printf("a function was refused in every call, or never with 14\n");
        return 1;
    }
    printf("%d passed, %d failed\n", passed, all - passed);
    return passed == all ? 0 : 1;
}
