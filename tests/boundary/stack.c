/*
 * How much stack the functions of docket.h use: makes the calls on a stack of its own, filled with a pattern, and looks
 * how far down the pattern is gone.
 *
 *     stack FILE.docket...
 *
 * The last line is '1 passed, 0 failed' where no call used more than DOCKET_STACK bytes.
 */
#include "shared.h"

#include <ucontext.h>

enum {
    STACK = 1 << 20,
    PATTERN = 0xA5,
    MOST_BYTES = DOCKET_MAX_BYTES + 1,
    GROUPS = 300,
    DEPTH = 40,                              /* the greatest of a tree */
    NODE = 12                                /* bytes of the record of a node */
};

static uint8_t stack[STACK];
static uint8_t docket[MOST_BYTES];
static size_t docket_len;
static ucontext_t caller, callee;

static void call_check(void)
{
    uint64_t figures[6];
    docket_check(docket, docket_len);
    docket_figures(docket, docket_len, figures);
}

/* Makes every call of the machine on a group of two workers in state 0; docket_run_page is made below. */
static void call_machine(void)
{
    uint32_t counts[DOCKET_MAX_STATES] = {2};
    size_t states = docket_states(docket);
    uint64_t first = 0, second = 0;
    docket_start_test(docket, docket_len, counts, states);
    docket_can_act(docket, docket_len, counts, states, 0, &first);
    docket_is_standstill(docket, docket_len, counts, states, &first);
    docket_verdict(docket, docket_len, counts, states, &first);
    docket_step(docket, docket_len, counts, states, 0);
    docket_run(docket, docket_len, counts, states, 100, &first, &second);
}

/* Runs a page of groups with two workers in each state, and refused ones between. */
static void call_page(void)
{
    static uint32_t counts[GROUPS * DOCKET_MAX_STATES];
    static uint64_t results[2 * GROUPS];
    size_t states = docket_states(docket);
    for (size_t i = 0; i < GROUPS * states; i++)
        counts[i] = i / states % 3 == 1 ? 0 : 2;
    docket_run_page(docket, docket_len, counts, GROUPS * states, 100, results, 2 * GROUPS);
}

/* Writes a node with no set and no argument, and returns where the next one stands. */
static uint8_t *put_node(uint8_t *at, uint8_t kind, uint8_t party)
{
    memset(at, 0, NODE);
    at[0] = kind;
    at[1] = party;
    return at + NODE;
}

/* Checks a claim sheet whose trees go down to a leaf at the greatest depth, in cases on state 0; the second begins where
   the first is closed at once, as no state has verdict 0. What is said of it does not matter. */
static void call_sheet(void)
{
    static uint8_t sheet[MOST_BYTES];
    size_t states = docket_states(docket), nodes = 20 + 2 * states, leaves = nodes + NODE * (1 + DEPTH);
    const size_t totals[2][2] = {{1, DEPTH}, {DEPTH, 1}};
    for (size_t which = 0; which < 2; which++) {
        const size_t header[8] = {states, totals[which][0], totals[which][1], 1, 16, nodes, leaves, leaves + 2 * states + 2};
        memset(sheet, 0, header[7]);
        for (size_t i = 0; i < 8; i++)
            set16(sheet, 2 * i, header[i]);
        uint8_t *at = sheet + nodes;
        if (which == 0)
            at = put_node(at, 1, 1);
        for (size_t depth = 1; depth < DEPTH; depth++)
            at = put_node(at, 4, 1);
        at = put_node(at, 0, 0);
        if (which == 1)
            put_node(at, 1, 1);
        docket_check_sheet(docket, docket_len, sheet, header[7]);
    }
}

static size_t offset(size_t section) { return get16(docket, 12 + 2 * section); }

static size_t length(size_t section) { return offset(section + 1) - offset(section); }

/* Writes the sections of the docket to an output of its length. */
static void call_writer(void)
{
    static uint8_t output[MOST_BYTES];
    uint64_t total = 0;
    docket_write(docket[0], docket + offset(0), length(0), docket + offset(1), length(1), docket + offset(2), length(2),
                 docket + offset(3), length(3), docket + offset(4), length(4), output, docket_len, &total);
}

/* The bytes of stack that the function and what it calls used. */
static size_t used_by(void (*function)(void))
{
    size_t untouched = 0;
    memset(stack, PATTERN, sizeof stack);
    if (getcontext(&callee) != 0)
        abort();
    callee.uc_stack.ss_sp = stack;
    callee.uc_stack.ss_size = sizeof stack;
    callee.uc_link = &caller;
    makecontext(&callee, function, 0);
    if (swapcontext(&caller, &callee) != 0)
        abort();
    while (untouched < sizeof stack && stack[untouched] == PATTERN)
        untouched++;
    return sizeof stack - untouched;
}

static size_t greater(size_t a, size_t b) { return a > b ? a : b; }

int main(int argc, char **argv)
{
    size_t check = 0, sheet = 0, machine = 0, page = 0, writer = 0;
    for (int i = 1; i < argc; i++) {
        docket_len = read_bytes(argv[i], docket, sizeof docket);
        check = greater(check, used_by(call_check));
        uint32_t number = docket_check_number(docket_check(docket, docket_len));
        if (number == 0)
            sheet = greater(sheet, used_by(call_sheet));
        if (!is_of_tests_1_to_8(number)) {
            machine = greater(machine, used_by(call_machine));
            page = greater(page, used_by(call_page));
        }
        if (number == 0 || number > 4)
            writer = greater(writer, used_by(call_writer));
    }
    printf("docket_check and docket_figures used %zu bytes of stack, docket_check_sheet %zu, docket_run_page %zu, the "
           "other calls of the machine %zu, docket_write %zu\n",
           check, sheet, page, machine, writer);
    size_t most = greater(greater(check, sheet), greater(page, greater(machine, writer)));
    int good = sheet > 0 && machine > 0 && page > 0 && writer > 0 && most <= DOCKET_STACK;
    printf("%d passed, %d failed\n", good, !good);
    return good ? 0 : 1;
}
