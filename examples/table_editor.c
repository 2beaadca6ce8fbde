/*
 * Writes the docket of one of the two tables below, checks it and saves it, all through docket.h.
 *
 *     cc -std=c99 -Iinclude examples/table_editor.c target/staticlib/libdocket.a -o table_editor
 *     ./table_editor [-r] TABLE FILE [NUMBER [ROOM]]
 *
 * TABLE is majority, of version 1, or quorum, of version 2. NUMBER takes the place of one number of the table: in
 * majority of state B's weight in layer 0, in quorum of the number of fixed workers in state K0. ROOM is the number of
 * bytes lent for the docket. With -r the rules are listed from the last to the first: in version 1 they may stand in any
 * order, in version 2 in one alone, which is that of the table below.
 * Exit status: 0 the docket was saved, 1 something was refused, 2 bad usage or a file that cannot be written.
 */
#define PROGRAM "table_editor"
#include "shared.h"

#include <string.h>

#define LENGTH(table) (sizeof(table) / sizeof(table)[0])
#define SET(state) (UINT64_C(1) << (state))

/* The bits of a state, and the kinds of nodes. */
enum { VERDICT_1 = 1, INPUT = 2 };
enum { LEAF, VERDICT, CONTRADICTION, STANDSTILL, SPLIT, TRAP, SIPHON };

/* A state: its bits and, in version 2, its fixed workers. */
struct state {
    uint32_t bits, fixed;
};

/* A node: children stand below it, in the tables further in. */
struct node {
    uint64_t kind, party, argument, set;
};

/* A table with its argument. The weights stand layer by layer, and leaf by leaf, there for end 1 and then for end 2. */
struct table {
    const char *name;
    uint32_t version;
    size_t states, rules, layers, nodes, leaves;
    const struct state *state;
    const uint8_t (*rule)[5];   /* p, q, p', q', layer */
    const uint32_t *layer_weight;
    const struct node *node;
    const int16_t *leaf_weight;
    uint32_t *number;   /* what NUMBER takes the place of, and how many bits it has in a docket */
    uint32_t bits;
};

/* The bytes of a section; room for every one there can be. */
struct part {
    uint8_t bytes[DOCKET_MAX_BYTES];
    size_t len;
};

/* ---- majority: whether B has at least as many workers as A */

enum { A, B, a, b, MAJORITY_STATES };
enum { AB, Ab, Ba, ab };

static const struct state majority_states[] = {
    [A] = {INPUT, 0}, [B] = {INPUT | VERDICT_1, 0}, [a] = {0, 0}, [b] = {VERDICT_1, 0}};

static const uint8_t majority_rules[][5] = {
    [AB] = {A, B, a, b, 0},
    [Ab] = {A, b, A, a, 0},
    [Ba] = {B, a, B, b, 1},
    [ab] = {a, b, b, b, 1},
};

static uint32_t majority_layers[] = {
    0, 2, 0, 1,
    0, 0, 1, 0,
};

static const struct node majority_nodes[] = {
    {SPLIT, 1, A, 0},
        {SPLIT, 1, a, 0},
            {VERDICT, 1, 0, 0},
            {STANDSTILL, 1, Ba, 0},
                {STANDSTILL, 1, ab, 0},
                    {CONTRADICTION, 1, a, 0},
                    {TRAP, 1, 0, SET(A) | SET(B) | SET(b)},
                        {SIPHON, 1, 0, SET(A) | SET(B) | SET(a) | SET(b)},
                            {CONTRADICTION, 1, a, 0},
                {CONTRADICTION, 1, a, 0},
        {STANDSTILL, 1, AB, 0},
            {CONTRADICTION, 1, A, 0},
            {SPLIT, 2, B, 0},
                {SPLIT, 2, b, 0},
                    {VERDICT, 2, 0, 0},
                    {STANDSTILL, 2, Ab, 0},
                        {LEAF, 0, 0, 0},
                        {CONTRADICTION, 2, b, 0},
                {STANDSTILL, 2, AB, 0},
                    {LEAF, 0, 0, 0},
                    {CONTRADICTION, 2, B, 0},
};

static const int16_t majority_leaves[] = {
    1, -1, 0, 0,   -1, 1, 0, 0,
};

/* ---- quorum: whether two workers or more say yes. One fixed worker, in K0 at the start, counts them up to two. */

enum { Y, N, K0, K1, K2, T, QUORUM_STATES };
enum { YK0, YK1, NK2 };
enum { TWO_COUNTED, ONE_KEEPER };

static struct state quorum_states[] = {
    [Y] = {INPUT | VERDICT_1, 0}, [N] = {INPUT, 0}, [K0] = {0, 1}, [K1] = {0, 0}, [K2] = {VERDICT_1, 0},
    [T] = {VERDICT_1, 0}};

static const uint8_t quorum_rules[][5] = {
    [YK0] = {Y, K0, N, K1, 0},
    [YK1] = {Y, K1, N, K2, 0},
    [NK2] = {N, K2, K2, T, 0},
};

static const uint32_t quorum_layers[] = {2, 1, 0, 0, 0, 0};

static const struct node quorum_nodes[] = {
    {SPLIT, 1, K2, 0},
        {SPLIT, 2, K2, 0},
            {TRAP, 2, 0, SET(K2)},
                {SIPHON, 2, 0, SET(T)},
                    {STANDSTILL, 2, YK0, 0},
                        {VERDICT, 2, 0, 0},
                        {STANDSTILL, 2, YK1, 0},
                            {VERDICT, 2, 0, 0},
                            {TRAP, 2, 0, SET(K0) | SET(K1) | SET(K2)},
                                {CONTRADICTION, 0, K0, 0},
            {STANDSTILL, 1, YK0, 0},
                {LEAF, 0, TWO_COUNTED, 0},
                {STANDSTILL, 1, YK1, 0},
                    {LEAF, 0, TWO_COUNTED, 0},
                    {TRAP, 1, 0, SET(K0) | SET(K1) | SET(K2)},
                        {CONTRADICTION, 0, K0, 0},
        {STANDSTILL, 1, NK2, 0},
            {SPLIT, 1, K0, 0},
                {SPLIT, 1, K1, 0},
                    {VERDICT, 1, 0, 0},
                    {LEAF, 0, ONE_KEEPER, 0},
                {LEAF, 0, ONE_KEEPER, 0},
            {CONTRADICTION, 1, K2, 0},
};

static const int16_t quorum_leaves[] = {
    -1, 0, 1, 0, -1, 0,   1, 0, 0, 1, 2, 0,
     0, 0, 1, 1, 1, 0,    0, 0, 0, 0, 0, 0,
};

/* ---- the tables */

static const struct table tables[] = {
    {"majority", 1, MAJORITY_STATES, LENGTH(majority_rules), LENGTH(majority_layers) / MAJORITY_STATES,
     LENGTH(majority_nodes), LENGTH(majority_leaves) / (2 * MAJORITY_STATES), majority_states, majority_rules,
     majority_layers, majority_nodes, majority_leaves, &majority_layers[B], 32},
    {"quorum", 2, QUORUM_STATES, LENGTH(quorum_rules), LENGTH(quorum_layers) / QUORUM_STATES,
     LENGTH(quorum_nodes), LENGTH(quorum_leaves) / (2 * QUORUM_STATES), quorum_states, quorum_rules,
     quorum_layers, quorum_nodes, quorum_leaves, &quorum_states[K0].fixed, 16},
};

static const struct table *find_table(const char *name)
{
    for (size_t i = 0; i < LENGTH(tables); i++)
        if (strcmp(name, tables[i].name) == 0)
            return &tables[i];
    return NULL;
}

/* ---- from a table to parts */

/* Adds a number to a part, least significant byte first. */
static void put(struct part *part, uint64_t value, size_t bytes)
{
    for (size_t i = 0; i < bytes; i++)
        part->bytes[part->len++] = (uint8_t)(value >> (8 * i));
}

static void put_states(struct part *part, const struct table *table)
{
    for (size_t i = 0; i < table->states; i++) {
        put(part, table->state[i].bits, 1);
        if (table->version == 2)
            put(part, table->state[i].fixed, 2);
    }
}

/* The number that rule r of the table has in the docket; the other way round too, as reversing twice changes nothing. */
static size_t rule_number(const struct table *table, int reversed, size_t r)
{
    return reversed ? table->rules - 1 - r : r;
}

static void put_rules(struct part *part, const struct table *table, int reversed)
{
    for (size_t r = 0; r < table->rules; r++)
        for (size_t field = 0; field < 5; field++)
            put(part, table->rule[rule_number(table, reversed, r)][field], 1);
}

static void put_layers(struct part *part, const struct table *table)
{
    for (size_t i = 0; i < table->layers * table->states; i++)
        put(part, table->layer_weight[i], 4);
}

/* A standstill node names a rule, so its argument follows the order of the rules. */
static void put_nodes(struct part *part, const struct table *table, int reversed)
{
    for (size_t n = 0; n < table->nodes; n++) {
        uint64_t argument = table->node[n].argument;
        if (table->node[n].kind == STANDSTILL)
            argument = rule_number(table, reversed, argument);
        put(part, table->node[n].kind, 1);
        put(part, table->node[n].party, 1);
        put(part, argument, 2);
        put(part, table->node[n].set, 8);
    }
}

/* The cast makes two's complement of a negative weight. */
static void put_leaves(struct part *part, const struct table *table)
{
    for (size_t i = 0; i < table->leaves * 2 * table->states; i++)
        put(part, (uint16_t)table->leaf_weight[i], 2);
}

/* ---- the program */

static int write_docket(const struct table *table, int reversed, uint8_t *docket, size_t room, uint64_t *total)
{
    static struct part states, rules, layers, nodes, leaves;
    put_states(&states, table);
    put_rules(&rules, table, reversed);
    put_layers(&layers, table);
    put_nodes(&nodes, table, reversed);
    put_leaves(&leaves, table);
    uint64_t code = docket_write(table->version, states.bytes, states.len, rules.bytes, rules.len, layers.bytes,
                                 layers.len, nodes.bytes, nodes.len, leaves.bytes, leaves.len, docket, room, total);
    if (code != 0)
        return say_refused("writer", docket_call_number(code), docket_call_place(code));
    printf("writer: a docket of %" PRIu64 " bytes\n", *total);
    return DONE;
}

/* The writer judges neither ladder nor tree. */
static int check(const uint8_t *docket, size_t len)
{
    uint64_t code = docket_check(docket, len);
    if (code != 0)
        return say_refused("check", docket_check_number(code), docket_check_place(code));
    printf("check: accepted\n");
    return DONE;
}

/* Returns 1 where the file was written, else 0. */
static int save(const char *name, const uint8_t *docket, size_t len)
{
    FILE *file = fopen(name, "wb");
    if (file == NULL)
        return 0;
    int whole = fwrite(docket, 1, len, file) == len;
    return fclose(file) == 0 && whole;
}

int main(int argc, char **argv)
{
    static uint8_t docket[DOCKET_MAX_BYTES];
    uint64_t number = 0, room = sizeof docket, total = 0;
    int reversed = argc > 1 && strcmp(argv[1], "-r") == 0;
    argc -= reversed;
    argv += reversed;
    if (argc < 3 || argc > 5)
        return usage("[-r] TABLE FILE [NUMBER [ROOM]]");
    const struct table *table = find_table(argv[1]);
    if (table == NULL)
        return trouble(argv[1], "no such table");
    if (argc > 3 && !read_number(argv[3], UINT32_MAX >> (32 - table->bits), &number))
        return trouble(argv[3], table->bits == 32 ? "not a number of 32 bits" : "not a number of 16 bits");
    if (argc > 3)
        *table->number = (uint32_t)number;
    if (argc > 4 && !read_number(argv[4], sizeof docket, &room))
        return trouble(argv[4], "not a number up to 65535");
    int status = write_docket(table, reversed, docket, room, &total);
    if (status == DONE)
        status = check(docket, total);
    status = printed(status);
    if (status == DONE && !save(argv[2], docket, total))
        return trouble(argv[2], "cannot be written");
    return status;
}
