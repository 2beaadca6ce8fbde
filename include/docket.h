/*
 * Checks dockets, alone or with a claim sheet, runs their tables on counts of workers, and writes dockets from their parts.
 * C99 or later, or C++; x86-64. Link with the static library:
 *
 *     tools/library              (proves the functions and writes target/staticlib/libdocket.a)
 *     cc -Iinclude reader.c target/staticlib/libdocket.a
 *
 * Call docket_check or docket_figures first, and use the table only where it returns 0; docket_check_sheet makes that
 * check too. The calls of the machine (all functions with counts) make only tests 1 to 8, so they work on a docket
 * that docket_check refuses too, and such a table may never come to rest. They make these tests in every call: to make
 * many meetings, use docket_run rather than docket_step again and again, and to run many groups, docket_run_page.
 * docket_write needs no docket: it is lent the five sections and makes the header.
 *
 * Dockets are of version 1 or 2; every function takes both. A docket of version 2 has a number of fixed workers for each
 * state, which every start has there; in version 1 this number is 0 for every state. Counts are of all workers, the fixed
 * ones among them. In version 2 the rules stand in ascending order by layer, then by p, q, p', q'; in version 1 in any.
 *
 * What a caller hands over. A docket is a pointer to its bytes and their number; any bytes may be given, at any
 * address. A claim sheet, and the parts and the output of docket_write, are handed over in the same way. Counts are
 * one uint32_t for each state of the docket, in order, and their number; docket_run_page takes the counts of many
 * groups. Counts, answers, results, figures and the total are aligned as their types are. No pointer is null, also
 * where a length is 0, and no two of them overlap.
 *
 * What a function does. It writes only where it says here; it keeps nothing between calls and allocates nothing. So the
 * functions may be called from several threads at once, each with its own counts, answers, results and output. They use
 * about 42 KB of stack where a tree is 40 deep, else less; DOCKET_STACK bytes are enough. The library needs memcpy and
 * memset at most, and no other function from elsewhere.
 *
 * What a function returns: 0 where it did its work, else a refusal, which has a number and a place. There is a table
 * of tests for the check, for docket_check_sheet, for the calls of the machine, for docket_run_page and for
 * docket_write. The tests are made in the order of the table, from above, and not in that of their numbers, each over
 * all its places before the next begins: the first test that fails gives the number, and the lowest place at which it
 * fails the place. Tests 12 and 13 alone are made together, node by node in the order of the file: at each node 12
 * before 13, and the first node at which one fails ends the check. So a 13 at an earlier node comes before a 12 at a
 * later one.
 * docket_check, docket_figures and docket_check_sheet return the number times 65,536 plus the place; the others, where
 * a place can be any 32-bit rule number, the number times 2 to the power 32 plus the place. So each has its own pair
 * of functions below that take a refusal apart. A refused call changes neither counts nor output, and neither reads
 * nor writes behind a pointer for answers, results, figures or the total.
 *
 * S is the number of states, R of rules, L of layers, N of nodes and K of leaves, as the header of the docket has them.
 * Numbers of states, rules, layers, leaves and nodes begin at 0. docs/FORMAT.md has the whole format.
 *
 * The check:
 *
 *   number  place                 refused where
 *   1       0                     the file has fewer than 24 bytes, or another length than its header says
 *   2       0                     the version is neither 1 nor 2
 *   3       0 S, 1 R, 2 L,        that count is outside its limits: S 2 to 64, R 0 to 256, L 0 to 16, N 1 to 2,048,
 *           3 N, 4 K              K 0 to 128; place 2 also where L is 0 and R is not, or R is 0 and L is not
 *   4       0 to 4: a section;    the section (states, rules, layers, nodes, leaves) does not begin where the one
 *           5: the total length   before it ends, the first at byte 24; 5: the last does not end at the total length
 *   5       state, or S           a bit other than 0 and 1 is set in the state's first byte, or it has over 1,000 fixed
 *                                 workers; S: no state is an input, with or without fixed workers
 *   6       rule                  a state is S or more, p > q, p' > q', the two pairs are equal, or the layer is L or more
 *   7       rule                  an earlier rule has the same p, q, p' and q', whatever its layer
 *   14      rule                  version 2 only: it is not after the rule before it, by layer, then p, q, p', q'; an
 *                                 equal rule is 7, also where it stands next to its double
 *   8       layer                 no rule is in it, or a weight is over 1,000,000
 *   9       rule                  the weights of its layer do not fall: lowering (FORMAT.md, 4.3)
 *   10      rule                  it can make a lower layer act again: handover (FORMAT.md, 4.3)
 *   11      leaf                  a weight is outside -10,000 to 10,000
 *   12      node, or N            a bad field, a depth over 40 (the root has depth 1), or a node left over;
 *                                 N: the nodes ran out (FORMAT.md, 4.4)
 *   13      node                  its ground does not hold (FORMAT.md, 4.4)
 *
 * 14 is tried straight after 7 and before 8, though its number is larger: "tests 1 to 8" are all rows down to that of 8,
 * so 14 is among them, and among "5 to 8" and "1 to 13".
 *
 * docket_check_sheet makes all tests above on the docket, then the following on its claim sheet: 15, then 12 and 13 on the
 * sheet's first tree, node by node, then on its second. N1 and N2 are the numbers of nodes of the two trees, as the header
 * of the sheet has them; nodes are numbered through both, so the second tree's begin at N1.
 *
 *   15      0                     a length, count, offset, number, weight or multiplier of the sheet breaks its rule
 *                                 (FORMAT.md, 10.2)
 *   12      node, or one past     a bad field, party 2 and kind 7 among them, a depth over 40 (each root has depth 1), or a
 *           its tree's last       node left over; N1: the nodes of the first tree ran out, or the second tree's first node
 *                                 has a bad field; N1 + N2: those of the second ran out (FORMAT.md, 10.3)
 *   13      node                  its ground does not hold (FORMAT.md, 10.3)
 *
 * A 12 or 13 of the sheet is not told from one of the docket by its number: where that matters, call docket_check first.
 *
 * Calls of the machine make tests 1 to 8, then those of the following that apply, in this order:
 *
 *   20      0                     the counts are not S numbers
 *   21      0                     their sum is not 2 to 1,000,000
 *   22      state                 start test: a state that is no input does not hold exactly its fixed workers, or an
 *                                 input holds fewer than its fixed workers
 *   23      rule number given     step and can-act: it is R or more
 *   24      rule number given     step: the rule cannot act
 *
 * docket_run_page, which runs many groups, makes tests 1 to 8 once, then the following two, and then 21 of each group by
 * itself; a group that 21 refuses does not refuse the call:
 *
 *   32      0                     there are no counts, or their number is no multiple of S
 *   33      0                     the results are not two numbers for each group
 *
 * docket_write makes tests 2, 31, 3, 5, 6, 7, 14, 8, 11 and 30, in this order: 2 is its first test and 30 its last. Part
 * 0 is the states, 1 the rules, 2 the layers, 3 the nodes and 4 the leaves; S, R, L, N and K are here the numbers of
 * records in the parts, and L and K are 0 where S is 0.
 *
 *   2       0                     the version given is neither 1 nor 2
 *   31      0 to 4: a part        its length is no whole number of records: a state has 1 byte in version 1 (so place 0
 *                                 occurs only in version 2) and 3 bytes in version 2, the others have 5, 4 S, 12 and 4 S
 *                                 bytes; parts 2 and 4 are not tried where S is 0
 *   3       as above              as above; any length may be given, and one of too many records is refused here
 *   5 to 8  as above              as above, of parts 0 to 2
 *   11      leaf                  as above, of part 4
 *   30      0                     the output has fewer bytes than the docket would have
 */
#ifndef DOCKET_H
#define DOCKET_H

#include <stddef.h>
#include <stdint.h>

#ifdef __cplusplus
extern "C" {
#endif

#define DOCKET_VERSION "0.11.0"   /* of this header and its library, not of a docket */
#define DOCKET_MAX_BYTES 65535   /* a longer docket is 1, 0, and a longer sheet 15, 0; so read at most one byte more */
#define DOCKET_MAX_STATES 64     /* the counts of a group of every docket fit an array of so many */
#define DOCKET_MAX_RULES 256     /* a number for each rule of every docket fits an array of so many */
#define DOCKET_STACK 65536       /* bytes of stack that are enough for every function */

/* Tests 1 to 13: 0 where the docket is accepted. */
uint64_t docket_check(const uint8_t *docket, size_t docket_len);

/* The same check. Where it returns 0, figures[0] to figures[5] are S R L N W M: states, rules, layers and nodes, the sum
   of the layers' spreads, and how many states the widest set of the tree names. A vote of n workers comes to rest after
   at most n times W meetings; n times W is at most 16,000,000,000,000. */
uint64_t docket_figures(const uint8_t *docket, size_t docket_len, uint64_t figures[6]);

/* The same check, and then that of a claim sheet, which says what the votes of the docket decide: 0 where both are accepted.
   The sheet has a number for each state and a limit c. The weighed sum of a start is each state's number times its count,
   added up over all states, the fixed workers among them. Where the function returns 0, every standstill reached from a
   start of two workers or more shows 1 if the weighed sum is at least c, else 0: for every number of workers, and whatever
   the meetings and their order.
   A refusal of the docket comes before 15, that before those of the sheet's first tree, and these before those of its second.
   The sheet is not needed to run a vote, and no other function reads it. */
uint64_t docket_check_sheet(const uint8_t *docket, size_t docket_len, const uint8_t *sheet, size_t sheet_len);

/* The start test: 0 where the counts are 2 to 1,000,000 workers, exactly the fixed ones in states that are no input, and
   at least the fixed ones in each input. In version 1: workers in inputs only. */
uint64_t docket_start_test(const uint8_t *docket, size_t docket_len, const uint32_t *counts, size_t counts_len);

/* *answer is the number of pairs of workers that could make the meeting. A pair is two different workers, one in p and
   the other in q, the two states that the rule takes workers from; which is named first does not matter. So the number
   is the product of the two counts or, where p = q and this state holds c workers, c (c - 1) / 2. It is 0 just where
   the rule cannot act: to ask for yes or no, test *answer != 0, never *answer == 1. Rules with the same p and q have
   the same pairs, and each has their number. It is at most 499,999,500,000, for 1,000,000 workers in one state; the
   sum over all rules is below 2 to the power 47. */
uint64_t docket_can_act(const uint8_t *docket, size_t docket_len, const uint32_t *counts, size_t counts_len,
                        uint32_t rule, uint64_t *answer);

/* *answer is 1 where no rule can act, else 0. */
uint64_t docket_is_standstill(const uint8_t *docket, size_t docket_len, const uint32_t *counts, size_t counts_len,
                              uint64_t *answer);

/* *answer is 0 or 1 where all occupied states have that verdict, and 2 where it is mixed; at rest or not. */
uint64_t docket_verdict(const uint8_t *docket, size_t docket_len, const uint32_t *counts, size_t counts_len,
                        uint64_t *answer);

/* The rule acts once, and counts are the group after it. Where a pair of states has several rules, the rule
   number chooses the outcome of their meeting. */
uint64_t docket_step(const uint8_t *docket, size_t docket_len, uint32_t *counts, size_t counts_len, uint32_t rule);

/* Runs the table: always the lowest rule number of the lowest layer that can act, until nothing can act or limit steps
   are made. *steps is how many were made, *rests is 1 where nothing can act any more, else 0.
   Call it again with the counts it left while *rests is 0. With an accepted docket a single call is enough where limit
   is at least n times W (docket_figures); n times W can be greater than every limit, and then it takes several calls. */
uint64_t docket_run(const uint8_t *docket, size_t docket_len, uint32_t *counts, size_t counts_len, uint32_t limit,
                    uint64_t *steps, uint64_t *rests);

/* Runs many groups, which make a page, in one call: each as docket_run would run it alone, with at most limit steps.
   Counts are those of the groups behind each other: group g, from 0 on, has the S counts from counts[g * S] on. There is
   one group or more, without an upper limit. counts_len is the number of all counts, a multiple of S (docket_states), and
   results_len that of results, 2 * counts_len / S.
   Of group g, results[2 * g] is 0, or the number of its refusal, which can be 21 only. results[2 * g + 1] is 0 where the
   group is refused, else its steps times 2, plus 1 where it rests: so half of it, rounded down, is the number of steps,
   and it is odd where the group rests. A group that is refused keeps its counts, and the others are run; the function returns 0
   also where every group is refused. What results hold before the call is not read.
   The start test is not made, and no verdict is read: for these call docket_start_test before and docket_verdict
   afterwards, with counts + g * S and S. While a group that is not refused does not rest, call the function again with the
   counts it left. Each call writes all results anew, so add the steps up; a group at rest stays as it is and makes none.
   With an accepted docket one call is enough where limit is at least n times W for the largest group. */
uint64_t docket_run_page(const uint8_t *docket, size_t docket_len, uint32_t *counts, size_t counts_len, uint32_t limit,
                         uint64_t *results, size_t results_len);

/* Writes a docket of the given version, 1 or 2. It is lent the parts, which are the bytes of the five sections of that
   version without a header, and the output, out_len bytes at out. The versions differ in the states: 1 byte each in
   version 1, and 3 in version 2, where the number of fixed workers follows; and in the rules, which are to be in order
   in version 2. The function does not sort: it writes the rules as they are lent, or refuses them with 14. Nodes of kind
   3 name rules by their numbers in the part, so put the rules in order before you number them.
   The lengths of the parts give the counts; the function makes the header with its offsets. Where it returns 0, the
   docket is the first *total bytes of the output, and the bytes from there on stay as they were. *total is 24 plus the
   five lengths; an output of DOCKET_MAX_BYTES is always enough. A part with no bytes has length 0 and any pointer but
   null.
   The version and the parts of a docket that passes tests 1 to 8 and 11 give the same bytes again. The ladder and the
   tree are not judged (tests 9, 10, 12 and 13): call docket_check on what was written. */
uint64_t docket_write(uint32_t version, const uint8_t *states, size_t states_len, const uint8_t *rules,
                      size_t rules_len, const uint8_t *layers, size_t layers_len, const uint8_t *nodes,
                      size_t nodes_len, const uint8_t *leaves, size_t leaves_len, uint8_t *out, size_t out_len,
                      uint64_t *total);

/* The number of states of a docket that passes tests 1 to 8: how many counts a group has. */
static inline size_t docket_states(const uint8_t *docket) { return docket[2] + 256u * docket[3]; }

/* The number and the place of a refusal of docket_check, docket_figures or docket_check_sheet. */
static inline uint32_t docket_check_number(uint64_t code) { return (uint32_t)(code / 65536); }
static inline uint32_t docket_check_place(uint64_t code) { return (uint32_t)(code % 65536); }

/* The number and the place of a refusal of another function. */
static inline uint32_t docket_call_number(uint64_t code) { return (uint32_t)(code >> 32); }
static inline uint32_t docket_call_place(uint64_t code) { return (uint32_t)code; }

/* What a refusal's number means, in one sentence. */
static inline const char *docket_refusal_text(uint32_t number)
{
    switch (number) {
    case 1:
        return "The file is too short, or its length is not the one in its header.";
    case 2:
        return "The version is neither 1 nor 2.";
    case 3:
        return "The number of states, rules, layers, nodes or leaves is outside its limits.";
    case 4:
        return "A section does not begin where the one before it ends, or the total length is wrong.";
    case 5:
        return "A state has a bit set that must be 0 or over 1,000 fixed workers, or no state is an input.";
    case 6:
        return "A rule has a state or a layer that does not exist, a pair out of order, or two equal pairs.";
    case 7:
        return "A rule has the before pair and the after pair of an earlier rule.";
    case 8:
        return "A layer has no rule, or a weight over 1,000,000.";
    case 9:
        return "A rule does not lower the weights of its layer.";
    case 10:
        return "A rule breaks the handover: it can make a lower layer act again.";
    case 11:
        return "A leaf has a weight outside -10,000 to 10,000.";
    case 12:
        return "A node has a bad field, is too deep or is left over, or the nodes ran out.";
    case 13:
        return "The ground of a node does not hold.";
    case 14:
        return "A rule does not stand after the one before it, in the order that version 2 asks for.";
    case 15:
        return "A length, count, offset, number, weight or multiplier of the claim sheet breaks its rule.";
    case 20:
        return "There is not one count for each state.";
    case 21:
        return "The number of workers is not 2 to 1,000,000.";
    case 22:
        return "A state that is no input does not hold exactly its fixed workers (none in version 1) at the start, "
               "or an input holds fewer than its own.";
    case 23:
        return "There is no rule of this number.";
    case 24:
        return "The rule cannot act.";
    case 30:
        return "The output is shorter than the docket.";
    case 31:
        return "The length of a part is no whole number of records.";
    case 32:
        return "There are no counts, or their number is no multiple of the number of states.";
    case 33:
        return "The results are not two numbers for each group.";
    default:
        return "There is no refusal of this number.";
    }
}

#ifdef __cplusplus
}
#endif

#endif
