/* What boundary.c, writing.c, page.c, sheet.c and stack.c share: the memory that calls are lent, docket files, the numbers
   of tests 1 to 8, rules exchanged, and refusals with their texts. */
#ifndef SHARED_H
#define SHARED_H

#define _DEFAULT_SOURCE
#include <stdint.h>
#include <stdio.h>
#include <stdlib.h>
#include <string.h>
#include <sys/mman.h>
#include <unistd.h>

#include "docket.h"

enum {
    HEADER = 24,   /* bytes of it */
    RULE = 5,      /* bytes of the record of a rule */
    EXCHANGES = 3, /* how many pairs of neighbours exchange_rules can exchange */
    SHOWN = 5      /* failures of one file that are shown */
};

/* The kinds of copies that a call is made on: blocks of the heap of exactly the size, for AddressSanitizer; blocks that
   end where a page without access begins; and blocks that begin where such a page ends. */
enum kind { HEAP, ENDS_AT_GUARD, BEGINS_AT_GUARD, KINDS };

/* Memory with a page without access on both sides. */
struct region {
    uint8_t *begin;
    size_t size;
};

static inline void stop(const char *what)
{
    perror(what);
    exit(2);
}

static inline struct region new_region(size_t wanted)
{
    size_t page = (size_t)sysconf(_SC_PAGESIZE);
    size_t size = (wanted + page - 1) / page * page;
    uint8_t *all = mmap(NULL, size + 2 * page, PROT_NONE, MAP_PRIVATE | MAP_ANONYMOUS, -1, 0);
    if (all == MAP_FAILED || mprotect(all + page, size, PROT_READ | PROT_WRITE) != 0)
        stop("mmap");
    return (struct region){all + page, size};
}

static inline void protect(struct region r, int access)
{
    if (mprotect(r.begin, r.size, access) != 0)
        stop("mprotect");
}

/* Memory of at least this size that can be neither read nor written. */
static inline void *new_no_access(size_t size)
{
    struct region r = new_region(size);
    protect(r, PROT_NONE);
    return r.begin;
}

/* A block of len bytes of a kind: a new one on the heap, or that in the region of its kind. */
static inline void *new_block(struct region r, enum kind kind, size_t len)
{
    if (kind != HEAP)
        return kind == ENDS_AT_GUARD ? r.begin + r.size - len : r.begin;
    void *block = malloc(len > 0 ? len : 1);
    if (block == NULL)
        stop("malloc");
    return block;
}

/* A block of a kind with these bytes. In a region it stands in pages that cannot be written. */
static inline uint8_t *new_copy(struct region r, enum kind kind, const uint8_t *bytes, size_t len)
{
    uint8_t *copy = new_block(r, kind, len);
    if (kind != HEAP)
        protect(r, PROT_READ | PROT_WRITE);
    memcpy(copy, bytes, len);
    if (kind != HEAP)
        protect(r, PROT_READ);
    return copy;
}

/* The bytes of a file of at most this size. Returns how many there are. */
static inline size_t read_bytes(const char *name, uint8_t *bytes, size_t most)
{
    FILE *f = fopen(name, "rb");
    if (f == NULL)
        stop(name);
    size_t len = fread(bytes, 1, most, f);
    if (ferror(f) || fgetc(f) != EOF || fclose(f) != 0)
        stop(name);
    return len;
}

static inline size_t get16(const uint8_t *bytes, size_t at) { return bytes[at] + 256u * bytes[at + 1]; }

static inline void set16(uint8_t *bytes, size_t at, size_t value)
{
    bytes[at] = (uint8_t)(value % 256);
    bytes[at + 1] = (uint8_t)(value / 256);
}

/* The number of states in the header, or 2 where it is outside its limits. */
static inline size_t header_states(const uint8_t *bytes)
{
    size_t states = get16(bytes, 2);
    return states >= 2 && states <= DOCKET_MAX_STATES ? states : 2;
}

/* The length of the record of a state. */
static inline size_t state_length(size_t version) { return version == 2 ? 3 : 1; }

/* Whether a refusal of this number is one of tests 1 to 8, to which 14 belongs. */
static inline int is_of_tests_1_to_8(uint32_t number) { return (number >= 1 && number <= 8) || number == 14; }

/* A refusal as every function but docket_check, docket_check_sheet and docket_figures returns it. */
static inline uint64_t refusal(uint64_t number, uint64_t place) { return (number << 32) + place; }

/* Exchanges two rules that stand next to each other: at the first place, in the middle or at the last one, where which
   is 0, 1 or 2. There are at least two rules. Returns the number of the second of the two. */
static inline size_t exchange_rules(uint8_t *records, size_t rules, size_t which)
{
    uint8_t copy[RULE];
    size_t rule = which * (rules - 2) / 2;
    uint8_t *first = records + RULE * rule, *second = first + RULE;
    memcpy(copy, first, RULE);
    memcpy(first, second, RULE);
    memcpy(second, copy, RULE);
    return rule + 1;
}

/* Whether the number of a refusal has a sentence of its own. */
static inline int has_text(uint32_t number)
{
    const char *text = docket_refusal_text(number);
    for (uint32_t other = 0; other < 100; other++)
        if (other != number && strcmp(text, docket_refusal_text(other)) == 0)
            return 0;
    return text[0] != '\0' && text[strlen(text) - 1] == '.';
}

#endif
