/*
 * The C boundary of docket_write: hands it exact copies of the parts of docket files, as they are and changed, and
 * outputs of several lengths.
 *
 *     writing FILE.docket...
 *
 * As in boundary.c, each call is made on three kinds of copies. Parts of the last two kinds stand in pages that cannot
 * be written. A refused call is made once more with an output and a total that can be neither read nor written. A file
 * that fails tests 1 to 4 has no parts, and is passed over. The parts are written in the version of the file, and in the
 * other one too, where they may be no parts of a docket.
 */
#include "shared.h"

#include <inttypes.h>

enum {
    PARTS = 5,
    BEYOND = 100,                            /* the most bytes of an output beyond the total */
    MOST_PART = DOCKET_MAX_BYTES,
    MOST_ROOM = DOCKET_MAX_BYTES + BEYOND
};

/* The version and the parts as they are before each call. */
struct parts {
    uint32_t version;
    uint8_t bytes[PARTS][MOST_PART];
    size_t len[PARTS];
};

/* The version, and the parts in one kind of copy. */
struct lent {
    uint32_t version;
    const uint8_t *part[PARTS];
    const size_t *len;
};

/* An output in one kind of copy. */
struct output {
    uint8_t *bytes;
    size_t len;
    uint64_t *total;
};

struct file {
    const char *name;
    const char *variant;
    uint8_t bytes[DOCKET_MAX_BYTES];
    size_t len;
    unsigned failures;
};

static struct region part_regions[KINDS][PARTS];
static struct region output_regions[KINDS];
static struct region total_regions[KINDS];
static void *no_access;
static uint64_t calls_made, calls_not_refused, calls_refused_14;

static void expect(struct file *file, size_t room, int holds, const char *what)
{
    if (!holds && file->failures++ < SHOWN)
        printf("%s: %s, output of %zu bytes: %s\n", file->name, file->variant, room, what);
}

static uint64_t make(const struct lent *lent, uint8_t *output, size_t room, uint64_t *total)
{
    const uint8_t *const *part = lent->part;
    const size_t *len = lent->len;
    return docket_write(lent->version, part[0], len[0], part[1], len[1], part[2], len[2], part[3], len[3], part[4], len[4],
                        output, room, total);
}

static size_t total_of(const struct parts *parts)
{
    size_t total = HEADER;
    for (size_t p = 0; p < PARTS; p++)
        total += parts->len[p];
    return total;
}

/* What the output holds before each call. */
static uint8_t old_byte(size_t at) { return (uint8_t)(at * 89 + 170); }

static int is_old(const uint8_t *output, size_t from, size_t to)
{
    while (from < to && output[from] == old_byte(from))
        from++;
    return from >= to;
}

/* Whether the output has the parts behind each other, with the version, their offsets and the total in its header, and
   docket_check finds no fault in it that the writer looks for. */
static int is_docket(const struct parts *parts, const uint8_t *output)
{
    size_t at = HEADER;
    if (get16(output, 0) != parts->version)
        return 0;
    for (size_t p = 0; p < PARTS; p++) {
        if (get16(output, 12 + 2 * p) != at || memcmp(output + at, parts->bytes[p], parts->len[p]) != 0)
            return 0;
        at += parts->len[p];
    }
    uint32_t number = docket_check_number(docket_check(output, at));
    return get16(output, 22) == at && !is_of_tests_1_to_8(number) && number != 11;
}

/* Makes the call on one kind of copies, and checks that it wrote what it may and nothing else. */
static uint64_t try_kind(struct file *file, const struct parts *parts, const struct lent *lent,
                         const struct output *output)
{
    enum { OLD = 77 };
    for (size_t i = 0; i < output->len; i++)
        output->bytes[i] = old_byte(i);
    *output->total = OLD;
    uint64_t code = make(lent, output->bytes, output->len, output->total);
    calls_made++;
    calls_not_refused += code == 0;
    calls_refused_14 += docket_call_number(code) == 14;
    if (code != 0) {
        expect(file, output->len, has_text(docket_call_number(code)), "a refusal without a text");
        expect(file, output->len, *output->total == OLD, "a refused call wrote the total");
        expect(file, output->len, is_old(output->bytes, 0, output->len), "a refused call wrote to the output");
        expect(file, output->len, make(lent, no_access, output->len, no_access) == code,
               "another refusal where output and total cannot be written");
        return code;
    }
    size_t total = total_of(parts);
    expect(file, output->len, *output->total == total, "not the total");
    expect(file, output->len, total <= output->len && is_docket(parts, output->bytes), "not the docket");
    expect(file, output->len, is_old(output->bytes, total, output->len), "bytes behind the total are changed");
    return 0;
}

/* The output in a kind of copy. The total on the heap is a block of its own. */
static struct output lend_output(enum kind kind, size_t room)
{
    uint64_t *total = new_block(total_regions[kind], kind, sizeof *total);
    return (struct output){new_block(output_regions[kind], kind, room), room, total};
}

/* Makes the call on every kind of copies, and compares what came of it. */
static uint64_t try_room(struct file *file, const struct parts *parts, const struct lent lent[KINDS], size_t room)
{
    struct output heap = lend_output(HEAP, room);
    uint64_t code = try_kind(file, parts, &lent[HEAP], &heap);
    for (enum kind k = ENDS_AT_GUARD; k < KINDS; k++) {
        struct output other = lend_output(k, room);
        expect(file, room, try_kind(file, parts, &lent[k], &other) == code, "another answer for another copy");
        expect(file, room, memcmp(other.bytes, heap.bytes, room) == 0, "other bytes in another copy");
    }
    /* The other kinds stand in pages that cannot be written. */
    for (size_t p = 0; p < PARTS; p++)
        expect(file, room, memcmp(lent[HEAP].part[p], parts->bytes[p], parts->len[p]) == 0, "a part is changed");
    free(heap.bytes);
    free(heap.total);
    return code;
}

/* The parts in a kind of copy. */
static struct lent lend(const struct parts *parts, enum kind kind)
{
    struct lent lent = {.version = parts->version, .len = parts->len};
    for (size_t p = 0; p < PARTS; p++)
        lent.part[p] = new_copy(part_regions[kind][p], kind, parts->bytes[p], parts->len[p]);
    return lent;
}

/* Tests 2 and 31: the refusal, or 0. */
static uint64_t length_test(const struct parts *parts)
{
    const size_t *len = parts->len;
    size_t state = state_length(parts->version);
    const size_t record[PARTS] = {state, 5, 4 * (len[0] / state), 12, 4 * (len[0] / state)};
    if (parts->version != 1 && parts->version != 2)
        return refusal(2, 0);
    for (size_t p = 0; p < PARTS; p++)
        if (record[p] > 0 && len[p] % record[p] != 0)
            return refusal(31, p);
    return 0;
}

/* Writes parts to outputs of several lengths. Returns what is said where the output is long enough. */
static uint64_t try_parts(struct file *file, const char *variant, const struct parts *parts)
{
    size_t total = total_of(parts);
    const size_t rooms[] = {0, HEADER - 1, HEADER, total / 2, total - 1, total, total + 1, total + BEYOND};
    struct lent lent[KINDS];
    file->variant = variant;
    for (enum kind k = HEAP; k < KINDS; k++)
        lent[k] = lend(parts, k);
    uint64_t said = try_room(file, parts, lent, total + BEYOND);
    uint32_t number = docket_call_number(said);
    expect(file, total, (number == 2 || number == 31 ? said : 0) == length_test(parts), "another refusal 2 or 31");
    for (size_t i = 0; i < sizeof rooms / sizeof rooms[0]; i++) {
        uint64_t code = try_room(file, parts, lent, rooms[i]);
        uint64_t expected = said == 0 && rooms[i] < total ? refusal(30, 0) : said;
        expect(file, rooms[i], code == expected, "not what is said with a longer output, nor 30, 0");
    }
    for (size_t p = 0; p < PARTS; p++)
        free((void *)(uintptr_t)lent[HEAP].part[p]);
    return said;
}

/* Whether the writer may say this of the docket's own parts: a refusal of tests 5 to 8, 14 and 11 is that of
   docket_check, which looks for 9 and 10 before 11. */
static int follows(uint64_t said, uint64_t checked)
{
    uint32_t number = docket_check_number(checked);
    if (number == 9 || number == 10)
        return said == 0 || docket_call_number(said) == 11;
    if (number == 0 || number == 12 || number == 13)
        return said == 0;
    return said == refusal(number, docket_check_place(checked));
}

static void exchange(struct parts *parts, size_t p, size_t q)
{
    static uint8_t bytes[MOST_PART];
    size_t len = parts->len[p];
    memcpy(bytes, parts->bytes[p], MOST_PART);
    memcpy(parts->bytes[p], parts->bytes[q], MOST_PART);
    memcpy(parts->bytes[q], bytes, MOST_PART);
    parts->len[p] = parts->len[q];
    parts->len[q] = len;
}

/* One part in several variants; it is afterwards as it was. */
static void try_variants(struct file *file, struct parts *parts, size_t p)
{
    size_t len = parts->len[p];
    uint8_t *bytes = parts->bytes[p];
    parts->len[p] = len + 1;
    try_parts(file, "a part with one byte more", parts);
    if (len > 0) {
        parts->len[p] = len - 1;
        try_parts(file, "a part with one byte less", parts);
        parts->len[p] = 0;
        try_parts(file, "a part with no bytes", parts);
        parts->len[p] = len;
        for (size_t at = 0; at < len; at += len > 1 ? len - 1 : 1) {
            uint8_t old = bytes[at];
            bytes[at] = 0xff;
            try_parts(file, "a part with its first or last byte ff", parts);
            bytes[at] = old;
        }
    }
    parts->len[p] = len;
    for (size_t q = p + 1; q < PARTS; q++) {
        exchange(parts, p, q);
        try_parts(file, "two parts exchanged", parts);
        exchange(parts, p, q);
    }
}

/* Two rules exchanged that stand next to each other, at the first place, in the middle and at the last one: in version 2
   test 14 names the second of the two, where the parts are otherwise written; in version 1 they are written still. They
   are afterwards as they were. */
static void try_exchanged(struct file *file, struct parts *parts, uint64_t said)
{
    size_t rules = parts->len[1] / RULE;
    if (said != 0 || rules < 2)
        return;
    for (size_t which = 0; which < EXCHANGES; which++) {
        size_t later = exchange_rules(parts->bytes[1], rules, which);
        uint64_t code = try_parts(file, "two rules exchanged", parts);
        uint64_t expected = parts->version == 2 ? refusal(14, later) : 0;
        expect(file, file->len, code == expected, "not the refusal that the order has");
        exchange_rules(parts->bytes[1], rules, which);
    }
}

/* The other version and some that there are not, which test 2 refuses; it is afterwards as it was. */
static void try_versions(struct file *file, struct parts *parts)
{
    const uint32_t old = parts->version;
    const uint32_t versions[] = {3 - old, 0, 3, 256 + old, 65536 + old, UINT32_MAX};
    for (size_t i = 0; i < sizeof versions / sizeof versions[0]; i++) {
        parts->version = versions[i];
        try_parts(file, i == 0 ? "the other version" : "no version", parts);
    }
    parts->version = old;
}

/* Returns 1 where all that was tried on the parts of the file held, 0 where not, and -1 where it has no parts. */
static int try_file(const char *name)
{
    static struct file file;
    static struct parts parts;
    memset(&file, 0, sizeof file);
    file.name = name;
    file.len = read_bytes(name, file.bytes, DOCKET_MAX_BYTES);
    uint64_t checked = docket_check(file.bytes, file.len);
    uint32_t number = docket_check_number(checked);
    if (number >= 1 && number <= 4)
        return -1;
    memset(&parts, 0, sizeof parts);
    parts.version = (uint32_t)get16(file.bytes, 0);
    for (size_t p = 0; p < PARTS; p++) {
        size_t at = get16(file.bytes, 12 + 2 * p);
        parts.len[p] = get16(file.bytes, 14 + 2 * p) - at;
        memcpy(parts.bytes[p], file.bytes + at, parts.len[p]);
    }
    uint64_t said = try_parts(&file, "parts as they are", &parts);
    expect(&file, file.len, follows(said, checked), "not the refusal that the docket has");
    uint8_t *last = output_regions[BEGINS_AT_GUARD].begin;
    expect(&file, file.len, said != 0 || memcmp(last, file.bytes, file.len) == 0, "not the file's own bytes");
    for (size_t p = 0; p < PARTS; p++)
        try_variants(&file, &parts, p);
    try_exchanged(&file, &parts, said);
    try_versions(&file, &parts);
    return file.failures == 0;
}

/* Lengths that no memory has, lengths without states and versions that there are not are refused by themselves, with no
   look at the bytes. With QUARTER states, four times their number is 0 in 64 bits; in version 2 no length has so many
   states. The pointers are one and have no such bytes, which no caller may do: only version and lengths are looked at.
   Returns 1 where all are refused so, else 0. */
static int try_lengths(void)
{
    const size_t QUARTER = SIZE_MAX / 4 + 1, HIGH = (size_t)1 << 32, MOST = PTRDIFF_MAX;
    const size_t THREES = MOST / 3 * 3; /* the greatest length of whole states in version 2 */
    const struct {
        uint32_t version;
        size_t len[PARTS];
        uint64_t code;
    } cases[] = {
        {1, {QUARTER, 0, 0, 12, 0}, refusal(3, 0)},        {1, {QUARTER, 0, 4, 12, 0}, refusal(31, 2)},
        {1, {QUARTER, 0, 0, 12, 4}, refusal(31, 4)},       {1, {QUARTER + 1, 5, 4, 12, 0}, refusal(31, 2)},
        {1, {QUARTER + 1, 0, 0, 12, 4}, refusal(31, 4)},   {1, {QUARTER + 2, 5, 8, 12, 8}, refusal(31, 2)},
        {1, {QUARTER + 2, 5, 0, 12, 8}, refusal(31, 4)},   {1, {MOST, 0, 0, 12, 0}, refusal(3, 0)},
        {1, {MOST, 0, MOST - 3, 12, 0}, refusal(31, 2)},   {1, {HIGH + 2, 5, 8, 12, 0}, refusal(31, 2)},
        {1, {HIGH + 2, 0, 0, 12, 0}, refusal(3, 0)},       {1, {2, 5 * (HIGH + 1), 8, 12, 0}, refusal(3, 1)},
        {1, {2, MOST, 8, 12, 0}, refusal(31, 1)},          {1, {2, MOST - 2, 8, 12, 0}, refusal(3, 1)},
        {1, {2, 5, 8 * (HIGH + 1), 12, 0}, refusal(3, 2)}, {1, {2, 5, MOST - 7, 12, 0}, refusal(3, 2)},
        {1, {2, 5, 8, 12 * (HIGH + 1), 0}, refusal(3, 3)}, {1, {2, 5, 8, MOST - 7, 0}, refusal(3, 3)},
        {1, {2, 5, 8, 12, 8 * HIGH}, refusal(3, 4)},       {1, {2, 5, 8, 12, MOST - 7}, refusal(3, 4)},
        {1, {0, 0, 1, 12, 0}, refusal(3, 0)},              {1, {0, 0, 0, 12, 1}, refusal(3, 0)},
        {1, {0, 1, 1, 12, 1}, refusal(31, 1)},             {1, {0, 5, 1, 11, 1}, refusal(31, 3)},
        {2, {THREES, 0, 0, 12, 0}, refusal(3, 0)},         {2, {THREES - 1, 0, 0, 12, 0}, refusal(31, 0)},
        {2, {THREES - 2, 0, 0, 12, 0}, refusal(31, 0)},    {2, {THREES, 0, 4, 12, 0}, refusal(31, 2)},
        {2, {THREES, 0, 0, 12, 4}, refusal(31, 4)},        {2, {3 * (HIGH + 2), 5, 8, 12, 0}, refusal(31, 2)},
        {2, {3 * (HIGH + 2), 0, 0, 12, 0}, refusal(3, 0)}, {2, {3 * HIGH + 1, 0, 0, 12, 0}, refusal(31, 0)},
        {2, {6, 5 * (HIGH + 1), 8, 12, 0}, refusal(3, 1)}, {2, {6, 5, 8 * (HIGH + 1), 12, 0}, refusal(3, 2)},
        {2, {6, 5, 8, 12 * (HIGH + 1), 0}, refusal(3, 3)}, {2, {6, 5, 8, 12, 8 * HIGH}, refusal(3, 4)},
        {2, {6, 5, 24, 12, 4}, refusal(31, 4)},            {2, {0, 0, 1, 12, 1}, refusal(3, 0)},
        {2, {1, 0, 1, 12, 1}, refusal(31, 0)},             {2, {2, 1, 1, 11, 1}, refusal(31, 0)},
        {2, {0, 1, 1, 12, 1}, refusal(31, 1)},             {2, {0, 5, 1, 11, 1}, refusal(31, 3)},
        {0, {2, 5, 8, 12, 0}, refusal(2, 0)},              {3, {6, 5, 8, 12, 0}, refusal(2, 0)},
        {0, {MOST, MOST, MOST, MOST, 1}, refusal(2, 0)},   {3, {0, 1, 1, 1, 1}, refusal(2, 0)},
        {258, {6, 5, 8, 12, 0}, refusal(2, 0)},            {65537, {2, 5, 8, 12, 0}, refusal(2, 0)},
        {65538, {6, 5, 8, 12, 0}, refusal(2, 0)},          {UINT32_MAX, {2, 5, 8, 12, 0}, refusal(2, 0)},
    };
    int good = 1;
    for (size_t i = 0; i < sizeof cases / sizeof cases[0]; i++) {
        const struct lent lent = {
            cases[i].version, {no_access, no_access, no_access, no_access, no_access}, cases[i].len};
        const uint64_t codes[] = {make(&lent, no_access, 0, no_access), make(&lent, no_access, MOST, no_access)};
        calls_made += 2;
        if (codes[0] == cases[i].code && codes[1] == cases[i].code)
            continue;
        printf("lengths %zu: %" PRIx64 " and %" PRIx64 ", not %" PRIx64 "\n", i, codes[0], codes[1], cases[i].code);
        good = 0;
    }
    return good;
}

int main(int argc, char **argv)
{
    int passed = 0, failed = 0;
    no_access = new_no_access(MOST_ROOM);
    for (enum kind k = ENDS_AT_GUARD; k < KINDS; k++) {
        for (size_t p = 0; p < PARTS; p++)
            part_regions[k][p] = new_region(MOST_PART);
        output_regions[k] = new_region(MOST_ROOM);
        total_regions[k] = new_region(sizeof(uint64_t));
    }
    int good = try_lengths();
    passed += good;
    failed += !good;
    for (int i = 1; i < argc; i++) {
        int result = try_file(argv[i]);
        passed += result == 1;
        failed += result == 0;
    }
    printf("docket_write: %" PRIu64 " calls, %" PRIu64 " not refused, %" PRIu64 " refused with 14\n", calls_made,
           calls_not_refused, calls_refused_14);
    failed += calls_not_refused == 0 || calls_refused_14 == 0;
    printf("%d passed, %d failed\n", passed, failed);
    return failed == 0 ? 0 : 1;
}
