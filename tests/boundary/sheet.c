/*
 * The C boundary of docket_check_sheet: hands it exact copies of docket files and of claim sheets, whole, shortened and
 * changed.
 *
 *     sheet FILE.docket... CASES.txt...
 *
 * The sheet of a docket is FILE.sheet where there is one, and is then accepted; else one that test 15 passes and the
 * trees refuse. A file of cases has lines as tests/corpus/claim.txt. As in boundary.c, each call is made on three kinds of
 * copies, here of docket and sheet, and those of the last two kinds stand in pages that cannot be written. Where the
 * docket is refused, the call is made once more with a sheet that cannot be read.
 */
#include "shared.h"

#include <ctype.h>
#include <inttypes.h>

enum {
    SHEET_HEADER = 16,
    FIELDS = SHEET_HEADER / 2,
    NODE = 12,                               /* bytes of the record of a node */
    MOST_LENT = DOCKET_MAX_BYTES + 1,        /* of what is handed over as a docket or as a sheet */
    MOST_LINE = 4 * MOST_LENT,               /* characters of a case */
    ALL_BYTES = 400,                         /* a longer sheet has only some of its bytes changed */
    NUMBERS = 40                             /* those of refusals are less */
};

/* What a sheet of a file must be: accepted, refused by its trees, or what its case says. */
struct file {
    const char *name;
    size_t line;                             /* of a case; else 0 */
    uint8_t docket[MOST_LENT];
    size_t docket_len;
    uint8_t sheet[MOST_LENT];
    size_t sheet_len;
    uint64_t expected;                       /* of the whole docket with the whole sheet */
    const char *variant;                     /* what is lent of them */
    unsigned failures;
};

static struct region docket_regions[KINDS];
static struct region sheet_regions[KINDS];
static void *no_access;                      /* a sheet that can be neither read nor written */
static uint64_t calls[NUMBERS];              /* made, by the number of their refusal, or 0 */
static uint64_t without_sheet;               /* calls with a sheet that cannot be read */
static int passed, failed;

static void expect(struct file *file, int holds, size_t docket_len, size_t sheet_len, const char *what)
{
    if (!holds && file->failures++ < SHOWN)
        printf("%s, line %zu: %s, %zu and %zu bytes: %s\n", file->name, file->line, file->variant, docket_len, sheet_len,
               what);
}

static uint64_t code_of(uint64_t number, uint64_t place) { return number * 65536 + place; }

/* ---- calls */

static uint64_t check(struct file *file, const uint8_t *docket, size_t docket_len, const uint8_t *sheet, size_t sheet_len)
{
    uint64_t code = docket_check_sheet(docket, docket_len, sheet, sheet_len);
    uint32_t number = docket_check_number(code);
    calls[number < NUMBERS ? number : NUMBERS - 1]++;
    expect(file, code == 0 || has_text(number), docket_len, sheet_len, "a refusal without a text");
    return code;
}

/* Makes the call on one kind of copies, which it must leave as they are. */
static uint64_t check_kind(struct file *file, enum kind kind, const uint8_t *docket, size_t docket_len,
                           const uint8_t *sheet, size_t sheet_len)
{
    uint8_t *lent_docket = new_copy(docket_regions[kind], kind, docket, docket_len);
    uint8_t *lent_sheet = new_copy(sheet_regions[kind], kind, sheet, sheet_len);
    uint64_t code = check(file, lent_docket, docket_len, lent_sheet, sheet_len);
    expect(file, memcmp(lent_docket, docket, docket_len) == 0, docket_len, sheet_len, "docket changed");
    expect(file, memcmp(lent_sheet, sheet, sheet_len) == 0, docket_len, sheet_len, "sheet changed");
    if (kind == HEAP) {
        free(lent_docket);
        free(lent_sheet);
    }
    return code;
}

/* Makes the call on every kind of copies. Where the docket is refused, its refusal is the answer, and the sheet is not
   read. Returns the code. */
static uint64_t try_bytes(struct file *file, const char *variant, const uint8_t *docket, size_t docket_len,
                          const uint8_t *sheet, size_t sheet_len)
{
    uint64_t of_docket = docket_check(docket, docket_len);
    file->variant = variant;
    uint64_t code = check_kind(file, HEAP, docket, docket_len, sheet, sheet_len);
    for (enum kind k = ENDS_AT_GUARD; k < KINDS; k++)
        expect(file, check_kind(file, k, docket, docket_len, sheet, sheet_len) == code, docket_len, sheet_len,
               "another code on another kind of copies");
    if (of_docket == 0) {
        uint32_t number = docket_check_number(code);
        expect(file, number == 0 || number == 12 || number == 13 || code == code_of(15, 0), docket_len, sheet_len,
               "a refusal that no sheet has");
        return code;
    }
    expect(file, code == of_docket, docket_len, sheet_len, "not the refusal of the docket");
    expect(file, check(file, docket, docket_len, no_access, sheet_len) == of_docket, docket_len, sheet_len,
           "another refusal where the sheet cannot be read");
    without_sheet++;
    return code;
}

/* The same, where this is the code of an accepted docket. */
static void try_code(struct file *file, const char *variant, const uint8_t *sheet, size_t sheet_len, uint64_t expected)
{
    uint64_t of_docket = docket_check(file->docket, file->docket_len);
    uint64_t code = try_bytes(file, variant, file->docket, file->docket_len, sheet, sheet_len);
    expect(file, of_docket != 0 || code == expected, file->docket_len, sheet_len, "not the code that is expected");
}

/* ---- what is tried */

static void try_whole(struct file *file)
{
    uint64_t code = try_bytes(file, "whole files", file->docket, file->docket_len, file->sheet, file->sheet_len);
    expect(file, code == file->expected, file->docket_len, file->sheet_len, "not the code that the files have");
}

/* A sheet of every length below its own and of some above, with its total as it is and set to that length. */
static void try_lengths(struct file *file)
{
    static uint8_t bytes[MOST_LENT];
    const size_t more[] = {1, 2, NODE, 65535};
    size_t step = file->sheet_len <= ALL_BYTES ? 1 : file->sheet_len / 40;
    for (size_t len = 0; len < file->sheet_len; len += len < SHEET_HEADER ? 1 : step) {
        memcpy(bytes, file->sheet, len);
        try_code(file, "a shortened sheet", bytes, len, code_of(15, 0));
        if (len < SHEET_HEADER)
            continue;
        set16(bytes, 14, len);
        try_code(file, "a shortened sheet with its length", bytes, len, code_of(15, 0));
    }
    for (size_t i = 0; i < sizeof more / sizeof more[0]; i++) {
        size_t len = file->sheet_len + more[i] <= DOCKET_MAX_BYTES ? file->sheet_len + more[i] : DOCKET_MAX_BYTES;
        memset(bytes, 0, len);
        memcpy(bytes, file->sheet, file->sheet_len);
        try_code(file, "a sheet with more bytes", bytes, len, code_of(15, 0));
        set16(bytes, 14, len);
        try_code(file, "a sheet with more bytes and their length", bytes, len, code_of(15, 0));
    }
}

/* Lengths beyond 16 bits that the total does not show: of the sheet there is no more than its header. */
static void try_long(struct file *file)
{
    const size_t lengths[] = {65536, (size_t)1 << 32, PTRDIFF_MAX - 65535};
    if (docket_check(file->docket, file->docket_len) != 0 || file->sheet_len < SHEET_HEADER)
        return;
    file->variant = "a header alone";
    uint8_t *header = new_copy(sheet_regions[ENDS_AT_GUARD], ENDS_AT_GUARD, file->sheet, SHEET_HEADER);
    for (size_t i = 0; i < sizeof lengths / sizeof lengths[0]; i++) {
        size_t len = lengths[i] + (i == 2 ? 0 : get16(file->sheet, 14));
        expect(file, check(file, file->docket, file->docket_len, header, len) == code_of(15, 0), file->docket_len, len,
               "not refused by its length");
    }
}

/* No bytes, also where the pointer is to none. */
static void try_empty(struct file *file)
{
    try_code(file, "no sheet", file->sheet, 0, code_of(15, 0));
    file->variant = "no bytes, and none that can be read";
    uint64_t of_docket = docket_check(file->docket, file->docket_len);
    expect(file,
           check(file, file->docket, file->docket_len, no_access, 0) == (of_docket != 0 ? of_docket : code_of(15, 0)),
           file->docket_len, 0, "not the code of no sheet");
    expect(file, check(file, no_access, 0, file->sheet, file->sheet_len) == code_of(1, 0), 0, file->sheet_len,
           "not the code of no docket");
    expect(file, check(file, no_access, 0, no_access, 0) == code_of(1, 0), 0, 0, "not the code of no docket");
}

/* Each number of the header, one less and one more. */
static void try_header(struct file *file)
{
    static uint8_t bytes[MOST_LENT];
    if (file->expected != 0)
        return;
    memcpy(bytes, file->sheet, file->sheet_len);
    for (size_t field = 0; field < FIELDS; field++) {
        size_t number = get16(file->sheet, 2 * field);
        for (size_t i = 0; i < 2; i++) {
            set16(bytes, 2 * field, (number + 65535 + 2 * i) % 65536);
            try_code(file, "another number in the header", bytes, file->sheet_len, code_of(15, 0));
        }
        set16(bytes, 2 * field, number);
    }
}

/* Other bytes, each with its lowest bit and with all bits changed. */
static void try_changes(struct file *file)
{
    static uint8_t bytes[MOST_LENT];
    const uint8_t bits[] = {1, 255};
    size_t step = file->sheet_len <= ALL_BYTES ? 1 : file->sheet_len / 40;
    memcpy(bytes, file->sheet, file->sheet_len);
    for (size_t at = 0; at < file->sheet_len; at += step)
        for (size_t i = 0; i < sizeof bits; i++) {
            bytes[at] = file->sheet[at] ^ bits[i];
            try_bytes(file, "a changed byte", file->docket, file->docket_len, bytes, file->sheet_len);
            bytes[at] = file->sheet[at];
        }
}

/* Shortened dockets, whose refusal comes first. */
static void try_dockets(struct file *file)
{
    static uint8_t bytes[MOST_LENT];
    const size_t lengths[] = {0, 1, HEADER - 1, HEADER, file->docket_len / 2, file->docket_len - 1};
    for (size_t i = 0; i < sizeof lengths / sizeof lengths[0]; i++) {
        size_t len = lengths[i];
        if (len >= file->docket_len)
            continue;
        memcpy(bytes, file->docket, len);
        uint64_t code = try_bytes(file, "a shortened docket", bytes, len, file->sheet, file->sheet_len);
        expect(file, code == code_of(1, 0), len, file->sheet_len, "not refused by the docket's length");
        if (len < HEADER)
            continue;
        set16(bytes, 22, len);
        try_bytes(file, "a shortened docket with its length", bytes, len, file->sheet, file->sheet_len);
    }
}

static void count(int good)
{
    passed += good;
    failed += !good;
}

static void try_file(struct file *file)
{
    file->failures = 0;
    try_whole(file);
    try_lengths(file);
    try_long(file);
    try_empty(file);
    try_header(file);
    try_changes(file);
    try_dockets(file);
    count(file->failures == 0);
}

/* ---- files */

/* Whether some state of the docket has this verdict. */
static int has_verdict(const struct file *file, uint8_t verdict)
{
    size_t length = state_length(get16(file->docket, 0)), states = header_states(file->docket);
    for (size_t i = 0; i < states; i++)
        if (file->docket[HEADER + i * length] % 2 == verdict)
            return 1;
    return 0;
}

/* A sheet of one node in each tree, which no state of the assumed verdict may be there for. The refusal is that of the
   first tree where a state has verdict 0, else that of the second. */
static void make_sheet(struct file *file)
{
    size_t states = header_states(file->docket), nodes = SHEET_HEADER + 2 * states + 4, len = nodes + 2 * NODE;
    const size_t header[FIELDS] = {states, 1, 1, 0, SHEET_HEADER, nodes, len, len};
    memset(file->sheet, 0, len);
    for (size_t i = 0; i < FIELDS; i++)
        set16(file->sheet, 2 * i, header[i]);
    for (size_t i = 0; i < 2; i++)
        file->sheet[nodes + i * NODE] = file->sheet[nodes + i * NODE + 1] = 1;
    file->sheet_len = len;
    file->expected = code_of(13, !has_verdict(file, 0));
}

/* The sheet beside the docket, if there is one. Returns whether there is. */
static int read_sheet(struct file *file)
{
    char name[4096];
    size_t stem = strlen(file->name) - strlen(".docket");
    if (snprintf(name, sizeof name, "%.*s.sheet", (int)stem, file->name) >= (int)sizeof name)
        stop(file->name);
    if (access(name, F_OK) != 0)
        return 0;
    file->sheet_len = read_bytes(name, file->sheet, sizeof file->sheet);
    file->expected = 0;
    return 1;
}

static void try_docket(struct file *file)
{
    file->line = 0;
    file->docket_len = read_bytes(file->name, file->docket, sizeof file->docket);
    if (!read_sheet(file))
        make_sheet(file);
    uint64_t of_docket = docket_check(file->docket, file->docket_len);
    if (of_docket != 0)
        file->expected = of_docket;
    try_file(file);
}

/* The bytes of a word in hexadecimal; `-` is none. Returns what follows the word. */
static char *read_hex(char *text, uint8_t *bytes, size_t *len)
{
    *len = 0;
    if (*text == '-')
        return text + 2;
    for (; isxdigit((unsigned char)text[0]) && isxdigit((unsigned char)text[1]); text += 2) {
        char digits[3] = {text[0], text[1], 0};
        bytes[(*len)++] = (uint8_t)strtoul(digits, NULL, 16);
    }
    return text + 1;
}

/* A docket, a sheet, `->`, and `accepted` or `refused`, number and place. */
static void try_case(struct file *file, char *text)
{
    char *rest = read_hex(text, file->docket, &file->docket_len);
    rest = read_hex(rest, file->sheet, &file->sheet_len);
    uint64_t number = 0, place = 0;
    if (strcmp(rest, "-> accepted\n") != 0 &&
        sscanf(rest, "-> refused %" SCNu64 " %" SCNu64, &number, &place) != 2)
        stop(file->name);
    file->expected = code_of(number, place);
    try_file(file);
}

static void try_cases(struct file *file)
{
    static char text[MOST_LINE];
    FILE *f = fopen(file->name, "r");
    if (f == NULL)
        stop(file->name);
    for (file->line = 1; fgets(text, sizeof text, f) != NULL; file->line++)
        if (text[0] != '#')
            try_case(file, text);
    if (ferror(f) || fclose(f) != 0)
        stop(file->name);
}

/* ---- the program */

/* Says how often something was met; that it was met at all is a test. */
static void say_met(const char *what, uint64_t times)
{
    printf("docket_check_sheet: %" PRIu64 " %s\n", times, what);
    count(times > 0);
}

int main(int argc, char **argv)
{
    static struct file file;
    const uint32_t numbers[] = {1, 12, 13, 15};
    for (enum kind k = ENDS_AT_GUARD; k < KINDS; k++) {
        docket_regions[k] = new_region(MOST_LENT);
        sheet_regions[k] = new_region(MOST_LENT);
    }
    no_access = new_no_access(MOST_LENT);
    for (int i = 1; i < argc; i++) {
        const char *ending = strrchr(argv[i], '.');
        file.name = argv[i];
        if (ending != NULL && strcmp(ending, ".txt") == 0)
            try_cases(&file);
        else
            try_docket(&file);
    }
    say_met("calls not refused", calls[0]);
    say_met("calls with a sheet that cannot be read", without_sheet);
    for (size_t i = 0; i < sizeof numbers / sizeof numbers[0]; i++) {
        char what[40];
        snprintf(what, sizeof what, "calls refused with %" PRIu32, numbers[i]);
        say_met(what, calls[numbers[i]]);
    }
    printf("%d passed, %d failed\n", passed, failed);
    return failed == 0 ? 0 : 1;
}
