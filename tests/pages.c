/* Compares docs/REFUSALS.md and docs/FORMAT.md with the library, the header and the example, so that the pages cannot drift.
 *
 *   REFUSALS.md   every row of the table: the name has its number, the call is refused by it at that place, and the buffer is kept;
 *                 every number from 1 to 28, 31 to 38, 41, 42 and 48 to 50 has one row; so have those of Cost and Read core in their own
 *                 tables
 *   FORMAT.md     every row of the kinds and patterns: the name has its number, and the library takes just these map bits and children;
 *                 every limit has its value; the bytes of the example are examples/prefix.term and its core; the C code stands in
 *                 examples/c/desugar.c
 *
 * Run from the root of the repository. Prints what differs; exits 1 if something does. */
#include "../include/netkat.h"
#include <ctype.h>
#include <stdio.h>
#include <stdlib.h>
#include <string.h>

static int failed = 0;

#define WRONG(...) (printf(__VA_ARGS__), putchar('\n'), failed = 1)

static char *read_file(const char *path, size_t *len) {
    FILE *f = fopen(path, "rb");
    char *text = malloc(1 << 20);
    if (!f || !text) {
        perror(path);
        exit(2);
    }
    *len = fread(text, 1, (1 << 20) - 1, f);
    text[*len] = 0;
    fclose(f);
    return text;
}

/* The names that the pages use, with their values. */
static const struct {
    const char *name;
    uint32_t value;
} names[] = {
#define N(name)                                                                                                                            \
    { #name, name }
    N(NETKAT_REFUSAL_ENDS_EARLY),
    N(NETKAT_REFUSAL_UNKNOWN_KIND),
    N(NETKAT_REFUSAL_FOREIGN_FIELD),
    N(NETKAT_REFUSAL_ZERO_WRITTEN),
    N(NETKAT_REFUSAL_OUT_OF_RANGE),
    N(NETKAT_REFUSAL_TOO_MANY_RECORDS),
    N(NETKAT_REFUSAL_TOO_DEEP),
    N(NETKAT_REFUSAL_LEFT_OVER),
    N(NETKAT_REFUSAL_ALLOWANCE),
    N(NETKAT_REFUSAL_WORK_MEMORY),
    N(NETKAT_REFUSAL_UNKNOWN_ALIAS),
    N(NETKAT_REFUSAL_UNBOUND_VARIABLE),
    N(NETKAT_REFUSAL_ALIAS_AS_VARIABLE),
    N(NETKAT_REFUSAL_RANGE_END_BELOW_START),
    N(NETKAT_REFUSAL_LITERAL_TOO_LONG),
    N(NETKAT_REFUSAL_LITERAL_WIDTH),
    N(NETKAT_REFUSAL_CIDR_PREFIX),
    N(NETKAT_REFUSAL_CIDR_ADDRESS),
    N(NETKAT_REFUSAL_WILDCARD_WIDTH),
    N(NETKAT_REFUSAL_IP_RANGE_WIDTH),
    N(NETKAT_REFUSAL_IP_RANGE_ORDER),
    N(NETKAT_REFUSAL_NEGATED_NON_TEST),
    N(NETKAT_REFUSAL_CONDITION_NOT_TEST),
    N(NETKAT_REFUSAL_ALLOWANCE_SPENT),
    N(NETKAT_REFUSAL_FIELD_COUNT),
    N(NETKAT_REFUSAL_BUFFER_TOO_SHORT),
    N(NETKAT_REFUSAL_RESULT_TOO_LARGE),
    N(NETKAT_REFUSAL_SUBRANGE_OUTSIDE),
    N(NETKAT_REFUSAL_REPLACEMENT_ENDS_EARLY),
    N(NETKAT_REFUSAL_REPLACEMENT_UNKNOWN_KIND),
    N(NETKAT_REFUSAL_REPLACEMENT_FOREIGN_FIELD),
    N(NETKAT_REFUSAL_REPLACEMENT_ZERO_WRITTEN),
    N(NETKAT_REFUSAL_REPLACEMENT_OUT_OF_RANGE),
    N(NETKAT_REFUSAL_REPLACEMENT_TOO_MANY_RECORDS),
    N(NETKAT_REFUSAL_REPLACEMENT_TOO_DEEP),
    N(NETKAT_REFUSAL_REPLACEMENT_LEFT_OVER),
    N(NETKAT_REFUSAL_TERM_KIND),
    N(NETKAT_REFUSAL_CORE_TOO_LARGE),
    N(NETKAT_REFUSAL_CORE_NOT_TEST),
    N(NETKAT_REFUSAL_PACKET_COUNT),
    N(NETKAT_REFUSAL_PACKET_TOO_SHORT),
    N(NETKAT_KIND_ZERO),
    N(NETKAT_KIND_ONE),
    N(NETKAT_KIND_TOP),
    N(NETKAT_KIND_DUP),
    N(NETKAT_KIND_END),
    N(NETKAT_KIND_ASSIGN),
    N(NETKAT_KIND_TEST),
    N(NETKAT_KIND_UNION),
    N(NETKAT_KIND_INTERSECT),
    N(NETKAT_KIND_XOR),
    N(NETKAT_KIND_DIFFERENCE),
    N(NETKAT_KIND_SEQUENCE),
    N(NETKAT_KIND_LTL_UNTIL),
    N(NETKAT_KIND_COMPLEMENT),
    N(NETKAT_KIND_STAR),
    N(NETKAT_KIND_LTL_NEXT),
    N(NETKAT_KIND_TEST_NEGATION),
    N(NETKAT_KIND_IF_THEN_ELSE),
    N(NETKAT_KIND_LET),
    N(NETKAT_KIND_LET_BIT_RANGE),
    N(NETKAT_KIND_VAR),
    N(NETKAT_KIND_VAR_ASSIGN),
    N(NETKAT_KIND_VAR_TEST),
    N(NETKAT_KIND_BIT_RANGE_ASSIGN),
    N(NETKAT_KIND_BIT_RANGE_TEST),
    N(NETKAT_KIND_BIT_RANGE_MATCH),
    N(NETKAT_KIND_VAR_MATCH),
    N(NETKAT_PATTERN_EXACT),
    N(NETKAT_PATTERN_CIDR),
    N(NETKAT_PATTERN_WILDCARD),
    N(NETKAT_PATTERN_IP_RANGE),
    N(NETKAT_MAX_RECORDS),
    N(NETKAT_MAX_LEVELS),
    N(NETKAT_MAX_LITERAL_BITS),
    N(NETKAT_MAX_PREFIX),
    N(NETKAT_MAX_RANGE_PATTERN_FIELDS),
    N(NETKAT_MAX_RANGE_PATTERN_COST),
    N(NETKAT_RECORD_MAX),
    N(NETKAT_TERM_MAX),
    N(NETKAT_MAX_CORE_RECORDS),
    N(NETKAT_MAX_PACKETS),
};

/* Does the name, which may stand in backquotes, have the value? */
static void check_name(const char *name, uint32_t value) {
    size_t len = strspn(name += *name == '`', "ABCDEFGHIJKLMNOPQRSTUVWXYZ_");
    for (size_t i = 0; i < sizeof names / sizeof *names; i++)
        if (strlen(names[i].name) == len && strncmp(name, names[i].name, len) == 0) {
            if (names[i].value != value) WRONG("%s is %u, not %u", names[i].name, names[i].value, value);
            return;
        }
    WRONG("no such name: %s", name);
}

/* The next row of a table, from *text on and before end: its cells, cut out and trimmed. 0 if there is none. */
enum { CELLS = 8 };

static int next_row(char **text, char *cell[CELLS]) {
    for (char *line = *text; line; line = *text) {
        char *end = strchr(line, '\n');
        *text = end ? end + 1 : NULL;
        if (end) *end = 0;
        if (strncmp(line, "## ", 3) == 0 || strncmp(line, "### ", 4) == 0) return 0;
        if (*line != '|' || strncmp(line, "|--", 3) == 0) continue;
        int n = 0;
        for (char *at = line + 1, *bar; n < CELLS && (bar = strchr(at, '|')); at = bar + 1) {
            while (*at == ' ') at++;
            cell[n++] = at;
            *bar = 0;
            for (char *last = bar; last > at && last[-1] == ' ';) *--last = 0;
        }
        for (; n < CELLS; n++) cell[n] = "";
        return 1;
    }
    return 0;
}

/* The text behind the line that is a heading. The page is a copy, as reading rows cuts it. */
static char *section(const char *page, const char *heading) {
    char *copy = malloc(strlen(page) + 1), *at;
    strcpy(copy, page);
    at = strstr(copy, heading);
    if (!at || !(at = strchr(at, '\n'))) {
        WRONG("no section %s", heading);
        exit(1);
    }
    return at + 1;
}

/* Bytes from the notation of REFUSALS.md. */
struct bytes {
    uint8_t at[1 << 17];
    size_t len;
};

static void put(struct bytes *b, const uint8_t *bytes, size_t len) {
    if (len > sizeof b->at - b->len) {
        puts("a term of a page is too long");
        exit(1);
    }
    memcpy(b->at + b->len, bytes, len);
    b->len += len;
}

static void put_tree(struct bytes *b, int levels) {
    const uint8_t zero[] = {0}, conditional[] = {1, NETKAT_KIND_IF_THEN_ELSE};
    if (levels == 0) {
        put(b, zero, 1);
        return;
    }
    put(b, conditional, 2);
    for (int i = 0; i < 3; i++) put_tree(b, levels - 1);
}

/* Hexadecimal, spaces between bytes allowed. */
static void put_hex(struct bytes *b, const char *hex) {
    for (; isxdigit((unsigned char)hex[0]) && isxdigit((unsigned char)hex[1]); hex += 2 + (hex[2] == ' ')) {
        char two[3] = {hex[0], hex[1], 0};
        uint8_t byte = (uint8_t)strtoul(two, NULL, 16);
        put(b, &byte, 1);
    }
}

static void read_term(struct bytes *b, char *word) {
    b->len = 0;
    if (strcmp(word, "-") == 0) return;
    for (char *part = word, *next; part; part = next) {
        next = strchr(part, '+');
        if (next) *next++ = 0;
        char *star = strchr(part, '*');
        for (int times = star ? atoi(star + 1) : 1; times > 0; times--)
            if (*part == 'T') put_tree(b, atoi(part + 1));
            else put_hex(b, part);
    }
}

static uint32_t work[NETKAT_WORK_LEN(NETKAT_MAX_ALLOWANCE)];
static uint8_t out[NETKAT_CORE_MAX(NETKAT_MAX_ALLOWANCE)];
static uint32_t records[64];

/* Run packets. The lengths stand in a list with commas, which is `-` if it is empty. The record list is work memory. */
static netkat_answer run_packets(const struct bytes *core, size_t room, const struct bytes *packets, char *list) {
    uint32_t lengths[NETKAT_MAX_PACKETS + 1];
    size_t count = 0;
    for (char *at = list; isdigit((unsigned char)*at) && count <= NETKAT_MAX_PACKETS; at += *at == ',')
        lengths[count++] = (uint32_t)strtoul(at, &at, 10);
    return netkat_run_packets(core->at, core->len, work, room, packets->at, packets->len, lengths, count);
}

static netkat_answer call(char *words) {
    static struct bytes term, replacement, packets, a, b;
    char *w[9] = {"", "", "", "", "", "", "", "", ""};
    uint32_t n[9];
    int count = 0;
    for (char *word = strtok(words, " "); word && count < 9; word = strtok(NULL, " ")) w[count++] = word;
    for (int i = 0; i < 9; i++) n[i] = (uint32_t)strtoul(w[i], NULL, 10);
    if (strcmp(w[0], "subrange") == 0) return netkat_compute_subrange(n[1], n[2], n[3], n[4]);
    if (strcmp(w[0], "cost") == 0) {
        read_term(&a, w[6]);
        read_term(&b, w[8]);
        return netkat_cost(n[1], n[2], n[3], n[4], a.at, a.len, n[5], b.at, b.len, n[7]);
    }
    read_term(&term, w[1]);
    if (strcmp(w[0], "read") == 0) return netkat_read_core(term.at, term.len, records, n[2]);
    if (strcmp(w[0], "packets") == 0) {
        read_term(&packets, w[3]);
        return run_packets(&term, n[2], &packets, w[4]);
    }
    if (strcmp(w[0], "check") == 0) return netkat_check(term.at, term.len);
    if (strcmp(w[0], "fields") == 0) return netkat_num_fields(term.at, term.len);
    if (strcmp(w[0], "desugar") == 0) return netkat_desugar(term.at, term.len, n[2], work, n[3], out, n[4]);
    if (strcmp(w[0], "substitute") == 0) {
        read_term(&replacement, w[3]);
        return netkat_substitute(term.at, term.len, (uint16_t)n[2], replacement.at, replacement.len, out, n[4]);
    }
    WRONG("no such call: %s", w[0]);
    return (netkat_answer){0, 0, 0, 0};
}

/* Is the call, which may stand in backquotes, refused by the number at the place? */
static void check_call(char *words, uint32_t number, uint32_t place) {
    words += *words == '`';
    words[strcspn(words, "`")] = 0;
    memset(out, 0xa5, 64);
    memset(records, 0xa5, sizeof records);
    netkat_answer a = call(words);
    if (a.number != number || a.place != place || a.first || a.second)
        WRONG("the call of %u: %u %u %u %u, expected %u %u 0 0", number, a.number, a.place, a.first, a.second, number, place);
    for (int i = 0; i < 64; i++)
        if (out[i] != 0xa5 || records[i] != 0xa5a5a5a5) WRONG("the call of %u changed what it was lent", number);
}

/* The rows of a table of calls, with the number in the first cell, the call in one of the others and its place in the next, which is 0 if
 * the table has none. Each of the numbers has one row, and no other has. If the names stand there, they are in the second cell. */
static void calls(const char *page, const char *heading, int named, int at, const char *numbers) {
    char *text = section(page, heading), *cell[CELLS], seen[4 * 64] = "";
    while (next_row(&text, cell)) {
        uint32_t number = (uint32_t)strtoul(cell[0], NULL, 10);
        if (!isdigit((unsigned char)*cell[0])) continue;
        if (named) check_name(cell[1], number);
        check_call(cell[at], number, (uint32_t)strtoul(cell[at + 1], NULL, 10));
        snprintf(seen + strlen(seen), sizeof seen - strlen(seen), "%u ", number);
    }
    if (strcmp(seen, numbers) != 0) WRONG("%s has rows for %s", heading, seen);
}

static void refusals(const char *page) {
    calls(page, "## The table\n", 1, 4,
          "1 2 3 4 5 6 7 8 9 10 11 12 13 14 15 16 17 18 19 20 21 22 23 24 25 26 27 28 31 32 33 34 35 36 37 38 41 42 48 49 50 ");
    calls(page, "## Refusals of netkat_cost\n", 0, 2, "1 5 14 15 17 18 19 20 21 ");
    calls(page, "## Refusals of netkat_read_core\n", 0, 2, "1 2 3 4 5 8 10 25 ");
}

/* Does the library take a record of this kind with this map bit? In a match a number and a literal B depend on the pattern. */
static int takes(int kind, int bit) {
    for (uint8_t pattern = 0; pattern <= 3; pattern++) {
        uint8_t map = (uint8_t)(1 << bit | (kind != 0));
        uint8_t with_kind[] = {map, (uint8_t)kind, pattern}, without[] = {map};
        if (pattern && (kind < NETKAT_KIND_BIT_RANGE_MATCH || bit == 4)) break;
        if (pattern) with_kind[0] |= NETKAT_MAP_PATTERN;
        netkat_answer a = kind ? netkat_is_test_fragment(with_kind, pattern ? 3 : 2) : netkat_is_test_fragment(without, 1);
        if (a.number != NETKAT_REFUSAL_FOREIGN_FIELD) return 1;
    }
    return 0;
}

/* How many children the library asks for: with so many Zeros behind it the term is of good form. */
static int children(int kind) {
    uint8_t term[] = {1, (uint8_t)kind, 0, 0, 0, 0};
    if (kind == 0) return netkat_is_test_fragment(term + 2, 1).number == 0 ? 0 : -1;
    for (int n = 0; n <= 4; n++)
        if (netkat_is_test_fragment(term, 2 + (size_t)n).number == 0) return n;
    return -1;
}

static void format(const char *page) {
    char *text = section(page, "## A term is its records\n"), *cell[CELLS];
    int rows = 0;
    while (next_row(&text, cell)) {
        uint32_t value = 0;
        if (strncmp(cell[2], "`NETKAT_", 8) != 0) continue;
        for (char *c = cell[1]; *c; c++)
            if (isdigit((unsigned char)*c)) value = 10 * value + (uint32_t)(*c - '0');
        check_name(cell[2], value);
        rows++;
    }
    if (rows != 10) WRONG("%d limits", rows);

    rows = 0;
    text = section(page, "## Kinds\n");
    while (next_row(&text, cell)) {
        if (!isdigit((unsigned char)*cell[0])) continue;
        int number = atoi(cell[0]), bits = 0;
        char *name = strchr(cell[0], '`');
        if (name) {
            check_name(name, (uint32_t)number); /* a pattern */
            rows++;
            continue;
        }
        check_name(cell[1], (uint32_t)number);
        if (number != rows++) WRONG("kind %d is out of order", number);
        for (char *c = cell[2]; *c; c++)
            if (isdigit((unsigned char)*c)) bits |= 1 << (*c - '0');
        for (int bit = 1; bit < 8; bit++)
            if (takes(number, bit) != (bits >> bit & 1)) WRONG("kind %d, bit %d", number, bit);
        if (children(number) != atoi(cell[3])) WRONG("kind %d has %d children, not %s", number, children(number), cell[3]);
    }
    if (rows != 27 + 4) WRONG("%d kinds and patterns", rows);
}

/* The bytes of an example's rows, which stand where their first cell says. */
static void example_bytes(const char *page, const char *heading, struct bytes *b) {
    char *text = section(page, heading), *cell[CELLS];
    b->len = 0;
    while (next_row(&text, cell)) {
        if (!isdigit((unsigned char)*cell[0])) continue;
        if ((size_t)atoi(cell[0]) != b->len) WRONG("%s byte %s is byte %zu", heading, cell[0], b->len);
        put_hex(b, cell[1] + 1);
    }
}

static void example(const char *page) {
    static struct bytes term, core;
    size_t len;
    char *file = read_file("examples/prefix.term", &len);
    example_bytes(page, "### The term\n", &term);
    example_bytes(page, "### Its core\n", &core);
    if (term.len != len || memcmp(term.at, file, len) != 0) WRONG("the example is not examples/prefix.term");
    netkat_answer a = netkat_desugar(term.at, term.len, 15, work, NETKAT_WORK_LEN(15), out, sizeof out);
    if (a.number || a.first != core.len || a.second != 15 || memcmp(out, core.at, core.len) != 0)
        WRONG("the example's core is another one");
}

static void code(char *page) {
    size_t len;
    int blocks = 0;
    char *program = read_file("examples/c/desugar.c", &len), *at = page;
    while ((at = strstr(at, "```c\n"))) {
        char *end = strstr(at += 5, "```");
        if (!end) break;
        *end = 0;
        blocks++;
        if (!strstr(program, at)) WRONG("this code is not in examples/c/desugar.c:\n%s", at);
        at = end + 3;
    }
    if (blocks != 8) WRONG("%d pieces of code", blocks);
}

int main(void) {
    size_t len;
    char *page = read_file("docs/FORMAT.md", &len);
    refusals(read_file("docs/REFUSALS.md", &len));
    format(page);
    example(page);
    code(page);
    if (!failed) puts("docs/REFUSALS.md and docs/FORMAT.md: as the library");
    return failed;
}
