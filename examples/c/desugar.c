/* An access rule as term bytes, its check, its core, read back from its bytes, what a refusal looks like, a label stack as a literal, what
 * a range of ports will cost, and which packets have a port in it. Needs nothing but an installed libnetkat:
 *
 *   cc desugar.c $(pkg-config --cflags --libs netkat) -o desugar && ./desugar
 *
 * The rule: guest segments (8 to 15) do not reach storage (service 3), all else is let through. A packet has its segment in the fields
 * 0 to 3, its service in the fields 4 to 7, lowest bit first, and field 8 says that it is let through:
 *
 *   let segment = [0, 4) in
 *   let service = [4, 8) in
 *   if not (segment matches 8/4 prefix 1 and service == 3) then field 8 := 1 else Zero */
#include <inttypes.h>
#include <netkat.h>
#include <stdio.h>
#include <stdlib.h>

enum { SEGMENT = 1, SERVICE = 2, WORDS = 6, ALLOWANCE = 1000 };

struct literal {
    unsigned bits;                                /* 0 to 192 */
    uint32_t words[NETKAT_MAX_LITERAL_BITS / 32]; /* the value, its lowest 32 bits first */
};

struct record {
    uint8_t kind;
    uint16_t name;
    uint32_t start, end;
    uint8_t pattern, number;
    struct literal a, b;
};

struct term {
    uint8_t bytes[NETKAT_TERM_MAX];
    size_t len;
};

/* The lowest bytes of a number, lowest first. */
static void put(struct term *t, uint64_t value, int bytes) {
    for (; bytes > 0; bytes--, value >>= 8) {
        if (t->len == sizeof t->bytes) abort(); /* no term is longer */
        t->bytes[t->len++] = (uint8_t)value;
    }
}

/* A literal: its length in bits, then its bits, lowest first; what is left of the last byte is zero. */
static void put_literal(struct term *t, struct literal l) {
    put(t, l.bits, 1);
    for (unsigned at = 0; at < l.bits; at += 8) {
        uint32_t byte = l.words[at / 32] >> at % 32;
        if (l.bits - at < 8) byte &= (1u << (l.bits - at)) - 1;
        put(t, byte, 1);
    }
}

/* A record: the map, then each field that is not zero or empty. Children follow as records of their own. */
static void put_record(struct term *t, struct record r) {
    unsigned map = 0;
    if (r.kind) map |= NETKAT_MAP_KIND;
    if (r.name) map |= NETKAT_MAP_NAME;
    if (r.start) map |= NETKAT_MAP_START;
    if (r.end) map |= NETKAT_MAP_END;
    if (r.pattern) map |= NETKAT_MAP_PATTERN;
    if (r.number) map |= NETKAT_MAP_NUMBER;
    if (r.a.bits) map |= NETKAT_MAP_A;
    if (r.b.bits) map |= NETKAT_MAP_B;
    put(t, map, 1);
    if (r.kind) put(t, r.kind, 1);
    if (r.name) put(t, r.name, 2);
    if (r.start) put(t, r.start, 4);
    if (r.end) put(t, r.end, 4);
    if (r.pattern) put(t, r.pattern, 1);
    if (r.number) put(t, r.number, 1);
    if (r.a.bits) put_literal(t, r.a);
    if (r.b.bits) put_literal(t, r.b);
}

/* The rule with a service that has so many bits. The records in written order: a parent, then its children from left to right. */
static void put_rule(struct term *t, unsigned service, unsigned bits) {
    t->len = 0;
    put_record(t, (struct record){.kind = NETKAT_KIND_LET_BIT_RANGE, .name = SEGMENT, .start = 0, .end = 4});
    put_record(t, (struct record){.kind = NETKAT_KIND_LET_BIT_RANGE, .name = SERVICE, .start = 4, .end = 8});
    put_record(t, (struct record){.kind = NETKAT_KIND_IF_THEN_ELSE});
    put_record(t, (struct record){.kind = NETKAT_KIND_TEST_NEGATION});
    put_record(t, (struct record){.kind = NETKAT_KIND_INTERSECT});
    struct record guest = {.kind = NETKAT_KIND_VAR_MATCH, .name = SEGMENT, .pattern = NETKAT_PATTERN_CIDR, .number = 1, .a = {4, {8}}};
    put_record(t, guest);
    put_record(t, (struct record){.kind = NETKAT_KIND_VAR_TEST, .name = SERVICE, .a = {bits, {service}}});
    put_record(t, (struct record){.kind = NETKAT_KIND_ASSIGN, .start = 8, .number = 1});
    put_record(t, (struct record){.kind = NETKAT_KIND_ZERO});
}

/* A match on the fields 0 to 191 with the first words of a label stack, as many as `count` says. A prefix is of the highest fields, so the
 * first word of the stack lies there: it is the last of the literal's words. */
static void put_labels(struct term *t, const uint32_t stack[WORDS], unsigned count) {
    struct record first = {.kind = NETKAT_KIND_BIT_RANGE_MATCH, .end = 32 * WORDS, .pattern = NETKAT_PATTERN_CIDR};
    first.number = (uint8_t)(32 * count);
    first.a.bits = 32 * WORDS;
    for (unsigned i = 0; i < WORDS; i++) first.a.words[WORDS - 1 - i] = stack[i];
    t->len = 0;
    put_record(t, first);
}

static const char *const kinds[] = {"Zero",      "One", "Top",        "Dup",      "End",      "Assign",     "Test", "Union",
                                    "Intersect", "Xor", "Difference", "Sequence", "LtlUntil", "Complement", "Star", "LtlNext"};

#define NAME(name) [NETKAT_REFUSAL_##name] = "NETKAT_REFUSAL_" #name
/* clang-format off */
static const char *const refusals[] = {
    NAME(ENDS_EARLY), NAME(UNKNOWN_KIND), NAME(FOREIGN_FIELD), NAME(ZERO_WRITTEN), NAME(OUT_OF_RANGE), NAME(TOO_MANY_RECORDS),
    NAME(TOO_DEEP), NAME(LEFT_OVER), NAME(ALLOWANCE), NAME(WORK_MEMORY), NAME(UNKNOWN_ALIAS), NAME(UNBOUND_VARIABLE),
    NAME(ALIAS_AS_VARIABLE), NAME(RANGE_END_BELOW_START), NAME(LITERAL_TOO_LONG), NAME(LITERAL_WIDTH), NAME(CIDR_PREFIX),
    NAME(CIDR_ADDRESS), NAME(WILDCARD_WIDTH), NAME(IP_RANGE_WIDTH), NAME(IP_RANGE_ORDER), NAME(NEGATED_NON_TEST),
    NAME(CONDITION_NOT_TEST), NAME(ALLOWANCE_SPENT), NAME(FIELD_COUNT), NAME(BUFFER_TOO_SHORT), NAME(RESULT_TOO_LARGE),
    NAME(SUBRANGE_OUTSIDE), NAME(REPLACEMENT_ENDS_EARLY), NAME(REPLACEMENT_UNKNOWN_KIND), NAME(REPLACEMENT_FOREIGN_FIELD),
    NAME(REPLACEMENT_ZERO_WRITTEN), NAME(REPLACEMENT_OUT_OF_RANGE), NAME(REPLACEMENT_TOO_MANY_RECORDS), NAME(REPLACEMENT_TOO_DEEP),
    NAME(REPLACEMENT_LEFT_OVER), NAME(TERM_KIND), NAME(CORE_TOO_LARGE), NAME(CORE_NOT_TEST), NAME(PACKET_COUNT), NAME(PACKET_TOO_SHORT)
};
/* clang-format on */

static int refused(netkat_answer a) {
    if (a.number == NETKAT_OK) return 0;
    const char *name = a.number < sizeof refusals / sizeof *refusals ? refusals[a.number] : NULL;
    const char *what = a.number == NETKAT_REFUSAL_PACKET_TOO_SHORT ? "packet" : "record";
    printf("  refused by %u, %s, at %s %u\n", a.number, name ? name : "a number that this program does not know", what, a.place);
    return 1;
}

/* Reads a core back and prints it, a record in each line, indented by its level. A core may be as deep as it has records: a loop with a
 * list of its own. */
static void print_core(const uint8_t *core, size_t len) {
    static uint32_t records[NETKAT_RECORDS_LEN(ALLOWANCE)]; /* no core has more records than the allowance that it was made under */
    static uint8_t to_come[ALLOWANCE];                      /* for each record that is open, how many of its children are still to come */
    size_t open = 0;

    netkat_answer read = netkat_read_core(core, len, records, NETKAT_RECORDS_LEN(ALLOWANCE));
    if (refused(read)) return;
    printf("  read back, %u records over %u fields:\n", read.first, read.second);
    for (const uint32_t *r = records; r < records + NETKAT_RECORDS_LEN(read.first); r += 3) {
        uint32_t kind = r[0], field = r[1], value = r[2];
        printf("%*s%s", (int)(4 + 2 * open), "", kinds[kind]);
        if (kind == NETKAT_KIND_TEST) printf(" %u == %u", field, value);
        if (kind == NETKAT_KIND_ASSIGN) printf(" %u := %u", field, value);
        putchar('\n');

        if (kind >= NETKAT_KIND_UNION) to_come[open++] = kind <= NETKAT_KIND_LTL_UNTIL ? 2 : 1;
        else
            while (open > 0 && --to_come[open - 1] == 0) open--;
    }
}

/* Checks the term, and desugars it if its rules hold. */
static void show(const struct term *t) {
    static uint32_t work[NETKAT_WORK_LEN(ALLOWANCE)];
    static uint8_t core[NETKAT_CORE_MAX(ALLOWANCE)];

    printf("  term of %zu bytes:", t->len);
    for (size_t i = 0; i < t->len; i++) printf(" %02x", t->bytes[i]);
    putchar('\n');

    netkat_answer checked = netkat_check(t->bytes, t->len);
    if (refused(checked)) return;
    printf("  the rules hold, and it is %s\n", checked.first ? "a test" : "no test");

    netkat_answer made = netkat_desugar(t->bytes, t->len, ALLOWANCE, work, NETKAT_WORK_LEN(ALLOWANCE), core, sizeof core);
    if (refused(made)) return;
    printf("  core of %u bytes, %u nodes drawn of %d\n", made.first, made.second, ALLOWANCE);
    print_core(core, made.first);
}

/* What a match on 16 fields with the ports from one to another will draw. */
static void show_cost(uint16_t from, uint16_t to) {
    const uint8_t a[] = {from & 255, from >> 8}, b[] = {to & 255, to >> 8};
    netkat_answer cost = netkat_cost(0, 16, NETKAT_PATTERN_IP_RANGE, 0, a, sizeof a, 16, b, sizeof b, 16);
    if (refused(cost)) return;
    printf("  a match draws %" PRIu64 " nodes\n", NETKAT_COST(cost));
}

/* Prints which packets pass the core, which is that of a test. A packet has its port in the fields 0 to 15: two bytes, the lower one
 * first. */
static void run_packets(const uint8_t *core, size_t len, const uint16_t *ports, size_t count) {
    static uint32_t records[NETKAT_RECORDS_LEN(ALLOWANCE)]; /* as for netkat_read_core; what it holds after the call means nothing */
    uint8_t packets[2 * NETKAT_MAX_PACKETS];
    uint32_t lengths[NETKAT_MAX_PACKETS];
    for (size_t i = 0; i < count; i++) {
        packets[2 * i] = ports[i] & 255;
        packets[2 * i + 1] = ports[i] >> 8;
        lengths[i] = 2;
    }

    netkat_answer run = netkat_run_packets(core, len, records, NETKAT_RECORDS_LEN(ALLOWANCE), packets, 2 * count, lengths, count);
    if (refused(run)) return;
    for (size_t i = 0; i < count; i++) printf("  port %u %s\n", ports[i], NETKAT_PASSED(run) >> i & 1 ? "passes" : "does not pass");
}

/* Packets that are run through a match with the ports from one to another. */
static void show_packets(uint16_t from, uint16_t to) {
    static struct term term;
    static uint32_t work[NETKAT_WORK_LEN(ALLOWANCE)];
    static uint8_t core[NETKAT_CORE_MAX(ALLOWANCE)];
    const uint16_t ports[] = {443, 1024, 8080, 50000};
    struct record match = {.kind = NETKAT_KIND_BIT_RANGE_MATCH, .end = 16, .pattern = NETKAT_PATTERN_IP_RANGE};
    match.a = (struct literal){16, {from}};
    match.b = (struct literal){16, {to}};
    term.len = 0;
    put_record(&term, match);

    netkat_answer made = netkat_desugar(term.bytes, term.len, ALLOWANCE, work, NETKAT_WORK_LEN(ALLOWANCE), core, sizeof core);
    if (!refused(made)) run_packets(core, made.first, ports, sizeof ports / sizeof *ports);
}

int main(void) {
    static struct term term;
    puts("guests do not reach service 3:");
    put_rule(&term, 3, 4);
    show(&term);
    puts("guests do not reach service 19, which does not fit in 4 bits:");
    put_rule(&term, 19, 5);
    show(&term);
    puts("a label stack that begins with these three words:");
    put_labels(&term, (const uint32_t[WORDS]){0x10040, 0x11040, 0x12040}, 3);
    netkat_answer checked = netkat_check(term.bytes, term.len);
    if (!refused(checked)) printf("  term of %zu bytes: the rules hold\n", term.len);
    puts("the ports from 1024 to 49151, before a rule is written with them:");
    show_cost(1024, 49151);
    puts("and four packets, which are run through that match together:");
    show_packets(1024, 49151);
    return 0;
}
