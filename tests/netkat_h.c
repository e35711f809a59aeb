/* Calls each function of include/netkat.h with answers and with refusals, with NULL of length 0 for each pointer, and at the limits that
 * the header names. Prints what differs; exits 1 if something does. */
#include "../include/netkat.h"
#include <stdio.h>
#include <string.h>

static int failed = 0;

static void expect(const char *what, netkat_answer a, uint32_t number, uint32_t place, uint32_t first, uint32_t second) {
    if (a.number == number && a.place == place && a.first == first && a.second == second) return;
    printf("%s: %u %u %u %u, expected %u %u %u %u\n", what, a.number, a.place, a.first, a.second, number, place, first, second);
    failed = 1;
}

static void same(const char *what, const uint8_t *got, const uint8_t *want, size_t n) {
    if (memcmp(got, want, n) == 0) return;
    printf("%s: other bytes\n", what);
    failed = 1;
}

/* NULL is lent for each pointer in turn, and for all of them at once. */
static void nulls(void) {
    static uint32_t work[NETKAT_WORK_LEN(1000)];
    const uint8_t zero[] = {0}, var[] = {1, NETKAT_KIND_VAR};
    uint8_t out[64];
    const size_t n = NETKAT_WORK_LEN(1000);

    expect("check, NULL", netkat_check(NULL, 0), NETKAT_REFUSAL_ENDS_EARLY, 0, 0, 0);
    expect("fragment, NULL", netkat_is_test_fragment(NULL, 0), NETKAT_REFUSAL_ENDS_EARLY, 0, 0, 0);
    expect("fields, NULL", netkat_num_fields(NULL, 0), NETKAT_REFUSAL_ENDS_EARLY, 0, 0, 0);

    expect("desugar, NULL term", netkat_desugar(NULL, 0, 1000, work, n, out, sizeof out), NETKAT_REFUSAL_ENDS_EARLY, 0, 0, 0);
    expect("desugar, NULL work", netkat_desugar(zero, 1, 1000, NULL, 0, out, sizeof out), NETKAT_REFUSAL_WORK_MEMORY, 0, 0, 0);
    expect("desugar, NULL out", netkat_desugar(zero, 1, 1000, work, n, NULL, 0), NETKAT_REFUSAL_BUFFER_TOO_SHORT, 0, 0, 0);
    expect("desugar, NULL out and a rule", netkat_desugar(var, 2, 1000, work, n, NULL, 0), NETKAT_REFUSAL_UNBOUND_VARIABLE, 0, 0, 0);
    expect("desugar, NULL alone", netkat_desugar(NULL, 0, 1000, NULL, 0, NULL, 0), NETKAT_REFUSAL_WORK_MEMORY, 0, 0, 0);
    expect("desugar, NULL and no allowance", netkat_desugar(NULL, 0, 0, NULL, 0, NULL, 0), NETKAT_REFUSAL_ALLOWANCE, 0, 0, 0);

    expect("substitute, NULL term", netkat_substitute(NULL, 0, 0, zero, 1, out, sizeof out), NETKAT_REFUSAL_ENDS_EARLY, 0, 0, 0);
    expect("substitute, NULL replacement", netkat_substitute(var, 2, 0, NULL, 0, out, 64), NETKAT_REFUSAL_REPLACEMENT_ENDS_EARLY, 0, 0, 0);
    expect("substitute, NULL out", netkat_substitute(var, 2, 0, zero, 1, NULL, 0), NETKAT_REFUSAL_BUFFER_TOO_SHORT, 0, 0, 0);
    expect("substitute, NULL out, no variable", netkat_substitute(zero, 1, 0, zero, 1, NULL, 0), NETKAT_REFUSAL_BUFFER_TOO_SHORT, 0, 0, 0);
    expect("substitute, NULL alone", netkat_substitute(NULL, 0, 0, NULL, 0, NULL, 0), NETKAT_REFUSAL_ENDS_EARLY, 0, 0, 0);

    expect("cost, NULL a", netkat_cost(0, 1, NETKAT_PATTERN_IP_RANGE, 0, NULL, 0, 0, zero, 1, 1), 0, 0, 1, 0);
    expect("cost, NULL b", netkat_cost(0, 1, NETKAT_PATTERN_IP_RANGE, 0, zero, 1, 1, NULL, 0, 0), 0, 0, 1, 0);
    expect("cost, NULL alone", netkat_cost(0, 4, NETKAT_PATTERN_IP_RANGE, 0, NULL, 0, 0, NULL, 0, 0), 0, 0, 7, 0);
    expect("cost, NULL a, bit", netkat_cost(0, 1, NETKAT_PATTERN_EXACT, 0, NULL, 0, 1, zero, 1, 1), NETKAT_REFUSAL_ENDS_EARLY, 0, 0, 0);
    expect("cost, NULL b, bit", netkat_cost(0, 1, NETKAT_PATTERN_WILDCARD, 0, zero, 1, 1, NULL, 0, 1), NETKAT_REFUSAL_ENDS_EARLY, 0, 0, 0);

    expect("read core, NULL core", netkat_read_core(NULL, 0, work, 3), NETKAT_REFUSAL_ENDS_EARLY, 0, 0, 0);
    expect("read core, NULL records", netkat_read_core(zero, 1, NULL, 0), NETKAT_REFUSAL_WORK_MEMORY, 0, 0, 0);
    expect("read core, NULL records and a kind", netkat_read_core(var, 2, NULL, 0), NETKAT_REFUSAL_TERM_KIND, 0, 0, 0);
    expect("read core, NULL alone", netkat_read_core(NULL, 0, NULL, 0), NETKAT_REFUSAL_ENDS_EARLY, 0, 0, 0);

    const uint8_t one[] = {1, NETKAT_KIND_ONE}, test[] = {1, NETKAT_KIND_TEST};
    const uint32_t none[] = {0}, eight[] = {8};
    expect("run, NULL core", netkat_run_packets(NULL, 0, work, 3, out, 1, eight, 1), NETKAT_REFUSAL_ENDS_EARLY, 0, 0, 0);
    expect("run, NULL records", netkat_run_packets(one, 2, NULL, 0, out, 1, eight, 1), NETKAT_REFUSAL_WORK_MEMORY, 0, 0, 0);
    expect("run, NULL packets", netkat_run_packets(one, 2, work, 3, NULL, 0, none, 1), 0, 0, 1, 0);
    expect("run, NULL packets, field", netkat_run_packets(test, 2, work, 3, NULL, 0, eight, 1), NETKAT_REFUSAL_PACKET_TOO_SHORT, 0, 0, 0);
    expect("run, NULL lengths", netkat_run_packets(one, 2, work, 3, out, 1, NULL, 0), NETKAT_REFUSAL_PACKET_COUNT, 0, 0, 0);
    expect("run, NULL alone", netkat_run_packets(NULL, 0, NULL, 0, NULL, 0, NULL, 0), NETKAT_REFUSAL_ENDS_EARLY, 0, 0, 0);
}

/* `levels` levels of Ifs above matches of NETKAT_RECORD_MAX bytes, to at; the end. */
static uint8_t *ifs(uint8_t *at, int levels) {
    if (levels == 0) {
        const uint8_t head[] = {0xdd, NETKAT_KIND_BIT_RANGE_MATCH, 1, 1, 1, 1, 129, 1, 1, 1, NETKAT_PATTERN_IP_RANGE};
        memcpy(at, head, sizeof head);
        at += sizeof head;
        for (int i = 0; i < 2; i++) {
            *at = NETKAT_MAX_LITERAL_BITS;
            memset(at + 1, 0x80, NETKAT_MAX_LITERAL_BITS / 8);
            at += 1 + NETKAT_MAX_LITERAL_BITS / 8;
        }
        return at;
    }
    *at++ = NETKAT_MAP_KIND, *at++ = NETKAT_KIND_IF_THEN_ELSE;
    for (int i = 0; i < 3; i++) at = ifs(at, levels - 1);
    return at;
}

static uint8_t core_out[NETKAT_CORE_MAX(NETKAT_MAX_ALLOWANCE)];

/* Desugar with just so much work memory and room. */
static netkat_answer desugar(const uint8_t *term, size_t len, uint32_t allowance, size_t work_len, size_t out_len) {
    static uint32_t work[NETKAT_WORK_LEN(NETKAT_MAX_ALLOWANCE)];
    return netkat_desugar(term, len, allowance, work, work_len, core_out, out_len);
}

/* [0, 32768) := 0, which draws the greatest allowance */
static const uint8_t wide[] = {0x0b, NETKAT_KIND_LET_BIT_RANGE, 1, 0, 0, 0x80, 0, 0, 3, NETKAT_KIND_VAR_ASSIGN, 1, 0};

/* Check of a match on the fields from 0 up to `width`, with a literal of `bits` bits, all of them 1, in the place of A and, if it is to
 * stand, of B. */
static netkat_answer check_match(uint8_t width, uint8_t pattern, uint8_t bits, int second) {
    uint8_t term[NETKAT_RECORD_MAX + 2] = {NETKAT_MAP_KIND | NETKAT_MAP_END | NETKAT_MAP_A, NETKAT_KIND_BIT_RANGE_MATCH, width}, *at = term + 6;
    if (second) term[0] |= NETKAT_MAP_B;
    if (pattern) term[0] |= NETKAT_MAP_PATTERN, *at++ = pattern;
    for (int i = 0; i <= second; i++) {
        *at++ = bits;
        for (unsigned left = bits; left > 0; left -= left < 8 ? left : 8) *at++ = (uint8_t)(left < 8 ? (1u << left) - 1 : 255);
    }
    return netkat_check(term, (size_t)(at - term));
}

/* Literals of up to NETKAT_MAX_LITERAL_BITS bits, and range patterns on up to NETKAT_MAX_RANGE_PATTERN_FIELDS fields. */
static void literal_limits(void) {
    const uint8_t most = NETKAT_MAX_LITERAL_BITS, range = NETKAT_MAX_RANGE_PATTERN_FIELDS;
    expect("longest literal", check_match(most, NETKAT_PATTERN_EXACT, most, 0), 0, 0, 1, 0);
    expect("longer literal", check_match(most + 1, NETKAT_PATTERN_EXACT, most + 1, 0), NETKAT_REFUSAL_OUT_OF_RANGE, 0, 0, 0);
    expect("literal longer than the range", check_match(most - 1, NETKAT_PATTERN_EXACT, most, 0), NETKAT_REFUSAL_LITERAL_TOO_LONG, 0, 0, 0);
    expect("longest wildcard", check_match(most, NETKAT_PATTERN_WILDCARD, most, 1), 0, 0, 1, 0);
    expect("widest range pattern", check_match(range, NETKAT_PATTERN_IP_RANGE, range, 1), 0, 0, 1, 0);
    expect("wider range pattern", check_match(range + 1, NETKAT_PATTERN_IP_RANGE, range, 1), NETKAT_REFUSAL_IP_RANGE_WIDTH, 0, 0, 0);
    expect("bounds longer than the range", check_match(range, NETKAT_PATTERN_IP_RANGE, range + 1, 1), NETKAT_REFUSAL_IP_RANGE_WIDTH, 0, 0, 0);
}

/* A literal that is lent to Cost: its bytes, how many they are, and its length in bits. */
struct lent {
    const char *bytes;
    size_t len;
    uint32_t bits;
};

#define LENT(bytes, bits)                                                                                                                  \
    { bytes, sizeof bytes - 1, bits }
#define NONE LENT("", 0)
#define ZEROS "\0\0\0\0\0\0\0\0\0\0\0\0\0\0\0"
#define ONES "\xff\xff\xff\xff\xff\xff\xff\xff\xff\xff\xff\xff\xff\xff\xff"

/* Calls of Cost, with the cost, or 0 and the refusal. */
static const struct {
    const char *what;
    uint32_t start, end, pattern, number;
    struct lent a, b;
    uint64_t cost;
    uint32_t refusal;
} costs[] = {
    {"Exact", 0, 4, NETKAT_PATTERN_EXACT, 0, LENT("\x05", 3), NONE, 7, 0},
    {"Exact, no field", 3, 3, NETKAT_PATTERN_EXACT, 0, NONE, NONE, 1, 0},
    {"Exact, every field", 0, UINT32_MAX, NETKAT_PATTERN_EXACT, 0, LENT("\x05", 3), NONE, 8589934589u, 0},
    {"Exact, as many as 32 bits count", 0, 0x80000000, NETKAT_PATTERN_EXACT, 0, NONE, NONE, UINT32_MAX, 0},
    {"Exact, one more", 0, 0x80000001, NETKAT_PATTERN_EXACT, 0, NONE, NONE, 0x100000001u, 0},
    {"Cidr", 0, 8, NETKAT_PATTERN_CIDR, 3, LENT("\xa0", 8), NONE, 5, 0},
    {"Cidr, prefix 0", 0, 8, NETKAT_PATTERN_CIDR, 0, LENT("\xa0", 8), NONE, 1, 0},
    {"Wildcard", 4, 8, NETKAT_PATTERN_WILDCARD, 0, LENT("\x05", 4), LENT("\x0a", 4), 3, 0},
    {"Wildcard, any value", 4, 8, NETKAT_PATTERN_WILDCARD, 0, LENT("\x05", 4), LENT("\x0f", 4), 1, 0},
    {"IpRange", 0, 2, NETKAT_PATTERN_IP_RANGE, 0, LENT("\x01", 2), LENT("\x02", 2), 11, 0},
    {"IpRange, equal bounds", 0, 2, NETKAT_PATTERN_IP_RANGE, 0, LENT("\x02", 2), LENT("\x02", 2), 3, 0},
    {"IpRange, equal bounds of other lengths", 0, 4, NETKAT_PATTERN_IP_RANGE, 0, LENT("\x02", 2), LENT("\x02", 4), 7, 0},
    {"IpRange, all values", 0, 2, NETKAT_PATTERN_IP_RANGE, 0, NONE, LENT("\x03", 2), 1, 0},
    {"IpRange, an upper bound", 0, 3, NETKAT_PATTERN_IP_RANGE, 0, NONE, LENT("\x05", 3), 5 + 2 + 6, 0},
    {"IpRange, a lower bound", 0, 3, NETKAT_PATTERN_IP_RANGE, 0, LENT("\x01", 1), LENT("\x07", 3), 5 + 2 + 4, 0},
    {"the most", 0, 128, NETKAT_PATTERN_IP_RANGE, 0, LENT(ZEROS "\x80", 128), LENT(ONES "\xbf", 128), NETKAT_MAX_RANGE_PATTERN_COST, 0},
    {"longest Exact", 0, 192, NETKAT_PATTERN_EXACT, 0, LENT(ONES ONES, 192), NONE, 383, 0},
    {"longest Cidr", 7, 199, NETKAT_PATTERN_CIDR, 192, LENT(ONES ONES, 192), NONE, 383, 0},
    {"longest Wildcard", 7, 199, NETKAT_PATTERN_WILDCARD, 0, LENT(ONES ONES, 192), LENT(ZEROS ZEROS, 192), 383, 0},

    {"the number of an Exact", 0, 4, NETKAT_PATTERN_EXACT, UINT32_MAX, LENT("\x05", 3), NONE, 7, 0},
    {"the number of a Wildcard", 0, 4, NETKAT_PATTERN_WILDCARD, UINT32_MAX, LENT("\x05", 4), LENT("\x0a", 4), 3, 0},
    {"the number of an IpRange", 0, 2, NETKAT_PATTERN_IP_RANGE, UINT32_MAX, LENT("\x01", 2), LENT("\x02", 2), 11, 0},
    {"literal B of an Exact, too long", 0, 4, NETKAT_PATTERN_EXACT, 0, LENT("\x05", 3), LENT("", 193), 7, 0},
    {"literal B of a Cidr, bytes lacking", 0, 8, NETKAT_PATTERN_CIDR, 3, LENT("\xa0", 8), LENT("", UINT32_MAX), 5, 0},
    {"spare bits and further bytes", 0, 2, NETKAT_PATTERN_IP_RANGE, 0, LENT("\xfd\xff", 2), LENT("\xfe" ONES ONES, 2), 11, 0},
    {"spare bits of a mask", 0, 4, NETKAT_PATTERN_WILDCARD, 0, LENT("\xff", 4), LENT("\xfa", 4), 3, 0},

    {"pattern 4", 0, 4, 4, 0, NONE, NONE, 0, NETKAT_REFUSAL_OUT_OF_RANGE},
    {"greatest pattern, before all else", 4, 3, UINT32_MAX, 9, LENT("", 8), LENT("", 8), 0, NETKAT_REFUSAL_OUT_OF_RANGE},
    {"A of 193 bits", 0, 200, NETKAT_PATTERN_EXACT, 0, LENT(ZEROS ZEROS, 193), NONE, 0, NETKAT_REFUSAL_OUT_OF_RANGE},
    {"A too long, before bytes lacking", 4, 3, NETKAT_PATTERN_CIDR, 0, LENT("", UINT32_MAX), NONE, 0, NETKAT_REFUSAL_OUT_OF_RANGE},
    {"A too long, before B", 4, 3, NETKAT_PATTERN_WILDCARD, 0, LENT("", 193), LENT("", 1), 0, NETKAT_REFUSAL_OUT_OF_RANGE},
    {"A lacks a byte", 0, 9, NETKAT_PATTERN_EXACT, 0, LENT("\x01", 9), NONE, 0, NETKAT_REFUSAL_ENDS_EARLY},
    {"A lacks a byte of 192 bits", 0, 192, NETKAT_PATTERN_CIDR, 0, LENT(ZEROS "\0\0\0\0\0\0\0\0", 192), NONE, 0, NETKAT_REFUSAL_ENDS_EARLY},
    {"A lacks bytes, before B", 4, 3, NETKAT_PATTERN_IP_RANGE, 0, LENT("", 8), LENT("", 193), 0, NETKAT_REFUSAL_ENDS_EARLY},
    {"B of 193 bits", 0, 192, NETKAT_PATTERN_WILDCARD, 0, LENT(ZEROS ZEROS, 192), LENT(ZEROS ZEROS, 193), 0, NETKAT_REFUSAL_OUT_OF_RANGE},
    {"B too long, before bytes lacking", 4, 3, NETKAT_PATTERN_IP_RANGE, 0, NONE, LENT("", 193), 0, NETKAT_REFUSAL_OUT_OF_RANGE},
    {"B lacks bytes, before the range", 4, 3, NETKAT_PATTERN_WILDCARD, 0, NONE, LENT("", 192), 0, NETKAT_REFUSAL_ENDS_EARLY},
    {"end below start, Exact", 4, 3, NETKAT_PATTERN_EXACT, 0, LENT("\x05", 5), NONE, 0, NETKAT_REFUSAL_RANGE_END_BELOW_START},
    {"end below start, Cidr", 4, 3, NETKAT_PATTERN_CIDR, 9, LENT("\x05", 5), NONE, 0, NETKAT_REFUSAL_RANGE_END_BELOW_START},
    {"end below start, Wildcard", 4, 3, NETKAT_PATTERN_WILDCARD, 0, LENT("\x05", 5), NONE, 0, NETKAT_REFUSAL_RANGE_END_BELOW_START},
    {"end below start, IpRange", UINT32_MAX, 0, NETKAT_PATTERN_IP_RANGE, 0, LENT("\x05", 5), NONE, 0, NETKAT_REFUSAL_RANGE_END_BELOW_START},
    {"Exact longer than the range", 0, 4, NETKAT_PATTERN_EXACT, 0, LENT("\x05", 5), NONE, 0, NETKAT_REFUSAL_LITERAL_TOO_LONG},
    {"prefix above the width", 0, 8, NETKAT_PATTERN_CIDR, 9, LENT("\x05", 8), NONE, 0, NETKAT_REFUSAL_CIDR_PREFIX},
    {"prefix above the width, address too", 0, 8, NETKAT_PATTERN_CIDR, UINT32_MAX, LENT("\x05", 7), NONE, 0, NETKAT_REFUSAL_CIDR_PREFIX},
    {"prefix beyond a byte", 0, 256, NETKAT_PATTERN_CIDR, 257, LENT("\x05", 8), NONE, 0, NETKAT_REFUSAL_CIDR_PREFIX},
    {"prefix beyond a byte within the width", 0, 256, NETKAT_PATTERN_CIDR, 256, LENT("\x05", 8), NONE, 0, NETKAT_REFUSAL_CIDR_ADDRESS},
    {"address shorter than the range", 0, 8, NETKAT_PATTERN_CIDR, 0, LENT("\x05", 7), NONE, 0, NETKAT_REFUSAL_CIDR_ADDRESS},
    {"address longer than the range", 0, 7, NETKAT_PATTERN_CIDR, 7, LENT("\x05", 8), NONE, 0, NETKAT_REFUSAL_CIDR_ADDRESS},
    {"Wildcard, address", 0, 4, NETKAT_PATTERN_WILDCARD, 0, LENT("\x05", 3), LENT("\x05", 4), 0, NETKAT_REFUSAL_WILDCARD_WIDTH},
    {"Wildcard, mask", 0, 4, NETKAT_PATTERN_WILDCARD, 0, LENT("\x05", 4), LENT("\x05", 5), 0, NETKAT_REFUSAL_WILDCARD_WIDTH},
    {"IpRange on 129 fields", 0, 129, NETKAT_PATTERN_IP_RANGE, 0, LENT("\x01", 1), NONE, 0, NETKAT_REFUSAL_IP_RANGE_WIDTH},
    {"A too long, before the order", 0, 4, NETKAT_PATTERN_IP_RANGE, 0, LENT("\x09", 5), LENT("\x01", 4), 0, NETKAT_REFUSAL_IP_RANGE_WIDTH},
    {"B longer than the range", 0, 4, NETKAT_PATTERN_IP_RANGE, 0, LENT("\x01", 4), LENT("\x09", 5), 0, NETKAT_REFUSAL_IP_RANGE_WIDTH},
    {"bounds out of order", 0, 4, NETKAT_PATTERN_IP_RANGE, 0, LENT("\x09", 4), LENT("\x08", 4), 0, NETKAT_REFUSAL_IP_RANGE_ORDER},
    {"bounds out of order, B short", 0, 4, NETKAT_PATTERN_IP_RANGE, 0, LENT("\x04", 4), LENT("\x03", 2), 0, NETKAT_REFUSAL_IP_RANGE_ORDER},
};

static netkat_answer cost_of(uint32_t start, uint32_t end, uint32_t pattern, uint32_t number, struct lent a, struct lent b) {
    return netkat_cost(start, end, pattern, number, (const uint8_t *)a.bytes, a.len, a.bits, (const uint8_t *)b.bytes, b.len, b.bits);
}

/* A match on the fields from 0 up to width, with literals of at most 8 bits, as a term and as parts: Cost answers what Desugar draws, or
 * refuses as Desugar does. */
static void as_drawn(uint8_t width, uint8_t pattern, uint8_t number, uint8_t a, uint8_t a_bits, uint8_t b, uint8_t b_bits) {
    uint8_t term[16] = {NETKAT_MAP_KIND, NETKAT_KIND_BIT_RANGE_MATCH}, *at = term + 2;
    if (width) term[0] |= NETKAT_MAP_END, *at = width, at += 4;
    if (pattern) term[0] |= NETKAT_MAP_PATTERN, *at++ = pattern;
    if (number) term[0] |= NETKAT_MAP_NUMBER, *at++ = number;
    if (a_bits) term[0] |= NETKAT_MAP_A, *at++ = a_bits, *at++ = a;
    if (b_bits) term[0] |= NETKAT_MAP_B, *at++ = b_bits, *at++ = b;
    const size_t n = NETKAT_WORK_LEN(NETKAT_MAX_ALLOWANCE), room = NETKAT_CORE_MAX(NETKAT_MAX_ALLOWANCE);
    netkat_answer made = desugar(term, (size_t)(at - term), NETKAT_MAX_ALLOWANCE, n, room);
    expect("cost and draw", netkat_cost(0, width, pattern, number, &a, 1, a_bits, &b, 1, b_bits), made.number, 0, made.second, 0);
}

/* Every pattern whose literals have at most so many bits, on as many fields and one more. */
static void all_as_drawn(uint8_t most) {
    for (uint8_t width = 0; width <= most + 1; width++)
        for (uint8_t a_bits = 0; a_bits <= most; a_bits++)
            for (uint8_t a = 0; a < 1 << a_bits; a++) {
                as_drawn(width, NETKAT_PATTERN_EXACT, 0, a, a_bits, 0, 0);
                for (uint8_t prefix = 0; prefix <= width + 1; prefix++) as_drawn(width, NETKAT_PATTERN_CIDR, prefix, a, a_bits, 0, 0);
                for (uint8_t b_bits = 0; b_bits <= most; b_bits++)
                    for (uint8_t b = 0; b < 1 << b_bits; b++) {
                        as_drawn(width, NETKAT_PATTERN_WILDCARD, 0, a, a_bits, b, b_bits);
                        as_drawn(width, NETKAT_PATTERN_IP_RANGE, 0, a, a_bits, b, b_bits);
                    }
            }
}

static void cost(void) {
    for (size_t i = 0; i < sizeof costs / sizeof *costs; i++) {
        netkat_answer a = cost_of(costs[i].start, costs[i].end, costs[i].pattern, costs[i].number, costs[i].a, costs[i].b);
        expect(costs[i].what, a, costs[i].refusal, 0, (uint32_t)costs[i].cost, (uint32_t)(costs[i].cost >> 32));
        if (NETKAT_COST(a) != costs[i].cost) printf("%s: another number of 64 bits\n", costs[i].what), failed = 1;
    }
    /* one literal for both */
    expect("cost, overlap", netkat_cost(0, 4, NETKAT_PATTERN_IP_RANGE, 0, core_out, 1, 4, core_out, 1, 4), 0, 0, 7, 0);

    const uint8_t most[] = "\xd9\x19\x80\0\0\0\x03\x80" ZEROS "\x80\x80" ONES "\xbf";
    const size_t n = NETKAT_WORK_LEN(NETKAT_MAX_ALLOWANCE), room = NETKAT_CORE_MAX(NETKAT_MAX_ALLOWANCE);
    netkat_answer made = desugar(most, sizeof most - 1, NETKAT_MAX_ALLOWANCE, n, room);
    if (made.second != NETKAT_MAX_RANGE_PATTERN_COST) printf("the most: %u, drawn %u\n", made.number, made.second), failed = 1;
    all_as_drawn(5);
}

/* Cores with the answer, and the kind, field and value of their records, or with the refusal. `room` are the numbers of the list. */
#define CORE(bytes) bytes, sizeof bytes - 1
#define TOP_FIELD "\xff\xff\xff\xff"
static const struct {
    const char *what, *core;
    size_t len, room;
    uint32_t number, place, first, second, records[9];
} cores[] = {
    {"Zero", CORE("\0"), 3, 0, 0, 1, 0, {0, 0, 0}},
    {"One", CORE("\x01\x01"), 3, 0, 0, 1, 0, {NETKAT_KIND_ONE, 0, 0}},
    {"End, a longer list", CORE("\x01\x04"), 99, 0, 0, 1, 0, {NETKAT_KIND_END, 0, 0}},
    {"Assign, field 0", CORE("\x01\x05"), 4, 0, 0, 1, 1, {NETKAT_KIND_ASSIGN, 0, 0}},
    {"Test, field 0, value 1", CORE("\x21\x06\x01"), 3, 0, 0, 1, 1, {NETKAT_KIND_TEST, 0, 1}},
    {"Assign, field 8, value 1", CORE("\x25\x05\x08\0\0\0\x01"), 5, 0, 0, 1, 9, {NETKAT_KIND_ASSIGN, 8, 1}},
    {"Test, all bytes of a field", CORE("\x05\x06\x04\x03\x02\x01"), 3, 0, 0, 1, 0x01020305, {NETKAT_KIND_TEST, 0x01020304, 0}},
    {"Test, last field but one", CORE("\x05\x06\xfe\xff\xff\xff"), 3, 0, 0, 1, UINT32_MAX, {NETKAT_KIND_TEST, UINT32_MAX - 1, 0}},
    {"Star", CORE("\x01\x0e\x01\x03"), 7, 0, 0, 2, 0, {NETKAT_KIND_STAR, 0, 0, NETKAT_KIND_DUP, 0, 0}},
    {"the greatest field first", CORE("\x01\x07\x05\x06\x07\0\0\0\x21\x05\x01"), 9, 0, 0, 3, 8,
     {NETKAT_KIND_UNION, 0, 0, NETKAT_KIND_TEST, 7, 0, NETKAT_KIND_ASSIGN, 0, 1}},
    {"the greatest field last", CORE("\x01\x0b\x21\x05\x01\x05\x06\x07\0\0\0"), 9, 0, 0, 3, 8,
     {NETKAT_KIND_SEQUENCE, 0, 0, NETKAT_KIND_ASSIGN, 0, 1, NETKAT_KIND_TEST, 7, 0}},

    {"no byte", CORE(""), 9, NETKAT_REFUSAL_ENDS_EARLY, 0, 0, 0, {0}},
    {"no child", CORE("\x01\x0e"), 9, NETKAT_REFUSAL_ENDS_EARLY, 1, 0, 0, {0}},
    {"no second child", CORE("\x01\x0c\0"), 9, NETKAT_REFUSAL_ENDS_EARLY, 2, 0, 0, {0}},
    {"no kind", CORE("\x01"), 9, NETKAT_REFUSAL_ENDS_EARLY, 0, 0, 0, {0}},
    {"no kind, before a foreign field", CORE("\xff"), 9, NETKAT_REFUSAL_ENDS_EARLY, 0, 0, 0, {0}},
    {"kind 0 written", CORE("\x01\0"), 9, NETKAT_REFUSAL_ZERO_WRITTEN, 0, 0, 0, {0}},
    {"kind 0 written, before a foreign field", CORE("\x03\0"), 9, NETKAT_REFUSAL_ZERO_WRITTEN, 0, 0, 0, {0}},
    {"kind 27", CORE("\x01\x1b"), 9, NETKAT_REFUSAL_UNKNOWN_KIND, 0, 0, 0, {0}},
    {"kind 255, before a foreign field", CORE("\x01\x0e\xff\xff"), 9, NETKAT_REFUSAL_UNKNOWN_KIND, 1, 0, 0, {0}},
    {"kind 16", CORE("\x01\x10"), 9, NETKAT_REFUSAL_TERM_KIND, 0, 0, 0, {0}},
    {"kind 26", CORE("\x01\x1a"), 9, NETKAT_REFUSAL_TERM_KIND, 0, 0, 0, {0}},
    {"kind 20 with its name", CORE("\x01\x0e\x03\x14\x01\0"), 9, NETKAT_REFUSAL_TERM_KIND, 1, 0, 0, {0}},
    {"kind 16, before a foreign field", CORE("\x03\x10"), 9, NETKAT_REFUSAL_TERM_KIND, 0, 0, 0, {0}},
    {"a foreign field without a kind", CORE("\x02"), 9, NETKAT_REFUSAL_FOREIGN_FIELD, 0, 0, 0, {0}},
    {"a field of a Union, before its bytes", CORE("\x05\x07"), 9, NETKAT_REFUSAL_FOREIGN_FIELD, 0, 0, 0, {0}},
    {"the end of a Test, before its field", CORE("\x0d\x06"), 9, NETKAT_REFUSAL_FOREIGN_FIELD, 0, 0, 0, {0}},
    {"a literal of an Assign", CORE("\x41\x05\x01\x01"), 9, NETKAT_REFUSAL_FOREIGN_FIELD, 0, 0, 0, {0}},
    {"no field", CORE("\x25\x06"), 9, NETKAT_REFUSAL_ENDS_EARLY, 0, 0, 0, {0}},
    {"half a field", CORE("\x25\x06\0\0\0"), 9, NETKAT_REFUSAL_ENDS_EARLY, 0, 0, 0, {0}},
    {"field 0 written, before the value", CORE("\x25\x06\0\0\0\0\x02"), 9, NETKAT_REFUSAL_ZERO_WRITTEN, 0, 0, 0, {0}},
    {"no value", CORE("\x25\x06\x01\0\0\0"), 9, NETKAT_REFUSAL_ENDS_EARLY, 0, 0, 0, {0}},
    {"value 0 written", CORE("\x21\x05\0"), 9, NETKAT_REFUSAL_ZERO_WRITTEN, 0, 0, 0, {0}},
    {"value 2", CORE("\x21\x05\x02"), 9, NETKAT_REFUSAL_OUT_OF_RANGE, 0, 0, 0, {0}},
    {"value 255 of the last field", CORE("\x25\x06" TOP_FIELD "\xff"), 9, NETKAT_REFUSAL_OUT_OF_RANGE, 0, 0, 0, {0}},
    {"left over", CORE("\0\0"), 9, NETKAT_REFUSAL_LEFT_OVER, 1, 0, 0, {0}},
    {"left over, before the last field", CORE("\x01\x0e\x05\x06" TOP_FIELD "\x01"), 9, NETKAT_REFUSAL_LEFT_OVER, 2, 0, 0, {0}},
    {"left over, before the list", CORE("\0\0"), 0, NETKAT_REFUSAL_LEFT_OVER, 1, 0, 0, {0}},
    {"the last field tested", CORE("\x05\x06" TOP_FIELD), 9, NETKAT_REFUSAL_FIELD_COUNT, 0, 0, 0, {0}},
    {"the last field assigned", CORE("\x01\x0e\x25\x05" TOP_FIELD "\x01"), 9, NETKAT_REFUSAL_FIELD_COUNT, 1, 0, 0, {0}},
    {"the last field twice", CORE("\x01\x07\x05\x06" TOP_FIELD "\x05\x05" TOP_FIELD), 9, NETKAT_REFUSAL_FIELD_COUNT, 1, 0, 0, {0}},
    {"the last field, behind it a kind", CORE("\x01\x07\x05\x06" TOP_FIELD "\x01\x11"), 9, NETKAT_REFUSAL_TERM_KIND, 2, 0, 0, {0}},
    {"the last field, before the list", CORE("\x01\x0e\x05\x06" TOP_FIELD), 5, NETKAT_REFUSAL_FIELD_COUNT, 1, 0, 0, {0}},
    {"a list of 2 for 1", CORE("\0"), 2, NETKAT_REFUSAL_WORK_MEMORY, 0, 0, 0, {0}},
    {"a list of 8 for 3", CORE("\x01\x09\x01\x05\x01\x06"), 8, NETKAT_REFUSAL_WORK_MEMORY, 0, 0, 0, {0}},
};

static uint32_t list[1 + NETKAT_RECORDS_LEN(NETKAT_MAX_CORE_RECORDS) + 1];
static uint32_t *const read_records = list + 1;

/* Read core with a list of so many numbers. All but the records of the answer is kept: the rest of the list and what lies around it. */
static netkat_answer read_core(const char *what, const uint8_t *core, size_t len, size_t room) {
    memset(list, 0xa5, sizeof list);
    netkat_answer a = netkat_read_core(core, len, read_records, room);
    size_t kept = list[0] == 0xa5a5a5a5, all = sizeof list / sizeof *list;
    for (size_t i = 1 + NETKAT_RECORDS_LEN(a.first); i < all; i++) kept += list[i] == 0xa5a5a5a5;
    if (kept != all - NETKAT_RECORDS_LEN(a.first)) printf("%s: other numbers are changed\n", what), failed = 1;
    return a;
}

/* The records that were read, written as bytes once more, are the core. */
static void same_core(const char *what, const uint8_t *core, size_t len, uint32_t count) {
    static uint8_t again[NETKAT_CORE_MAX(NETKAT_MAX_CORE_RECORDS)];
    uint8_t *at = again;
    for (const uint32_t *r = read_records; count > 0; count--, r += 3) {
        *at++ = (uint8_t)((r[0] ? NETKAT_MAP_KIND : 0) | (r[1] ? NETKAT_MAP_START : 0) | (r[2] ? NETKAT_MAP_NUMBER : 0));
        if (r[0]) *at++ = (uint8_t)r[0];
        for (int i = 0; r[1] && i < 32; i += 8) *at++ = (uint8_t)(r[1] >> i);
        if (r[2]) *at++ = (uint8_t)r[2];
    }
    if ((size_t)(at - again) != len) printf("%s: another length\n", what), failed = 1;
    else same(what, again, core, len);
}

/* A term that is desugared: the core comes back with its count and fields, as long as there is room for it. */
static void as_written(const char *what, const uint8_t *term, size_t len, uint32_t count, uint32_t fields) {
    const size_t n = NETKAT_WORK_LEN(NETKAT_MAX_ALLOWANCE), room = NETKAT_CORE_MAX(NETKAT_MAX_ALLOWANCE);
    netkat_answer made = desugar(term, len, NETKAT_MAX_ALLOWANCE, n, room);
    expect(what, read_core(what, core_out, made.first, NETKAT_RECORDS_LEN(count)), 0, 0, count, fields);
    same_core(what, core_out, made.first, count);
    netkat_answer less = read_core(what, core_out, made.first, NETKAT_RECORDS_LEN(count) - 1);
    expect(what, less, NETKAT_REFUSAL_WORK_MEMORY, 0, 0, 0);
    if (made.first > 1) expect(what, netkat_read_core(core_out, made.first - 1, list, 0), NETKAT_REFUSAL_ENDS_EARLY, count - 1, 0, 0);
}

/* Two bytes of any values with each of some ends: form is judged as for a term, and the fields are counted as there, unless a kind is a
 * term's. */
static void as_a_term(void) {
    static const struct {
        const char *bytes;
        size_t len;
    } ends[] = {{CORE("")},
                {CORE("\0")},
                {CORE("\x01")},
                {CORE("\x01\x06\0")},
                {CORE("\0\0\0\0")},
                {CORE("\x01\0\0\0")},
                {CORE("\x01\0\0\0\x01")},
                {CORE("\x01\0\0\0\x02")},
                {CORE(TOP_FIELD)},
                {CORE(TOP_FIELD "\x01")}};
    for (unsigned front = 0; front < 1 << 16; front++)
        for (size_t i = 0; i < sizeof ends / sizeof *ends; i++) {
            const size_t len = 2 + ends[i].len;
            uint8_t bytes[8] = {(uint8_t)front, (uint8_t)(front >> 8)};
            memcpy(bytes + 2, ends[i].bytes, ends[i].len);
            netkat_answer a = netkat_read_core(bytes, len, list, NETKAT_RECORDS_LEN(len)), term = netkat_num_fields(bytes, len);
            int term_kind = (bytes[0] & NETKAT_MAP_KIND) && bytes[1] > NETKAT_KIND_LTL_NEXT && bytes[1] <= NETKAT_KIND_VAR_MATCH;
            if (term_kind) expect("a kind of terms", a, NETKAT_REFUSAL_TERM_KIND, 0, 0, 0);
            else expect("as a term", a, term.number, term.place, a.first, term.first);
        }
}

/* `count` times Star above the bytes: as many levels, and one for each below. */
static netkat_answer read_stars(const char *what, size_t count, const char *bottom, size_t len, size_t room) {
    static uint8_t core[2 * (NETKAT_MAX_CORE_RECORDS + 1) + 8];
    for (size_t i = 0; i < count; i++) core[2 * i] = NETKAT_MAP_KIND, core[2 * i + 1] = NETKAT_KIND_STAR;
    memcpy(core + 2 * count, bottom, len);
    netkat_answer a = read_core(what, core, 2 * count + len, room);
    if (a.number == 0) same_core(what, core, 2 * count + len, a.first);
    return a;
}

/* Cores of 65,535 records, one below the other, and of more. */
static void deep_cores(void) {
    const uint32_t most = NETKAT_MAX_CORE_RECORDS;
    const size_t room = NETKAT_RECORDS_LEN(most);
    expect("deepest core", read_stars("deepest core", most - 1, CORE("\x25\x06\x07\0\0\0\x01"), room), 0, 0, most, 8);
    expect("a list one less", read_stars("a list one less", most - 1, CORE("\0"), room - 1), NETKAT_REFUSAL_WORK_MEMORY, 0, 0, 0);
    expect("last kind", read_stars("last kind", most - 1, CORE("\x01\x12"), room), NETKAT_REFUSAL_TERM_KIND, most - 1, 0, 0);
    expect("last byte", read_stars("last byte", most - 1, CORE(""), room), NETKAT_REFUSAL_ENDS_EARLY, most - 1, 0, 0);
    expect("field", read_stars("field", most - 1, CORE("\x05\x06" TOP_FIELD), room), NETKAT_REFUSAL_FIELD_COUNT, most - 1, 0, 0);
    expect("behind it", read_stars("behind it", most - 1, CORE("\0\0"), room), NETKAT_REFUSAL_LEFT_OVER, most, 0, 0);
    expect("one more", read_stars("one more", most, CORE("\0"), room), NETKAT_REFUSAL_CORE_TOO_LARGE, most, 0, 0);
    expect("one more, not there", read_stars("not there", most, CORE(""), room), NETKAT_REFUSAL_CORE_TOO_LARGE, most, 0, 0);
    expect("one more, of kind 16", read_stars("of kind 16", most, CORE("\x01\x10"), 0), NETKAT_REFUSAL_CORE_TOO_LARGE, most, 0, 0);
}

static void cores_read(void) {
    for (size_t i = 0; i < sizeof cores / sizeof *cores; i++) {
        netkat_answer a = read_core(cores[i].what, (const uint8_t *)cores[i].core, cores[i].len, cores[i].room);
        expect(cores[i].what, a, cores[i].number, cores[i].place, cores[i].first, cores[i].second);
        if (memcmp(read_records, cores[i].records, NETKAT_RECORDS_LEN(a.first) * sizeof *list) != 0)
            printf("%s: other records\n", cores[i].what), failed = 1;
    }
    const uint8_t rule[] = {1, NETKAT_KIND_IF_THEN_ELSE, 0x49, NETKAT_KIND_BIT_RANGE_TEST, 2, 0, 0, 0, 2, 1, 1, 1, 1, NETKAT_KIND_STAR, 1, 3};
    as_written("an If", rule, sizeof rule, 12, 2);
    as_written("the greatest allowance", wide, sizeof wide, NETKAT_MAX_ALLOWANCE, 32768);
    as_a_term();
    deep_cores();
}

/* Packets with the answer, or with the refusal. `room` are the numbers of the record list. */
#define FIRST "\x21\x06\x01"            /* field 0 is 1 */
#define SECOND "\x25\x06\x01\0\0\0\x01" /* field 1 is 1 */
#define THIRD "\x05\x06\x02\0\0\0"      /* field 2 is 0 */
#define NINTH "\x25\x06\x08\0\0\0\x01"  /* field 8 is 1 */
#define EACH "\0\x01\x02\x03\x04\x05\x06\x07" /* each value of the fields 0 to 2 */
#define ONE_BYTE {1, 1, 1, 1, 1, 1, 1, 1}
#define RUN_REFUSED(number, place) 0, NETKAT_REFUSAL_##number, place
static const struct {
    const char *what, *core;
    size_t len, room;
    const char *packets;
    size_t packets_len, count;
    uint32_t lengths[8];
    uint64_t passed;
    uint32_t number, place;
} runs[] = {
    {"Zero", CORE("\0"), 3, CORE(EACH), 8, ONE_BYTE, 0, 0, 0},
    {"One", CORE("\x01\x01"), 3, CORE(EACH), 8, ONE_BYTE, 0xff, 0, 0},
    {"One, packets without a byte", CORE("\x01\x01"), 3, CORE(""), 5, {0}, 0x1f, 0, 0},
    {"field 0 is 1", CORE(FIRST), 3, CORE(EACH), 8, ONE_BYTE, 0xaa, 0, 0},
    {"field 0 is 0", CORE("\x01\x06"), 3, CORE(EACH), 8, ONE_BYTE, 0x55, 0, 0},
    {"field 2 is 0", CORE(THIRD), 3, CORE(EACH), 8, ONE_BYTE, 0x0f, 0, 0},
    {"Union", CORE("\x01\x07" FIRST SECOND), 9, CORE(EACH), 8, ONE_BYTE, 0xee, 0, 0},
    {"Intersect", CORE("\x01\x08" FIRST SECOND), 9, CORE(EACH), 8, ONE_BYTE, 0x88, 0, 0},
    {"Xor", CORE("\x01\x09" FIRST SECOND), 9, CORE(EACH), 8, ONE_BYTE, 0x66, 0, 0},
    {"Difference", CORE("\x01\x0a" FIRST SECOND), 9, CORE(EACH), 8, ONE_BYTE, 0x22, 0, 0},
    {"Difference, the other way round", CORE("\x01\x0a" SECOND FIRST), 9, CORE(EACH), 8, ONE_BYTE, 0x44, 0, 0},
    {"Sequence", CORE("\x01\x0b" FIRST SECOND), 9, CORE(EACH), 8, ONE_BYTE, 0x88, 0, 0},
    {"left Difference", CORE("\x01\x0a\x01\x0a" FIRST SECOND THIRD), 15, CORE(EACH), 8, ONE_BYTE, 0x20, 0, 0},
    {"right Difference", CORE("\x01\x0a" FIRST "\x01\x0a" SECOND THIRD), 15, CORE(EACH), 8, ONE_BYTE, 0x2a, 0, 0},
    {"all kinds", CORE("\x01\x07\x01\x09" FIRST "\x01\x01\x01\x0b\x01\x08" SECOND THIRD "\x01\x0a\x01\x01\0"), 33, CORE(EACH), 8,
     ONE_BYTE, 0x5d, 0, 0},
    {"a longer list", CORE(FIRST), 99, CORE(EACH), 8, ONE_BYTE, 0xaa, 0, 0},
    {"the highest bit of a byte", CORE("\x25\x06\x07\0\0\0\x01"), 3, CORE("\x80\x7f\xff"), 3, {1, 1, 1}, 5, 0, 0},
    {"the lowest bit of the second byte", CORE(NINTH), 3, CORE("\xff\0\0\x01\xff\xfe"), 3, {2, 2, 2}, 2, 0, 0},
    {"packets of several lengths", CORE(NINTH), 3, CORE("\0\x01\xff\0\0\xff\xff\xff\0\x01\xff"), 4, {2, 3, 4, 2}, 0xd, 0, 0},
    {"bytes behind the last packet", CORE(FIRST), 3, CORE("\x01\0\xff\xff"), 2, {1, 1}, 1, 0, 0},
    {"no field, past the end", CORE("\x01\x01"), 3, CORE("\0"), 3, {1, 7, UINT32_MAX}, 7, 0, 0},
    {"cut at the end", CORE(FIRST), 3, CORE("\x01\0\x01"), 2, {2, 2}, 3, 0, 0},
    {"cut at the end, by far", CORE(FIRST), 3, CORE("\x01"), 1, {UINT32_MAX}, 1, 0, 0},

    {"no byte of a core", CORE(""), 9, CORE(EACH), 8, ONE_BYTE, RUN_REFUSED(ENDS_EARLY, 0)},
    {"a core that is cut off", CORE("\x01\x07" FIRST), 9, CORE(EACH), 0, {0}, RUN_REFUSED(ENDS_EARLY, 2)},
    {"kind 27", CORE("\x01\x1b"), 9, CORE(EACH), 0, {0}, RUN_REFUSED(UNKNOWN_KIND, 0)},
    {"a foreign field", CORE("\x02"), 9, CORE(EACH), 0, {0}, RUN_REFUSED(FOREIGN_FIELD, 0)},
    {"a kind 0 written", CORE("\x01\0"), 9, CORE(EACH), 0, {0}, RUN_REFUSED(ZERO_WRITTEN, 0)},
    {"a value of 2", CORE("\x21\x06\x02"), 9, CORE(EACH), 0, {0}, RUN_REFUSED(OUT_OF_RANGE, 0)},
    {"bytes left over", CORE("\x01\x02\0"), 9, CORE(EACH), 0, {0}, RUN_REFUSED(LEFT_OVER, 1)},
    {"a kind of terms, behind a Star", CORE("\x01\x0e\x01\x10"), 0, CORE(EACH), 0, {0}, RUN_REFUSED(TERM_KIND, 1)},
    {"the last field", CORE("\x01\x07" FIRST "\x05\x05" TOP_FIELD), 0, CORE(EACH), 0, {0}, RUN_REFUSED(FIELD_COUNT, 2)},
    {"a list of 2 for 1", CORE("\x01\x01"), 2, CORE(EACH), 8, ONE_BYTE, RUN_REFUSED(WORK_MEMORY, 0)},
    {"a list of 2 for 1, before no test", CORE("\x01\x02"), 2, CORE(EACH), 0, {0}, RUN_REFUSED(WORK_MEMORY, 0)},
    {"Top", CORE("\x01\x02"), 3, CORE(EACH), 8, ONE_BYTE, RUN_REFUSED(CORE_NOT_TEST, 0)},
    {"Dup", CORE("\x01\x03"), 3, CORE(EACH), 8, ONE_BYTE, RUN_REFUSED(CORE_NOT_TEST, 0)},
    {"End", CORE("\x01\x04"), 3, CORE(EACH), 8, ONE_BYTE, RUN_REFUSED(CORE_NOT_TEST, 0)},
    {"Assign, the last record", CORE("\x01\x0b" FIRST "\x01\x05"), 9, CORE(EACH), 8, ONE_BYTE, RUN_REFUSED(CORE_NOT_TEST, 0)},
    {"LtlUntil", CORE("\x01\x0c\0\0"), 9, CORE(EACH), 8, ONE_BYTE, RUN_REFUSED(CORE_NOT_TEST, 0)},
    {"Complement", CORE("\x01\x0d" FIRST), 9, CORE(EACH), 8, ONE_BYTE, RUN_REFUSED(CORE_NOT_TEST, 0)},
    {"Star, of One", CORE("\x01\x0e\x01\x01"), 9, CORE(EACH), 8, ONE_BYTE, RUN_REFUSED(CORE_NOT_TEST, 0)},
    {"LtlNext", CORE("\x01\x0f" FIRST), 9, CORE(EACH), 8, ONE_BYTE, RUN_REFUSED(CORE_NOT_TEST, 0)},
    {"no test, before no packet", CORE("\x01\x05"), 3, CORE(EACH), 0, {0}, RUN_REFUSED(CORE_NOT_TEST, 0)},
    {"no test, before a short packet", CORE("\x01\x05"), 3, CORE(""), 1, {0}, RUN_REFUSED(CORE_NOT_TEST, 0)},
    {"no packet", CORE("\0"), 3, CORE(EACH), 0, {0}, RUN_REFUSED(PACKET_COUNT, 0)},
    {"no byte for field 0", CORE(FIRST), 3, CORE(""), 1, {0}, RUN_REFUSED(PACKET_TOO_SHORT, 0)},
    {"8 bits for 9 fields", CORE(NINTH), 3, CORE(EACH), 4, {2, 2, 1, 3}, RUN_REFUSED(PACKET_TOO_SHORT, 2)},
    {"the first of two", CORE(NINTH), 3, CORE(EACH), 4, {2, 0, 2, 1}, RUN_REFUSED(PACKET_TOO_SHORT, 1)},
    {"a byte past the end", CORE(NINTH), 3, CORE(EACH), 4, {2, 2, 3, 2}, RUN_REFUSED(PACKET_TOO_SHORT, 3)},
    {"a packet past the end", CORE(FIRST), 3, CORE("\0\x01"), 4, {1, 1, 1, 1}, RUN_REFUSED(PACKET_TOO_SHORT, 2)},
    {"a sum of 32 bits", CORE(FIRST), 3, CORE(EACH), 3, {UINT32_MAX, 1, 1}, RUN_REFUSED(PACKET_TOO_SHORT, 1)},
    {"a sum beyond 32 bits", CORE(FIRST), 3, CORE(EACH), 4, {0x80000000, 0x80000000, 1, 1}, RUN_REFUSED(PACKET_TOO_SHORT, 1)},
    {"a field beyond the bytes", CORE("\x05\x06\xfe\xff\xff\xff"), 3, CORE(EACH), 1, {UINT32_MAX}, RUN_REFUSED(PACKET_TOO_SHORT, 0)},
};

/* Run packets with a list of so many numbers, which it may write; what lies around the list is kept, and so is what it only reads. */
static netkat_answer run_packets(const char *what, const uint8_t *core, size_t len, size_t room, const uint8_t *packets, size_t packets_len,
                                 const uint32_t *lengths, size_t count) {
    static uint8_t bytes[2][NETKAT_TERM_MAX];
    static uint32_t numbers[2 * NETKAT_MAX_PACKETS];
    memset(list, 0xa5, sizeof list);
    memcpy(bytes[0], core, len);
    memcpy(bytes[1], packets, packets_len);
    if (count) memcpy(numbers, lengths, count * sizeof *numbers);
    netkat_answer a = netkat_run_packets(bytes[0], len, read_records, room, bytes[1], packets_len, numbers, count);
    size_t kept = list[0] == 0xa5a5a5a5, all = sizeof list / sizeof *list;
    for (size_t i = 1 + room; i < all; i++) kept += list[i] == 0xa5a5a5a5;
    if (kept != all - room) printf("%s: numbers around the list are changed\n", what), failed = 1;
    same(what, bytes[0], core, len);
    same(what, bytes[1], packets, packets_len);
    if (count && memcmp(numbers, lengths, count * sizeof *numbers) != 0) printf("%s: lengths are changed\n", what), failed = 1;
    return a;
}

/* 1 to 64 packets of a byte each, whose fields 0 to 7 are their number: the bits are those of the packets, and no others. */
static void counts_of_packets(void) {
    uint8_t packets[NETKAT_MAX_PACKETS + 1];
    uint32_t lengths[NETKAT_MAX_PACKETS + 1];
    for (uint8_t i = 0; i <= NETKAT_MAX_PACKETS; i++) packets[i] = i, lengths[i] = 1;
    for (size_t n = 1; n <= NETKAT_MAX_PACKETS; n++) {
        uint64_t all = UINT64_MAX >> (NETKAT_MAX_PACKETS - n), odd = all & 0xaaaaaaaaaaaaaaaa;
        netkat_answer a = run_packets("n packets", (const uint8_t *)CORE(FIRST), 3, packets, n, lengths, n);
        if (a.number || NETKAT_PASSED(a) != odd) printf("%zu packets, odd: %u\n", n, a.number), failed = 1;
        a = run_packets("n packets", (const uint8_t *)CORE("\x01\x06"), 3, packets, n, lengths, n);
        if (a.number || NETKAT_PASSED(a) != (all ^ odd)) printf("%zu packets, even: %u\n", n, a.number), failed = 1;
        a = run_packets("n packets", (const uint8_t *)CORE("\x01\x01"), 3, packets, n, lengths, n);
        expect("all packets", a, 0, 0, (uint32_t)all, (uint32_t)(all >> 32));
    }
    const uint8_t *one = (const uint8_t *)"\x01\x01", *dup = (const uint8_t *)"\x01\x03", *first = (const uint8_t *)FIRST;
    expect("65 packets", run_packets("65", one, 2, 3, packets, 65, lengths, 65), NETKAT_REFUSAL_PACKET_COUNT, 0, 0, 0);
    expect("65, a list of 2", run_packets("65", one, 2, 2, packets, 65, lengths, 65), NETKAT_REFUSAL_WORK_MEMORY, 0, 0, 0);
    expect("65, no test", run_packets("65", dup, 2, 3, packets, 65, lengths, 65), NETKAT_REFUSAL_CORE_NOT_TEST, 0, 0, 0);
    expect("65, short", run_packets("65", first, 3, 3, packets, 0, lengths, 65), NETKAT_REFUSAL_PACKET_COUNT, 0, 0, 0);
    expect("last short", run_packets("last", first, 3, 3, packets, 63, lengths, 64), NETKAT_REFUSAL_PACKET_TOO_SHORT, 63, 0, 0);
}

/* One field at a time, with 64 packets: it is 1 where a number has a bit, and all other fields of a packet are the opposite. */
static void fields_of_packets(void) {
    enum { BYTES = 200 };
    static const uint32_t fields[] = {1, 7, 8, 63, 64, 255, 256, 510, 511, 512, 513, 1023, 1024, 1025, 8 * BYTES - 2, 8 * BYTES - 1};
    static uint8_t packets[NETKAT_MAX_PACKETS * BYTES];
    uint32_t lengths[NETKAT_MAX_PACKETS];
    for (size_t n = 0; n < sizeof fields / sizeof *fields; n++) {
        uint32_t f = fields[n];
        uint64_t set = 0x9e3779b97f4a7c15u * (f + 1);
        for (size_t i = 0; i < NETKAT_MAX_PACKETS; i++) {
            memset(packets + BYTES * i, set >> i & 1 ? 0 : 255, BYTES);
            packets[BYTES * i + f / 8] ^= (uint8_t)(1u << f % 8);
            lengths[i] = BYTES;
        }
        const uint8_t low = f & 255, high = (uint8_t)(f >> 8); /* field f is 1 and field 0 is not; field 0 is 1 and field f is not */
        const uint8_t less[] = {1, NETKAT_KIND_DIFFERENCE, 0x25, NETKAT_KIND_TEST, low, high, 0, 0, 1, 0x21, NETKAT_KIND_TEST, 1};
        const uint8_t more[] = {1, NETKAT_KIND_DIFFERENCE, 0x21, NETKAT_KIND_TEST, 1, 0x25, NETKAT_KIND_TEST, low, high, 0, 0, 1};
        netkat_answer a = run_packets("a field", less + 2, 7, 3, packets, sizeof packets, lengths, 64);
        if (a.number || NETKAT_PASSED(a) != set) printf("field %u: %u\n", f, a.number), failed = 1;
        a = run_packets("a field", less, sizeof less, 9, packets, sizeof packets, lengths, 64);
        if (a.number || NETKAT_PASSED(a) != set) printf("field %u and not field 0: %u\n", f, a.number), failed = 1;
        a = run_packets("a field", more, sizeof more, 9, packets, sizeof packets, lengths, 64);
        if (a.number || NETKAT_PASSED(a) != ~set) printf("field 0 and not field %u: %u\n", f, a.number), failed = 1;
    }
}

/* So many Differences above leaves that are all the same, to the left or to the right. */
static netkat_answer run_differences(int left, int count, const char *leaf, size_t leaf_len, size_t room) {
    static uint8_t core[NETKAT_TERM_MAX];
    const uint32_t lengths[] = {1, 1};
    uint8_t *at = core;
    for (int i = 0; i < 2 * count + 1; i++)
        if (left ? i < count : i % 2 == 0 && i < 2 * count) *at++ = NETKAT_MAP_KIND, *at++ = NETKAT_KIND_DIFFERENCE;
        else memcpy(at, leaf, leaf_len), at += leaf_len;
    return run_packets("differences", core, (size_t)(at - core), room, (const uint8_t *)"\0\x01", 2, lengths, 2);
}

/* As deep as a core can be. One - One - .. is Zero; One - (One - ..) is Zero of an even number of Ones, One of an odd number. */
static void deep_tests(void) {
    const int most = (NETKAT_MAX_CORE_RECORDS - 1) / 2;
    const size_t room = NETKAT_RECORDS_LEN(NETKAT_MAX_CORE_RECORDS);
    expect("deep to the left", run_differences(1, most, CORE("\x01\x01"), room), 0, 0, 0, 0);
    expect("deep to the right, even", run_differences(0, most, CORE("\x01\x01"), room), 0, 0, 0, 0);
    expect("deep to the right, odd", run_differences(0, most - 1, CORE("\x01\x01"), room), 0, 0, 3, 0);
    expect("deep to the right, tests", run_differences(0, most - 1, CORE(FIRST), room), 0, 0, 2, 0);
    expect("deep, a list one less", run_differences(0, most, CORE(FIRST), room - 1), NETKAT_REFUSAL_WORK_MEMORY, 0, 0, 0);
    expect("deep, no test", run_differences(0, most, CORE("\x01\x05"), room), NETKAT_REFUSAL_CORE_NOT_TEST, 0, 0, 0);
    expect("deeper", run_differences(1, most + 1, CORE("\0"), room), NETKAT_REFUSAL_CORE_TOO_LARGE, 65535, 0, 0);
}

/* The core of x[0..16] from 1,024 to 49,151, and the packets of these numbers and their neighbours. */
static void desugared_range(void) {
    const uint8_t range[] = {0xd9, NETKAT_KIND_BIT_RANGE_MATCH, 16, 0, 0, 0, NETKAT_PATTERN_IP_RANGE, 16, 0, 4, 16, 0xff, 0xbf};
    const uint16_t ports[] = {1023, 1024, 1025, 49150, 49151, 49152, 0, 65535};
    uint8_t packets[16];
    uint32_t lengths[8];
    for (size_t i = 0; i < 8; i++) packets[2 * i] = ports[i] & 255, packets[2 * i + 1] = ports[i] >> 8, lengths[i] = 2;
    netkat_answer made = desugar(range, sizeof range, 1000, NETKAT_WORK_LEN(1000), NETKAT_CORE_MAX(1000));
    expect("ports", run_packets("ports", core_out, made.first, NETKAT_RECORDS_LEN(made.second), packets, 16, lengths, 8), 0, 0, 0x1e, 0);
}

static void packets_run(void) {
    for (size_t i = 0; i < sizeof runs / sizeof *runs; i++) {
        netkat_answer a = run_packets(runs[i].what, (const uint8_t *)runs[i].core, runs[i].len, runs[i].room,
                                      (const uint8_t *)runs[i].packets, runs[i].packets_len, runs[i].lengths, runs[i].count);
        expect(runs[i].what, a, runs[i].number, runs[i].place, (uint32_t)runs[i].passed, (uint32_t)(runs[i].passed >> 32));
    }
    /* one slice for the core and the packets: 21 has field 0, 06 has not, 01 has */
    const uint8_t shared[] = {0x21, NETKAT_KIND_TEST, 1};
    const uint32_t lengths[] = {1, 1, 1};
    expect("run, overlap", netkat_run_packets(shared, 3, list, 3, shared, 3, lengths, 3), 0, 0, 5, 0);
    counts_of_packets();
    fields_of_packets();
    deep_tests();
    desugared_range();
}

/* The limits: a term of NETKAT_TERM_MAX bytes and 4,096 records, 256 levels, the greatest allowance with its work memory and room. */
static void limits(void) {
    static uint8_t term[NETKAT_TERM_MAX + 1], result[NETKAT_TERM_MAX];
    const uint8_t test[] = {0x25, NETKAT_KIND_TEST, 1, 0, 0, 0, 1};
    const uint32_t most = NETKAT_MAX_ALLOWANCE;
    const size_t n = NETKAT_WORK_LEN(NETKAT_MAX_ALLOWANCE), room = NETKAT_CORE_MAX(NETKAT_MAX_ALLOWANCE);
    uint8_t *at = term;

    /* An If. Its first child: a full tree of seven levels of Ifs, 3,280 records. Its second: 1 + 2 * 364 + 1 + 2 * 40 + 4. Its third: 1 */
    *at++ = NETKAT_MAP_KIND, *at++ = NETKAT_KIND_IF_THEN_ELSE;
    at = ifs(at, 7);
    *at++ = NETKAT_MAP_KIND, *at++ = NETKAT_KIND_IF_THEN_ELSE;
    for (int i = 0; i < 2; i++) at = ifs(at, 5);
    *at++ = NETKAT_MAP_KIND, *at++ = NETKAT_KIND_IF_THEN_ELSE;
    for (int i = 0; i < 2; i++) at = ifs(at, 3);
    at = ifs(at, 1);
    at = ifs(at, 0);
    if (at - term != NETKAT_TERM_MAX) printf("the longest term has %ld bytes\n", (long)(at - term)), failed = 1;
    expect("longest term", netkat_num_fields(term, NETKAT_TERM_MAX), 0, 0, 0x01010181, 0);
    expect("longest term, a byte more", netkat_num_fields(term, NETKAT_TERM_MAX + 1), NETKAT_REFUSAL_LEFT_OVER, NETKAT_MAX_RECORDS, 0, 0);
    expect("longest result", netkat_substitute(term, NETKAT_TERM_MAX, 0, test, 7, result, sizeof result), 0, 0, NETKAT_TERM_MAX, 0);
    same("longest result", result, term, NETKAT_TERM_MAX);

    for (size_t i = 0; i < NETKAT_MAX_LEVELS; i++) term[2 * i] = NETKAT_MAP_KIND, term[2 * i + 1] = NETKAT_KIND_STAR;
    expect("too deep", netkat_check(term, 2 * NETKAT_MAX_LEVELS), NETKAT_REFUSAL_TOO_DEEP, NETKAT_MAX_LEVELS, 0, 0);
    term[2 * NETKAT_MAX_LEVELS - 2] = 0;
    expect("deepest", netkat_check(term, 2 * NETKAT_MAX_LEVELS - 1), 0, 0, 0, 0);

    literal_limits();

    /* 32,767 Sequences, Assigns of 0 to the fields 1 to 32,767 and to field 0 */
    expect("greatest allowance", desugar(wide, sizeof wide, most, n, room), 0, 0, 2 * 32767 + 6 * 32767 + 2, most);
    expect("greater allowance", desugar(wide, sizeof wide, most + 1, n, room), NETKAT_REFUSAL_ALLOWANCE, 0, 0, 0);
    expect("allowance one less", desugar(wide, sizeof wide, most - 1, n, room), NETKAT_REFUSAL_ALLOWANCE_SPENT, 1, 0, 0);
    expect("work one less", desugar(wide, sizeof wide, most, n - 1, room), NETKAT_REFUSAL_WORK_MEMORY, 0, 0, 0);
    expect("longest record of a core", desugar(test, sizeof test, 1, NETKAT_WORK_LEN(1), NETKAT_CORE_MAX(1)), 0, 0, NETKAT_CORE_MAX(1), 1);
}

int main(void) {
    static uint32_t work[16192];
    const uint8_t test[] = {0x49, 0x18, 2, 0, 0, 0, 2, 1};                                    /* x[0..2] == 1/2 */
    const uint8_t core[] = {1, 8, 0x21, 6, 1, 5, 6, 1, 0, 0, 0, 0xa5};
    const uint8_t var[] = {1, 0x14};                                                         /* variable 0 */
    const uint8_t star[] = {1, 0x0e, 1, 0x14};                                               /* its star */
    const uint8_t starred[] = {1, 0x0e, 0x49, 0x18, 2, 0, 0, 0, 2, 1, 0xa5};
    const uint8_t alias[] = {1, 0x13, 1, 0x14};                                              /* variable 0 under an alias 0 */
    const uint8_t left_over[] = {1, 0x0e, 1, 1, 7};                                          /* a byte behind the star of One */
    const uint8_t one[] = {1, 1};
    const uint8_t empty_range[] = {0x0d, 0x17, 3, 0, 0, 0, 3, 0, 0, 0};                      /* x[3..3] := an empty literal */
    const uint8_t highest[] = {5, 6, 0xff, 0xff, 0xff, 0xff};                                 /* a test of the last field */
    const uint8_t kept[] = {0xa5, 0xa5};
    uint8_t out[64];

    expect("check", netkat_check(test, sizeof test), 0, 0, 1, 0);
    expect("check, unbound", netkat_check(var, sizeof var), 12, 0, 0, 0);
    expect("check, empty", netkat_check(var, 0), 1, 0, 0, 0);
    expect("check, left over", netkat_check(left_over, sizeof left_over), 8, 2, 0, 0);

    memset(out, 0xa5, sizeof out);
    expect("desugar", netkat_desugar(test, sizeof test, 1000, work, 16192, out, sizeof out), 0, 0, 11, 3);
    same("desugar", out, core, sizeof core);
    memset(out, 0xa5, sizeof out);
    expect("desugar, short", netkat_desugar(test, sizeof test, 1000, work, 16192, out, 10), 26, 0, 0, 0);
    expect("desugar, spent", netkat_desugar(test, sizeof test, 2, work, 16192, out, sizeof out), 24, 0, 0, 0);
    expect("desugar, work", netkat_desugar(test, sizeof test, 1000, work, 16191, out, sizeof out), 10, 0, 0, 0);
    expect("desugar, allowance", netkat_desugar(test, sizeof test, 0, work, 16192, out, sizeof out), 9, 0, 0, 0);
    same("desugar, refused", out, kept, sizeof kept);

    expect("substitute", netkat_substitute(star, sizeof star, 0, test, sizeof test, out, sizeof out), 0, 0, 10, 0);
    same("substitute", out, starred, sizeof starred);
    expect("substitute, hidden", netkat_substitute(alias, sizeof alias, 0, one, sizeof one, out, sizeof out), 0, 0, 4, 0);
    same("substitute, hidden", out, alias, sizeof alias);
    expect("substitute, bad", netkat_substitute(star, sizeof star, 0, test, 7, out, sizeof out), 31, 0, 0, 0);

    expect("fragment", netkat_is_test_fragment(test, sizeof test), 0, 0, 1, 0);
    expect("fragment, star", netkat_is_test_fragment(star, sizeof star), 0, 0, 0, 0);
    expect("fragment, bad", netkat_is_test_fragment(test, 7), 1, 0, 0, 0);

    expect("fields", netkat_num_fields(test, sizeof test), 0, 0, 2, 0);
    expect("fields, none", netkat_num_fields(one, sizeof one), 0, 0, 0, 0);
    expect("fields, empty range", netkat_num_fields(empty_range, sizeof empty_range), 0, 0, 3, 0);
    expect("fields, last", netkat_num_fields(highest, sizeof highest), 25, 0, 0, 0);

    expect("subrange", netkat_compute_subrange(4, 8, 1, 3), 0, 0, 5, 7);
    expect("subrange, backwards", netkat_compute_subrange(4, 8, 3, 1), 28, 0, 0, 0);
    expect("subrange, outside", netkat_compute_subrange(4, 8, 1, 5), 28, 0, 0, 0);

    nulls();
    limits();
    cost();
    cores_read();
    packets_run();
    if (netkat_version() != NETKAT_VERSION) printf("version %u, expected %u\n", netkat_version(), (unsigned)NETKAT_VERSION), failed = 1;

    if (!failed) puts("netkat.h: all answers as expected");
    return failed;
}
