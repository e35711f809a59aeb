/* A fault of the port, for selftest.sh: stands before one function of the library, whose true one is called true_NAME. */
#include "netkat.h"

#if defined(VALUE_WITH_REFUSAL) || defined(ALWAYS_A_TEST)
netkat_answer true_check(const uint8_t *term, size_t term_len);
netkat_answer netkat_check(const uint8_t *term, size_t term_len) {
    netkat_answer a = true_check(term, term_len);
#ifdef VALUE_WITH_REFUSAL
    if (a.number == 22) a.first = 1;
#else
    if (a.number == 0) a.first = 1;
#endif
    return a;
}

#elif defined(WRONG_RESULT)
netkat_answer true_substitute(const uint8_t *term, size_t term_len, uint16_t name, const uint8_t *replacement, size_t replacement_len,
                              uint8_t *out, size_t out_len);
netkat_answer netkat_substitute(const uint8_t *term, size_t term_len, uint16_t name, const uint8_t *replacement, size_t replacement_len,
                                uint8_t *out, size_t out_len) {
    netkat_answer a = true_substitute(term, term_len, name, replacement, replacement_len, out, out_len);
    if (a.number == 0 && a.first > 30) out[a.first - 1] ^= 1;
    return a;
}

#elif defined(NEVER_25)
netkat_answer true_num_fields(const uint8_t *term, size_t term_len);
netkat_answer netkat_num_fields(const uint8_t *term, size_t term_len) {
    netkat_answer a = true_num_fields(term, term_len);
    if (a.number == 25) a = (netkat_answer){0, 0, 0, 0};
    return a;
}

#elif defined(WRONG_END)
netkat_answer true_compute_subrange(uint32_t alias_start, uint32_t alias_end, uint32_t sub_start, uint32_t sub_end);
netkat_answer netkat_compute_subrange(uint32_t alias_start, uint32_t alias_end, uint32_t sub_start, uint32_t sub_end) {
    netkat_answer a = true_compute_subrange(alias_start, alias_end, sub_start, sub_end);
    if (a.number == 0 && a.second == alias_end) a = (netkat_answer){28, 0, 0, 0};
    return a;
}

#elif defined(COST_ONE_MORE) || defined(COST_NOT_JOINED) || defined(COST_HIGH_HALF_LOST) || defined(COST_PREFIX_AS_A_BYTE) || \
    defined(COST_BYTE_BEHIND) || defined(COST_17_AS_18)
netkat_answer true_cost(uint32_t start, uint32_t end, uint32_t pattern, uint32_t number, const uint8_t *a, size_t a_len, uint32_t a_bits,
                        const uint8_t *b, size_t b_len, uint32_t b_bits);
netkat_answer netkat_cost(uint32_t start, uint32_t end, uint32_t pattern, uint32_t number, const uint8_t *a, size_t a_len, uint32_t a_bits,
                          const uint8_t *b, size_t b_len, uint32_t b_bits) {
#ifdef COST_PREFIX_AS_A_BYTE
    number &= 255;
#endif
    netkat_answer answer = true_cost(start, end, pattern, number, a, a_len, a_bits, b, b_len, b_bits);
#if defined(COST_ONE_MORE)
    if (answer.number == 0 && answer.first > 500) answer.first++;
#elif defined(COST_NOT_JOINED)
    /* one bound alone costs at most so much */
    if (answer.number == 0 && pattern == 3 && answer.first > (end - start) * (end - start + 3) - 1) answer.first--;
#elif defined(COST_HIGH_HALF_LOST)
    answer.second = 0;
#elif defined(COST_BYTE_BEHIND)
    if (answer.number == 0 && pattern == 3 && a[a_len] != 0) answer.first++; /* the comparison has memory behind what it lends */
#elif defined(COST_17_AS_18)
    if (answer.number == 17 && a_bits != end - start) answer.number = 18;
#endif
    return answer;
}

#elif defined(READ_KIND_16) || defined(READ_16_AS_2) || defined(READ_PLACES_FROM_1) || defined(READ_10_BEFORE_25) || \
    defined(READ_WRITES_WHILE_JUDGED) || defined(READ_FIELDS_ONE_LESS) || defined(READ_REST_TOUCHED) || defined(READ_BEHIND_LIST) || \
    defined(READ_SHORT_LIST) || defined(READ_ONE_MORE_RECORD) || defined(READ_DEPTH_OF_TERMS) || defined(READ_BYTE_BEHIND) || \
    defined(READ_LAST_VALUE) || defined(READ_CORE_CHANGED)
#include <stdlib.h>
#include <string.h>
netkat_answer true_read_core(const uint8_t *core, size_t core_len, uint32_t *records, size_t records_len);
netkat_answer netkat_read_core(const uint8_t *core, size_t core_len, uint32_t *records, size_t records_len) {
    netkat_answer a = true_read_core(core, core_len, records, records_len);
#if defined(READ_KIND_16)
    /* the root's kind 16 is taken for another with one operand */
    if (a.number == 41 && a.place == 0 && core[1] == 16) {
        uint8_t *copy = malloc(core_len);
        memcpy(copy, core, core_len);
        copy[1] = 13;
        a = true_read_core(copy, core_len, records, records_len);
        if (a.number == 0) records[0] = 16;
        free(copy);
    }
#elif defined(READ_16_AS_2)
    if (a.number == 41) a.number = 2;
#elif defined(READ_PLACES_FROM_1)
    if (a.number != 0 && a.number != 10) a.place++;
#elif defined(READ_10_BEFORE_25)
    if (a.number == 25 && records_len < 3 * (size_t)a.place + 3) a = (netkat_answer){10, 0, 0, 0};
#elif defined(READ_WRITES_WHILE_JUDGED)
    if (a.number == 8 && records_len > 0) records[0] = core[1];
#elif defined(READ_FIELDS_ONE_LESS)
    if (a.second > 300) a.second--;
#elif defined(READ_REST_TOUCHED)
    if (a.first > 20 && records_len > 3 * (size_t)a.first) records[3 * (size_t)a.first] = 0;
#elif defined(READ_BEHIND_LIST)
    if (a.first > 20) records[records_len] = 0; /* the comparison has memory behind what it lends */
#elif defined(READ_SHORT_LIST)
    if (a.number == 10) {
        uint32_t *list = malloc((records_len + 1) * sizeof *list);
        a = true_read_core(core, core_len, list, records_len + 1);
        if (a.number == 0) memcpy(records, list, records_len * sizeof *list);
        free(list);
    }
#elif defined(READ_ONE_MORE_RECORD)
    if (a.number == 42) a.place++;
#elif defined(READ_DEPTH_OF_TERMS)
    if (a.number == 0 && a.first > 60000 && core[0] == 1 && core[1] > 12) a = (netkat_answer){7, 256, 0, 0};
#elif defined(READ_BYTE_BEHIND)
    if (a.number == 1) a = true_read_core(core, core_len + 1, records, records_len);
#elif defined(READ_LAST_VALUE)
    if (a.first > 20) records[3 * (size_t)a.first - 1] ^= 1;
#elif defined(READ_CORE_CHANGED)
    if (a.number == 8) ((uint8_t *)core)[core_len - 1] = 0;
#endif
    return a;
}

#elif defined(PACKETS_FROM_HIGHEST_BIT) || defined(PACKETS_NEXT_BYTE) || defined(PACKETS_ROUNDED_DOWN) || defined(PACKETS_CUT_IGNORED) || \
    defined(PACKETS_STARTS_IN_32_BITS) || defined(PACKETS_XOR_AS_UNION) || defined(PACKETS_OPERANDS_EXCHANGED) || \
    defined(PACKETS_UNUSED_BIT) || defined(PACKETS_HALVES_EXCHANGED) || defined(PACKETS_LAST_LOST) || defined(PACKETS_50_BEFORE_49) || \
    defined(PACKETS_48_BEFORE_10) || defined(PACKETS_50_AT_0) || defined(PACKETS_DEPTH) || defined(PACKETS_LIST_COUNTS) || \
    defined(PACKETS_BEHIND_LIST) || defined(PACKETS_CHANGED) || defined(PACKETS_LOW_FIELD_BITS) || defined(PACKETS_SKIPPED_FORM) || \
    defined(PACKETS_SKIPPED_KIND) || defined(PACKETS_SKIPPED_FIELD)
#include <stdlib.h>
#include <string.h>
/* packets end to end, and their lengths */
typedef struct {
    uint8_t *bytes;
    size_t bytes_len;
    uint32_t lengths[512];
    size_t count;
} lent;
netkat_answer true_run_packets(const uint8_t *core, size_t core_len, uint32_t *records, size_t records_len, const uint8_t *packets,
                               size_t packets_len, const uint32_t *lengths, size_t lengths_len);

/* The packets, each with `more` zeros behind it, and with zeros for what the slice lacks of it where `whole`. Starts are sums below `wrap`. */
static lent copied(const uint8_t *packets, size_t packets_len, const uint32_t *lengths, size_t count, size_t more, int whole, uint64_t wrap) {
    lent made = {calloc(count + 1, packets_len + 1001), 0, {0}, count < 512 ? count : 512};
    uint64_t begin = 0;
    for (size_t i = 0; i < made.count; i++) {
        size_t held = begin < packets_len ? packets_len - begin : 0;
        if (lengths[i] < held) held = lengths[i];
        size_t kept = whole && lengths[i] < 1000 ? lengths[i] : held;
        memcpy(made.bytes + made.bytes_len, packets + begin % wrap, held);
        made.bytes_len += kept + more;
        made.lengths[i] = (uint32_t)(kept + more);
        begin = (begin + lengths[i]) % wrap;
    }
    return made;
}

#if defined(PACKETS_XOR_AS_UNION) || defined(PACKETS_OPERANDS_EXCHANGED) || defined(PACKETS_LOW_FIELD_BITS)
/* The end of the record at `at`, and its kind. */
static size_t record_end(const uint8_t *core, size_t at, uint8_t *kind) {
    uint8_t map = core[at++];
    *kind = map & 1 ? core[at] : 0;
    return at + (map & 1) + (map & 4) + (map >> 5 & 1);
}
#endif

netkat_answer netkat_run_packets(const uint8_t *core, size_t core_len, uint32_t *records, size_t records_len, const uint8_t *packets,
                                 size_t packets_len, const uint32_t *lengths, size_t lengths_len) {
    uint32_t before = records_len > 0 ? records[0] : 0;
    netkat_answer a = true_run_packets(core, core_len, records, records_len, packets, packets_len, lengths, lengths_len);
    lent other = copied(packets, packets_len, lengths, lengths_len, 0, 0, UINT64_MAX);
    uint8_t *changed = malloc(core_len + 1), kind = 0;
    if (core_len > 0) memcpy(changed, core, core_len);
#if defined(PACKETS_FROM_HIGHEST_BIT)
    for (size_t i = 0; i < other.bytes_len; i++) {
        uint8_t byte = other.bytes[i];
        for (int bit = 0; bit < 8; bit++) other.bytes[i] = (uint8_t)(other.bytes[i] << 1 | (byte >> bit & 1));
    }
    if (a.number == 0) a = true_run_packets(core, core_len, records, records_len, other.bytes, other.bytes_len, other.lengths, other.count);
#elif defined(PACKETS_NEXT_BYTE)
    if (a.number == 0) {
        memmove(other.bytes, other.bytes + 1, other.bytes_len);
        a = true_run_packets(core, core_len, records, records_len, other.bytes, other.bytes_len, other.lengths, other.count);
    }
#elif defined(PACKETS_ROUNDED_DOWN) || defined(PACKETS_CUT_IGNORED) || defined(PACKETS_STARTS_IN_32_BITS)
    free(other.bytes);
#if defined(PACKETS_ROUNDED_DOWN)
    /* a packet may lack the byte that the last fields begin */
    other = copied(packets, packets_len, lengths, lengths_len, 1, 0, UINT64_MAX);
#elif defined(PACKETS_CUT_IGNORED)
    other = copied(packets, packets_len, lengths, lengths_len, 0, 1, UINT64_MAX);
#else
    other = copied(packets, packets_len, lengths, lengths_len, 0, 0, (uint64_t)1 << 32);
#endif
    if (a.number == 50) a = true_run_packets(core, core_len, records, records_len, other.bytes, other.bytes_len, other.lengths, other.count);
#elif defined(PACKETS_XOR_AS_UNION)
    if (a.number == 0) {
        for (size_t at = 0; at < core_len;) {
            size_t end = record_end(core, at, &kind);
            if (kind == 9) changed[at + 1] = 7;
            at = end;
        }
        a = true_run_packets(changed, core_len, records, records_len, packets, packets_len, lengths, lengths_len);
    }
#elif defined(PACKETS_LOW_FIELD_BITS)
    if (a.number == 0) {
        for (size_t at = 0; at < core_len;) {
            size_t end = record_end(core, at, &kind);
            if (end - at > 5 && core[at + 2] != 0) changed[at + 3] = 0; /* of four bytes the second */
            at = end;
        }
        a = true_run_packets(changed, core_len, records, records_len, packets, packets_len, lengths, lengths_len);
    }
#elif defined(PACKETS_SKIPPED_FORM) || defined(PACKETS_SKIPPED_KIND) || defined(PACKETS_SKIPPED_FIELD)
    /* the right operand of an Intersect of Zero is not looked at */
#if defined(PACKETS_SKIPPED_FORM)
    int missed = a.number < 6 || a.number == 25 || a.number == 41;
#elif defined(PACKETS_SKIPPED_KIND)
    int missed = a.number == 48;
#else
    int missed = a.number == 50;
#endif
    if (missed && core_len > 3 && core[0] == 1 && core[1] == 8 && core[2] == 0) a = (netkat_answer){0, 0, 0, 0};
#elif defined(PACKETS_OPERANDS_EXCHANGED)
    /* of a Difference at the root */
    if (a.number == 0 && core[0] == 1 && core[1] == 10) {
        size_t end = 2;
        for (int due = 1; due > 0; due += kind >= 7 ? 1 : -1) end = record_end(core, end, &kind);
        memcpy(changed + 2, core + end, core_len - end);
        memcpy(changed + 2 + core_len - end, core + 2, end - 2);
        a = true_run_packets(changed, core_len, records, records_len, packets, packets_len, lengths, lengths_len);
    }
#elif defined(PACKETS_UNUSED_BIT)
    if (a.number == 0 && lengths_len < 32) a.first |= 1u << lengths_len;
#elif defined(PACKETS_HALVES_EXCHANGED)
    a = (netkat_answer){a.number, a.place, a.second, a.first};
#elif defined(PACKETS_LAST_LOST)
    if (lengths_len == 64) a.second &= UINT32_MAX >> 1;
#elif defined(PACKETS_50_BEFORE_49)
    if (a.number == 49 && lengths_len > 64) {
        netkat_answer first = true_run_packets(core, core_len, records, records_len, packets, packets_len, lengths, 64);
        if (first.number == 50) a = first;
    }
#elif defined(PACKETS_48_BEFORE_10)
    if (a.number == 10) {
        uint32_t *list = malloc((records_len + 3) * sizeof *list);
        netkat_answer more = true_run_packets(core, core_len, list, records_len + 3, packets, packets_len, lengths, lengths_len);
        if (more.number == 48) a = more;
        free(list);
    }
#elif defined(PACKETS_50_AT_0)
    if (a.number == 50) a.place = 0;
#elif defined(PACKETS_DEPTH)
    if (a.number == 0 && records_len > 180000 && core[2] == core[0] && core[3] == core[1]) a.first ^= 1;
#elif defined(PACKETS_LIST_COUNTS)
    if (a.number == 0 && before != 0) a.first ^= 1;
#elif defined(PACKETS_BEHIND_LIST)
    if (a.number == 0 && lengths_len > 40) records[records_len] = 0; /* the comparison has memory behind what it lends */
#elif defined(PACKETS_CHANGED)
    if (a.number == 50 && packets_len > 0) ((uint8_t *)packets)[packets_len - 1] ^= 1;
#endif
    (void)before, (void)kind;
    free(other.bytes);
    free(changed);
    return a;
}

#else
netkat_answer true_desugar(const uint8_t *term, size_t term_len, uint32_t allowance, uint32_t *work, size_t work_len, uint8_t *out,
                           size_t out_len);
netkat_answer netkat_desugar(const uint8_t *term, size_t term_len, uint32_t allowance, uint32_t *work, size_t work_len, uint8_t *out,
                             size_t out_len) {
    netkat_answer a = true_desugar(term, term_len, allowance, work, work_len, out, out_len);
#if defined(WRONG_DRAWN)
    if (a.number == 0 && a.second > 500) a.second++;
#elif defined(WRONG_PLACE)
    if (a.number == 18) a.place++;
#elif defined(WRONG_CORE)
    if (a.number == 0 && a.first > 500) out[a.first / 2] ^= 1;
#elif defined(BYTE_ON_REFUSAL)
    if (a.number == 26 && out_len > 0) out[0] ^= 1;
#elif defined(BYTE_BEHIND_ANSWER)
    if (a.number == 0) out[a.first] ^= 1; /* the comparison has memory behind what it lends */
#elif defined(NUMBER_BEHIND_WORK)
    if (a.number == 0) work[work_len] = 0;
#else
#error no fault chosen
#endif
    return a;
}
#endif
