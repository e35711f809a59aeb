/* From a written NetKAT policy to its one-bit core: what libnetkat.a exports.
 *
 * Terms, cores and packets are bytes: FORMAT.md says their form, REFUSALS.md what is refused, TERMS.md what the words mean; they stand in docs/, and
 * are installed below share/doc/netkat. A slice is a pointer to its first element and its length in elements. Every operation answers a
 * struct by value. Of what its caller owns it changes nothing but `work`, `out` and `records`; it allocates nothing, and keeps no pointer
 * and no state. So it may be called from several threads at once, as long as no call is lent a `work`, `out` or `records` that another call
 * has, and nobody writes the bytes that a call reads.
 *
 * What the caller owes: the elements are there, as many as the length says, and aligned; `work`, `out` and `records` overlap neither each
 * other nor another slice of the same call. Slices that are only read may overlap each other. A pointer may be NULL if its length is 0
 * (tested).
 *
 * A term is walked with recursion, at most 256 levels deep: "Stack" below says how many bytes that takes. A core can be as deep as it has
 * records, and is read without recursion. The archive is for x86-64, needs memset of the C library alone, and is linked by
 *
 *     cc program.c $(pkg-config --cflags --libs netkat)
 *
 * What is said here of answers is proved of the functions for every input; this file itself is not: it declares them by hand. */
#ifndef NETKAT_H
#define NETKAT_H

#include <stddef.h>
#include <stdint.h>

#ifdef __cplusplus
extern "C" {
#endif

/* The version of this header. The pkg-config file takes it from here, and a test compares netkat_version with it. */
#define NETKAT_VERSION_MAJOR 0
#define NETKAT_VERSION_MINOR 5
#define NETKAT_VERSION_PATCH 0
#define NETKAT_VERSION (NETKAT_VERSION_MAJOR * 65536 + NETKAT_VERSION_MINOR * 256 + NETKAT_VERSION_PATCH)

/* The version of the library that is linked, as NETKAT_VERSION puts it. */
uint32_t netkat_version(void);

/* Limits of a term: beyond the first three it is refused by 6, 7 and 5; a greater prefix cannot be written, and one above 192 breaks rule
 * 17 or 18. The third holds of netkat_cost as well, the fourth does not. */
#define NETKAT_MAX_RECORDS 4096
#define NETKAT_MAX_LEVELS 256
#define NETKAT_MAX_LITERAL_BITS 192
#define NETKAT_MAX_PREFIX 255

/* The most fields that an IpRange can be matched against; with more it is refused by 20. */
#define NETKAT_MAX_RANGE_PATTERN_FIELDS 128

/* No match with an IpRange has a core of more nodes. On 128 fields the values from 2^127 to the highest one without bit 126 need just so
 * many. */
#define NETKAT_MAX_RANGE_PATTERN_COST 33529

/* The longest record, a match on a direct range with two literals of 192 bits, and the longest term: 1,365 Ifs over 2,731 such matches.
 * A buffer of NETKAT_TERM_MAX bytes holds every term, so also every result of netkat_substitute. */
#define NETKAT_RECORD_MAX 61
#define NETKAT_TERM_MAX 169321

/* Desugar: the greatest allowance; the numbers of work memory that an allowance needs, so that 10 is not met; bytes that no core under an
 * allowance exceeds, so that 26 is not met. */
#define NETKAT_MAX_ALLOWANCE 65535
#define NETKAT_WORK_LEN(allowance) ((size_t)8 * (size_t)(allowance) + 8192)
#define NETKAT_CORE_MAX(allowance) ((size_t)7 * (size_t)(allowance))

/* Read core: the most records of a core that is read, which are as many as Desugar can make; with more it is refused by 42. The numbers of
 * a list for so many records, so that 10 is not met. A record has at least one byte: a core has no more records than bytes, and if Desugar
 * made it, no more than were drawn. */
#define NETKAT_MAX_CORE_RECORDS 65535
#define NETKAT_RECORDS_LEN(records) ((size_t)3 * (size_t)(records))

/* Run packets: the most packets of a call; with more, or with none, it is refused by 49. The record list is as for Read core. */
#define NETKAT_MAX_PACKETS 64

/* Stack: bytes below its caller's frame that are enough for a function, whatever its input. In a thread add what the C library keeps on
 * its stack, for which PTHREAD_STACK_MIN was enough (glibc), thread-local variables, the frames above the call and those of signal
 * handlers. Measured, not proved: tests/stack.c looks for the worst terms of 256 levels, and cores of 65,535 records, on x86-64, and then
 * runs each function on just so much. `make stack` prints these lines anew: what was measured and 512 more, rounded up to 4,096. What was
 * promised stays where a later compiler needs less. */
#define NETKAT_STACK_CHECK 163840            /* 82096 measured */
#define NETKAT_STACK_DESUGAR 237568          /* 168296 measured */
#define NETKAT_STACK_SUBSTITUTE 102400       /* 70112 measured */
#define NETKAT_STACK_IS_TEST_FRAGMENT 57344  /* 37056 measured */
#define NETKAT_STACK_NUM_FIELDS 57344        /* 37072 measured */
#define NETKAT_STACK_COMPUTE_SUBRANGE 4096   /* 48 measured */
#define NETKAT_STACK_COST 4096               /* 376 measured */
#define NETKAT_STACK_READ_CORE 4096          /* 248 measured */
#define NETKAT_STACK_RUN_PACKETS 8192        /* 4536 measured */

/* The numbers of refusals. 43 to 47 and 51 to 54 are kept for functions to come. */
enum netkat_refusal {
    NETKAT_OK = 0,
    /* the term's form; 1 to 5 and 8 also that of a core, 1 and 5 that of a pattern that is lent to netkat_cost */
    NETKAT_REFUSAL_ENDS_EARLY = 1,       /* the bytes end before the term or core, or a lent literal, is complete */
    NETKAT_REFUSAL_UNKNOWN_KIND = 2,     /* a kind above 26 */
    NETKAT_REFUSAL_FOREIGN_FIELD = 3,    /* a map bit of a field that the kind, or the pattern, does not have */
    NETKAT_REFUSAL_ZERO_WRITTEN = 4,     /* a field that is zero or empty is written, or a spare bit of a literal is 1 */
    NETKAT_REFUSAL_OUT_OF_RANGE = 5,     /* a pattern above 3, the value of an Assign or Test above 1, a literal of more than 192 bits */
    NETKAT_REFUSAL_TOO_MANY_RECORDS = 6, /* more than 4,096 records */
    NETKAT_REFUSAL_TOO_DEEP = 7,         /* more than 256 levels */
    NETKAT_REFUSAL_LEFT_OVER = 8,        /* bytes behind the end of the term or core */
    /* what the caller lends */
    NETKAT_REFUSAL_ALLOWANCE = 9,    /* the allowance is not 1 to 65,535 */
    NETKAT_REFUSAL_WORK_MEMORY = 10, /* work is shorter than NETKAT_WORK_LEN(allowance), or records than three numbers for each record */
    /* the rules */
    NETKAT_REFUSAL_UNKNOWN_ALIAS = 11,         /* no LetBitRange around it has this name */
    NETKAT_REFUSAL_UNBOUND_VARIABLE = 12,      /* no Let and no LetBitRange around it has this name */
    NETKAT_REFUSAL_ALIAS_AS_VARIABLE = 13,     /* a variable of a name that only an alias has */
    NETKAT_REFUSAL_RANGE_END_BELOW_START = 14, /* the range in use ends below its start */
    NETKAT_REFUSAL_LITERAL_TOO_LONG = 15,      /* a literal longer than its alias, or an Exact pattern longer than its range */
    NETKAT_REFUSAL_LITERAL_WIDTH = 16,         /* a literal on a direct range that has not just its width */
    NETKAT_REFUSAL_CIDR_PREFIX = 17,           /* a prefix above the width */
    NETKAT_REFUSAL_CIDR_ADDRESS = 18,          /* a Cidr address whose length is not the width */
    NETKAT_REFUSAL_WILDCARD_WIDTH = 19,        /* a Wildcard address or mask whose length is not the width */
    NETKAT_REFUSAL_IP_RANGE_WIDTH = 20,        /* an IpRange on more than 128 fields, or with a bound longer than the range */
    NETKAT_REFUSAL_IP_RANGE_ORDER = 21,        /* an IpRange that starts above its end */
    NETKAT_REFUSAL_NEGATED_NON_TEST = 22,      /* what is negated is no test */
    NETKAT_REFUSAL_CONDITION_NOT_TEST = 23,    /* the condition of an If is no test */
    /* limits of an answer */
    NETKAT_REFUSAL_ALLOWANCE_SPENT = 24,  /* a step makes more core nodes than are left of the allowance */
    NETKAT_REFUSAL_FIELD_COUNT = 25,      /* an Assign or Test of field 4,294,967,295 */
    NETKAT_REFUSAL_BUFFER_TOO_SHORT = 26, /* out is shorter than the answer */
    NETKAT_REFUSAL_RESULT_TOO_LARGE = 27, /* the term with its replacements has more than 4,096 records or 256 levels */
    NETKAT_REFUSAL_SUBRANGE_OUTSIDE = 28, /* the subrange runs backwards, or beyond its alias */
    /* the form of a replacement: 30 more than for a term */
    NETKAT_REFUSAL_REPLACEMENT_ENDS_EARLY = 31,
    NETKAT_REFUSAL_REPLACEMENT_UNKNOWN_KIND = 32,
    NETKAT_REFUSAL_REPLACEMENT_FOREIGN_FIELD = 33,
    NETKAT_REFUSAL_REPLACEMENT_ZERO_WRITTEN = 34,
    NETKAT_REFUSAL_REPLACEMENT_OUT_OF_RANGE = 35,
    NETKAT_REFUSAL_REPLACEMENT_TOO_MANY_RECORDS = 36,
    NETKAT_REFUSAL_REPLACEMENT_TOO_DEEP = 37,
    NETKAT_REFUSAL_REPLACEMENT_LEFT_OVER = 38,
    /* the form of a core, besides 1 to 5 and 8 */
    NETKAT_REFUSAL_TERM_KIND = 41,      /* a kind from 16 to 26, which only a term has */
    NETKAT_REFUSAL_CORE_TOO_LARGE = 42, /* more than 65,535 records */
    /* packets that are run through a core */
    NETKAT_REFUSAL_CORE_NOT_TEST = 48,   /* the core has a record that is not Zero, One, Test or one of the kinds 7 to 11 */
    NETKAT_REFUSAL_PACKET_COUNT = 49,    /* no packet, or more than 64 */
    NETKAT_REFUSAL_PACKET_TOO_SHORT = 50 /* a packet has fewer bits than the field count of the core */
};

/* The kinds of records; FORMAT.md says what each has and means. 0 to 15 are those of a core. A VAR_ASSIGN, VAR_TEST or VAR_MATCH uses an
 * alias; VAR alone uses a variable. */
enum netkat_kind {
    NETKAT_KIND_ZERO = 0,
    NETKAT_KIND_ONE = 1,
    NETKAT_KIND_TOP = 2,
    NETKAT_KIND_DUP = 3,
    NETKAT_KIND_END = 4,
    NETKAT_KIND_ASSIGN = 5,
    NETKAT_KIND_TEST = 6,
    NETKAT_KIND_UNION = 7,
    NETKAT_KIND_INTERSECT = 8,
    NETKAT_KIND_XOR = 9,
    NETKAT_KIND_DIFFERENCE = 10,
    NETKAT_KIND_SEQUENCE = 11,
    NETKAT_KIND_LTL_UNTIL = 12,
    NETKAT_KIND_COMPLEMENT = 13,
    NETKAT_KIND_STAR = 14,
    NETKAT_KIND_LTL_NEXT = 15,
    NETKAT_KIND_TEST_NEGATION = 16,
    NETKAT_KIND_IF_THEN_ELSE = 17,
    NETKAT_KIND_LET = 18,
    NETKAT_KIND_LET_BIT_RANGE = 19,
    NETKAT_KIND_VAR = 20,
    NETKAT_KIND_VAR_ASSIGN = 21,
    NETKAT_KIND_VAR_TEST = 22,
    NETKAT_KIND_BIT_RANGE_ASSIGN = 23,
    NETKAT_KIND_BIT_RANGE_TEST = 24,
    NETKAT_KIND_BIT_RANGE_MATCH = 25,
    NETKAT_KIND_VAR_MATCH = 26
};

/* The patterns of BitRangeMatch and VarMatch. */
enum netkat_pattern { NETKAT_PATTERN_EXACT = 0, NETKAT_PATTERN_CIDR = 1, NETKAT_PATTERN_WILDCARD = 2, NETKAT_PATTERN_IP_RANGE = 3 };

/* The bits of a record's map byte: which fields are written, in this order. */
enum netkat_map {
    NETKAT_MAP_KIND = 1,
    NETKAT_MAP_NAME = 2,
    NETKAT_MAP_START = 4,
    NETKAT_MAP_END = 8,
    NETKAT_MAP_PATTERN = 16,
    NETKAT_MAP_NUMBER = 32,
    NETKAT_MAP_A = 64,
    NETKAT_MAP_B = 128
};

/* Success: number 0, place 0, and the operation's values in first and second, 0 where it has none.
 * A refusal: its number and its place; first and second are 0. The place is the index of a record of the term or core, from 0 in written
 * order, or of a packet:
 *   1 to 7, 41, 42            the record being read
 *   8                         the number of records, as the bytes left over stand behind the last one
 *   11 to 24                  the record that breaks the rule, or whose draw goes beyond the allowance
 *   25                        the Assign or Test
 *   31 to 38                  as 1 to 8, counted in the replacement
 *   50                        the packet, from 0 in the order of the lengths
 *   9, 10, 26 to 28, 48, 49   0
 * Of netkat_cost, which is lent no term, it is 0 whatever the number.
 * Where refusals of several groups apply, that of the group which a function names first is answered. Rules and draws are judged in walking
 * order: a record's children from left to right, then the record itself. */
typedef struct netkat_answer {
    uint32_t number;
    uint32_t place;
    uint32_t first;
    uint32_t second;
} netkat_answer;

/* Does the term keep the rules, and is it a test? first: 1 if it is a test, else 0.
 * 1 to 8 by form; 11 to 23 by the first rule that fails in walking order. */
netkat_answer netkat_check(const uint8_t *term, size_t term_len);

/* The term's core, in the front of out. first: its length in bytes; second: the drawn total, the number of core nodes that all steps
 * together made. It is at most the allowance, and the core has at most so many nodes.
 * 9 if the allowance is not 1 to 65,535; 10 if work has fewer than NETKAT_WORK_LEN(allowance) numbers; 1 to 8 by form; 11 to 23 by a rule
 * or 24 by a draw beyond the allowance, whichever comes first in walking order; 26 if out is shorter than the core's bytes.
 * On a refusal every byte of out is kept, on success every byte behind the core. Of work only the length counts: the answer does not
 * depend on its numbers, and nothing is promised of them after the call. */
netkat_answer netkat_desugar(const uint8_t *term, size_t term_len, uint32_t allowance, uint32_t *work, size_t work_len, uint8_t *out,
                             size_t out_len);

/* The term with each occurrence of the variable `name` replaced that does not lie in the body of a Let or LetBitRange of that name, in
 * the front of out. first: its length in bytes.
 * An occurrence is a Var; the alias of a VarAssign, VarTest or VarMatch is none. Names stay as they are: a name that is free in the
 * replacement is bound by a Let or LetBitRange around the place where it is put.
 * 1 to 8 by the term's form; 31 to 38 by the replacement's; 27 if the result has more than 4,096 records or more than 256 levels; 26 if
 * out is shorter than the result. On a refusal every byte of out is kept, on success every byte behind the result. */
netkat_answer netkat_substitute(const uint8_t *term, size_t term_len, uint16_t name, const uint8_t *replacement, size_t replacement_len,
                                uint8_t *out, size_t out_len);

/* Is the term in the test fragment: does it consist of Zero, One, Test, VarTest, BitRangeTest, BitRangeMatch, VarMatch, Union,
 * Intersect, Xor, Difference, Sequence and TestNegation alone? first: 1 if it does, else 0. 1 to 8 by form; no rule is judged. */
netkat_answer netkat_is_test_fragment(const uint8_t *term, size_t term_len);

/* The field count. first: the greatest of field + 1 of an Assign or Test and the end of a direct range or of a LetBitRange; 0 where there
 * is none. 1 to 8 by form; 25 at the first Assign or Test of field 4,294,967,295. */
netkat_answer netkat_num_fields(const uint8_t *term, size_t term_len);

/* The fields of alias[sub_start..sub_end], where the alias has the fields from alias_start up to alias_end, the end not among them.
 * first and second: alias_start + sub_start and alias_start + sub_end. 28 if sub_end is below sub_start, or if that last sum, which may be
 * beyond 32 bits, is above alias_end. */
netkat_answer netkat_compute_subrange(uint32_t alias_start, uint32_t alias_end, uint32_t sub_start, uint32_t sub_end);

/* What a match of the pattern on the fields from start up to end, the end not among them, draws on the allowance of netkat_desugar: the
 * number of nodes of its core, without making them. It is at least 1, and may be beyond 32 bits: first is its low half, second its high
 * half, and NETKAT_COST puts them together. FORMAT.md has the figures of each pattern.
 * number is the prefix of a Cidr, any number of 32 bits; the other patterns do not look at it. A literal is lent without the length byte
 * that it has in a term: its bits lie in a, bit 0 the lowest of the first byte, and there are a_bits of them. Spare bits of the last byte
 * and further bytes are not looked at. So with literal B, which Wildcard and IpRange have; for Exact and Cidr b, b_len and b_bits are not
 * looked at: NULL, 0 and 0 will do.
 * 5 if the pattern is above 3; 5 if A has more than 192 bits, 1 if a has fewer bytes than they need; the same of B; then as the match is
 * refused: 14; 15 (Exact), 17 before 18 (Cidr), 19 (Wildcard), 20 before 21 (IpRange). */
netkat_answer netkat_cost(uint32_t start, uint32_t end, uint32_t pattern, uint32_t number, const uint8_t *a, size_t a_len, uint32_t a_bits,
                          const uint8_t *b, size_t b_len, uint32_t b_bits);
/* The cost that netkat_cost answered; 0 if it refused. The argument is evaluated twice. */
#define NETKAT_COST(answer) ((uint64_t)(answer).second << 32 | (answer).first)

/* Reads a core back, as netkat_desugar wrote it: its records as numbers, in the front of records. A record has three: its kind, 0 to 15,
 * its field and its value, which are 0 but for an Assign or Test. They stand in prefix order, so that a kind says how many children follow.
 * first: how many records there are; second: the field count, the greatest of field + 1 of an Assign or Test, 0 where there is none.
 * A core may have up to 65,535 records, at any depth, which takes no more stack. It need not be one that netkat_desugar would write: the
 * form decides alone. What netkat_desugar wrote is read to the tree that it came from, unless 25 or 10 applies. Cores with the same records
 * have the same bytes.
 * 1 to 5, 8, 41 and 42 by form, as for a term but without 6 and 7: 42 at a 65,536th record, which needs no byte; 41 at a kind from 16 to
 * 26, looked at beside 2, which is for kinds above 26. Then 25 at the first Assign or Test of field 4,294,967,295. Last 10, if records has
 * fewer than three numbers for each record.
 * On a refusal every number of records is kept, on success every number behind those of the core. */
netkat_answer netkat_read_core(const uint8_t *core, size_t core_len, uint32_t *records, size_t records_len);

/* Runs packets through a core that is a test, one with the kinds 0, 1 and 6 to 11 alone, in one pass over its records for all of them. The
 * answer has a bit for each packet, bit 0 for the first: 1 if the packet passes, that is if the core relates it to itself, whatever the
 * fields beyond its bytes are. The bits of packets that are not there are 0. first is the low half of these 64 bits, second the high half,
 * and NETKAT_PASSED puts them together.
 * The packets lie end to end in packets, and lengths has the length of each in bytes, so that a packet begins at the sum of the lengths
 * before it, which may be beyond 32 bits. A packet has 8 bits for each of its bytes that packets holds: one that goes beyond the end is cut
 * there, one that begins beyond it is empty. Field f is bit f % 8 of the packet's byte f / 8, bit 0 the lowest. Bits of a packet beyond the
 * field count of the core, and bytes behind the last packet, are not looked at.
 * 1 to 5, 8, 41, 42, 25 and 10, as netkat_read_core refuses the core and the list. Then 48 if the core is not a test; 49 if there is no
 * packet or more than 64; 50 at the first packet that has fewer bits than the field count.
 * Of records only the length counts: the answer does not depend on its numbers, and nothing is promised of them after the call, whether it
 * was refused or not. */
netkat_answer netkat_run_packets(const uint8_t *core, size_t core_len, uint32_t *records, size_t records_len, const uint8_t *packets,
                                 size_t packets_len, const uint32_t *lengths, size_t lengths_len);
/* The bits that netkat_run_packets answered; 0 if it refused, which number says. The argument is evaluated twice. */
#define NETKAT_PASSED(answer) ((uint64_t)(answer).second << 32 | (answer).first)

#ifdef __cplusplus
}
#endif

#endif
