/* How much stack each function of include/netkat.h needs, and whether the figures that the header promises are enough.
 *
 *   stack            measures, prints a table, then runs each function on its worst shape with just the promised stack; exits 1 if a
 *                    promise is too small
 *   stack define     measures and prints the lines for include/netkat.h: `make stack`
 *
 * Measured over terms of 256 levels: a chain of each kind through each of its children above each of a list of small bottoms; chains of
 * random kinds with random siblings; for Substitute also deep replacements at variables of several levels. Cost, which is lent no term, is
 * measured over the matches among the bottoms; Read core over chains of each kind of a core, of 65,535 records; Run packets over these and
 * over chains of tests of 1,024 fields, with 64 packets. A thread gets a stack that was filled with a pattern; the lowest byte that is not
 * the pattern any more shows how deep it went. It counts from the frame of `run`, which calls the library: the thread's own frames, and
 * what the C library keeps above them, are left out, some 100 bytes of `run` are in.
 *
 * A run on a promised stack is made in a thread too, whose stack ends at a page without access. Before it calls `run` it takes up (alloca)
 * all but the promised bytes, so that neither PTHREAD_STACK_MIN nor what lies above the call plays a part. Each run is a process of its
 * own, as a stack overflow ends one. That it does see a stack that is too small is tried with 4,096 bytes less than was measured. One more
 * run has a thread as a user makes it, with a stack size of the promised bytes and PTHREAD_STACK_MIN. */
#define _GNU_SOURCE
#include "../include/netkat.h"
#include <alloca.h>
#include <limits.h>
#include <pthread.h>
#include <stdio.h>
#include <stdlib.h>
#include <string.h>
#include <sys/mman.h>
#include <sys/wait.h>
#include <unistd.h>

#define COUNT(a) (sizeof(a) / sizeof *(a))
#define STACK ((size_t)2 << 20)
#define RANDOM_TERMS 1000

enum function { CHECK, DESUGAR, SUBSTITUTE, FRAGMENT, FIELDS, SUBRANGE, COST, READ_CORE, RUN_PACKETS, FUNCTIONS };

static const struct {
    const char *name, *define;
    size_t promised;
} functions[FUNCTIONS] = {
    {"netkat_check", "NETKAT_STACK_CHECK", NETKAT_STACK_CHECK},
    {"netkat_desugar", "NETKAT_STACK_DESUGAR", NETKAT_STACK_DESUGAR},
    {"netkat_substitute", "NETKAT_STACK_SUBSTITUTE", NETKAT_STACK_SUBSTITUTE},
    {"netkat_is_test_fragment", "NETKAT_STACK_IS_TEST_FRAGMENT", NETKAT_STACK_IS_TEST_FRAGMENT},
    {"netkat_num_fields", "NETKAT_STACK_NUM_FIELDS", NETKAT_STACK_NUM_FIELDS},
    {"netkat_compute_subrange", "NETKAT_STACK_COMPUTE_SUBRANGE", NETKAT_STACK_COMPUTE_SUBRANGE},
    {"netkat_cost", "NETKAT_STACK_COST", NETKAT_STACK_COST},
    {"netkat_read_core", "NETKAT_STACK_READ_CORE", NETKAT_STACK_READ_CORE},
    {"netkat_run_packets", "NETKAT_STACK_RUN_PACKETS", NETKAT_STACK_RUN_PACKETS},
};

static const char *kinds[] = {
    "Zero", "One",         "Top",      "Dup",       "End",        "Assign",         "Test",         "Union",         "Intersect",
    "Xor",  "Difference",  "Sequence", "LtlUntil",  "Complement", "Star",           "LtlNext",      "TestNegation",  "IfThenElse",
    "Let",  "LetBitRange", "Var",      "VarAssign", "VarTest",    "BitRangeAssign", "BitRangeTest", "BitRangeMatch", "VarMatch"};
static const uint8_t arity[] = {0, 0, 0, 0, 0, 0, 0, 2, 2, 2, 2, 2, 2, 1, 1, 1, 1, 3, 2, 1, 0, 0, 0, 0, 0, 0, 0};

/* What stands at the bottom of a chain: its bytes and its levels. The last ones are refused by form. */
#define ONES "\xff\xff\xff\xff\xff\xff\xff\xff\xff\xff\xff\xff\xff\xff\xff\xff"
#define TOP "\xfe\xff\xff\xff\xff\xff\xff\xff\xff\xff\xff\xff\xff\xff\xff"
static const struct {
    const char *name, *bytes;
    size_t len, levels;
} bottoms[] = {
#define B(name, bytes, levels)                                                                                                             \
    { name, bytes, sizeof bytes - 1, levels }
    B("Zero", "\x00", 1),
    B("One", "\x01\x01", 1),
    B("Top", "\x01\x02", 1),
    B("Assign", "\x25\x05\x01\x00\x00\x00\x01", 1),
    B("Test", "\x25\x06\x01\x00\x00\x00\x01", 1),
    B("Var", "\x01\x14", 1),
    B("Var of the chain", "\x03\x14\x01\x00", 1),
    B("VarAssign", "\x03\x15\x01\x00", 1),
    B("VarTest", "\x43\x16\x01\x00\x01\x01", 1),
    B("BitRangeAssign", "\x49\x17\x80\x00\x00\x00\x80" ONES, 1),
    B("BitRangeTest", "\x49\x18\x80\x00\x00\x00\x80" ONES, 1),
    B("Exact", "\x49\x19\x80\x00\x00\x00\x80" ONES, 1),
    B("Cidr", "\x79\x19\x80\x00\x00\x00\x01\x40\x80" ONES, 1),
    B("Wildcard", "\xd9\x19\x08\x00\x00\x00\x02\x08\xa5\x08\x5a", 1),
    B("IpRange", "\xd9\x19\x80\x00\x00\x00\x03\x08\x01\x78" TOP, 1),
    B("IpRange above", "\xd9\x19\x08\x00\x00\x00\x03\x08\x01\x08\xfe", 1),
    B("VarMatch", "\xd3\x1a\x01\x00\x03\x04\x01\x04\x0e", 1),
    B("a negated Test", "\x01\x10\x25\x06\x01\x00\x00\x00\x01", 2),
    B("a negated range", "\x01\x10\xd9\x19\x08\x00\x00\x00\x03\x08\x01\x08\xfe", 2),
    B("a negated Xor", "\x01\x10\x01\x09\x05\x06\x01\x00\x00\x00\x01\x06", 3),
    B("a negated Difference", "\x01\x10\x01\x0a\x01\x06\x01\x09\x01\x06\x01\x06", 4),
    B("an If", "\x01\x11\x01\x06\x01\x01\x00", 2),
    B("an If on a Xor", "\x01\x11\x01\x09\x01\x06\x01\x06\x01\x01\x00", 3),
    B("a Let used", "\x01\x12\x01\x06\x01\x14", 2),
    B("an alias matched", "\x0b\x13\x01\x00\x08\x00\x00\x00\xd3\x1a\x01\x00\x03\x08\x01\x08\xfe", 2),
    B("an alias assigned", "\x0b\x13\x01\x00\x08\x00\x00\x00\x43\x15\x01\x00\x01\x01", 2),
    B("a Sequence", "\x01\x0b\x01\x05\x01\x05", 2),
    B("a negated Assign", "\x01\x10\x01\x05", 2),
    B("no byte", "", 1),
    B("a foreign field", "\x03\x07", 1),
    B("a long literal", "\x41\x18\x81", 1),
};

struct term {
    uint8_t bytes[NETKAT_TERM_MAX];
    size_t len;
    char shape[160];
};

static void put(struct term *t, const void *bytes, size_t len) {
    memcpy(t->bytes + t->len, bytes, len);
    t->len += len;
}

/* A record with children: the map, the kind, and the name and range of a Let or LetBitRange. */
static void put_parent(struct term *t, int kind, int name) {
    uint8_t map = kind == NETKAT_KIND_LET_BIT_RANGE ? 9 : 1;
    const uint8_t end[] = {8, 0, 0, 0}, two[] = {(uint8_t)name, 0};
    int named = name && (kind == NETKAT_KIND_LET || kind == NETKAT_KIND_LET_BIT_RANGE);
    if (named) map |= NETKAT_MAP_NAME;
    const uint8_t head[] = {map, (uint8_t)kind};
    put(t, head, 2);
    if (named) put(t, two, 2);
    if (map & NETKAT_MAP_END) put(t, end, 4);
}

/* One level of a chain: the record's kind, through which of its children the chain goes on, and its name. */
struct link {
    int kind, child, name;
};

static uint64_t state = 88172645463325252u;

static unsigned chance(unsigned n) {
    state ^= state << 13, state ^= state >> 7, state ^= state << 17;
    return (unsigned)(state >> 33) % n;
}

/* A sibling of the chain: One, or any of the bottoms of one level that form accepts. */
static void put_sibling(struct term *t, int any) {
    size_t i = any ? chance(17) : 1;
    put(t, bottoms[i].bytes, bottoms[i].len);
}

/* The chain with the bytes at its bottom. */
static void chain(struct term *t, const struct link *links, size_t count, const void *bottom, size_t len, int any) {
    t->len = 0;
    for (size_t i = 0; i < count; i++) {
        put_parent(t, links[i].kind, links[i].name);
        for (int c = 0; c < links[i].child; c++) put_sibling(t, any);
    }
    put(t, bottom, len);
    for (size_t i = count; i-- > 0;)
        for (int c = links[i].child + 1; c < arity[links[i].kind]; c++) put_sibling(t, any);
}

struct call {
    enum function function;
    const struct term *term, *replacement;
    char *from;      /* the frame of run */
    char *low;       /* the lowest byte of the stack */
    size_t promised; /* what the call may use of it */
};

static uint32_t work[NETKAT_WORK_LEN(NETKAT_MAX_ALLOWANCE)];
static uint8_t out[NETKAT_CORE_MAX(NETKAT_MAX_ALLOWANCE)];

#define PACKET_FIELDS 1024
static uint8_t packets[NETKAT_MAX_PACKETS * PACKET_FIELDS / 8];
static uint32_t lengths[NETKAT_MAX_PACKETS];

/* Cost of the parts of a record: a match on the fields from 0 to an end that is below 256, as the bottoms have it. */
static void cost(const uint8_t *record) {
    const uint8_t map = record[0], *at = record + 6;
    uint32_t pattern = map & NETKAT_MAP_PATTERN ? *at++ : 0, number = map & NETKAT_MAP_NUMBER ? *at++ : 0;
    uint32_t a_bits = *at++, a_len = (a_bits + 7) / 8;
    const uint8_t *a = at, *b = a + a_len + 1;
    uint32_t b_bits = map & NETKAT_MAP_B ? b[-1] : 0;
    netkat_cost(0, record[2], pattern, number, a, a_len, a_bits, b, (b_bits + 7) / 8, b_bits);
}

static __attribute__((noinline)) void run(struct call *c) {
    const uint8_t *s = c->term->bytes;
    size_t n = c->term->len;
    c->from = __builtin_frame_address(0);
    switch (c->function) {
    case CHECK: netkat_check(s, n); break;
    case DESUGAR: netkat_desugar(s, n, NETKAT_MAX_ALLOWANCE, work, COUNT(work), out, sizeof out); break;
    case SUBSTITUTE: netkat_substitute(s, n, 0, c->replacement->bytes, c->replacement->len, out, sizeof out); break;
    case FRAGMENT: netkat_is_test_fragment(s, n); break;
    case FIELDS: netkat_num_fields(s, n); break;
    case SUBRANGE: netkat_compute_subrange(4, 8, 1, 3); break;
    case COST: cost(s); break;
    case READ_CORE: netkat_read_core(s, n, work, COUNT(work)); break;
    default: netkat_run_packets(s, n, work, COUNT(work), packets, sizeof packets, lengths, COUNT(lengths)); break;
    }
}

static void *on_any(void *p) {
    run(p);
    return NULL;
}

static void *on_promised(void *p) {
    struct call *c = p;
    volatile char *taken = alloca((size_t)((char *)__builtin_frame_address(0) - c->low) - c->promised);
    run(c);
    taken[0] = 0;
    return NULL;
}

static void fail(const char *what) {
    perror(what);
    exit(2);
}

static char *stack;

/* The body in a thread on `stack`, or, with a size, on one of that size that the C library makes. */
static void in_thread(void *(*body)(void *), struct call *c, size_t size) {
    pthread_attr_t attributes;
    pthread_t thread;
    if (pthread_attr_init(&attributes) ||
        (size ? pthread_attr_setstacksize(&attributes, size) : pthread_attr_setstack(&attributes, stack, STACK)) ||
        pthread_create(&thread, &attributes, body, c) || pthread_join(thread, NULL))
        fail("thread");
    pthread_attr_destroy(&attributes);
}

/* The bytes below run's frame that the call touched. What is below them is still painted, so only the rest is painted again. */
static size_t used(struct call *c) {
    static const uint64_t paint = 0xa5c3965a3c69f00d;
    static uint64_t *painted;
    uint64_t *low = (uint64_t *)stack, *top = (uint64_t *)(stack + STACK);
    if (painted) low = painted;
    for (uint64_t *p = low; p < top; p++) *p = paint;
    in_thread(on_any, c, 0);
    for (low = (uint64_t *)stack; *low == paint; low++) {
    }
    painted = low;
    return (size_t)(c->from - (char *)low);
}

struct worst {
    size_t bytes;
    struct term term, replacement;
};
static struct worst worst[FUNCTIONS];

static void measure(enum function f, const struct term *t, const struct term *replacement) {
    struct call c = {f, t, replacement, NULL, stack, 0};
    size_t bytes = used(&c);
    if (bytes <= worst[f].bytes) return;
    worst[f].bytes = bytes;
    worst[f].term = *t;
    worst[f].replacement = *replacement;
}

static void measure_all(const struct term *t, const struct term *replacement) {
    for (int f = 0; f < SUBRANGE; f++) measure(f, t, replacement);
}

static struct term term, replacement, zero = {{0}, 1, "Zero"};

static void chains(void) {
    static struct link links[NETKAT_MAX_LEVELS];
    for (int kind = 0; kind <= NETKAT_KIND_VAR_MATCH; kind++)
        for (int child = 0; child < arity[kind]; child++)
            for (size_t b = 0; b < COUNT(bottoms); b++) {
                size_t count = NETKAT_MAX_LEVELS - bottoms[b].levels;
                for (size_t i = 0; i < count; i++) links[i] = (struct link){kind, child, 1};
                chain(&term, links, count, bottoms[b].bytes, bottoms[b].len, 0);
                snprintf(term.shape, sizeof term.shape, "%zu times %s, child %d, above %s", count, kinds[kind], child + 1, bottoms[b].name);
                measure_all(&term, &zero);
            }
}

static void random_link(struct link *l) {
    do l->kind = (int)chance(20);
    while (!arity[l->kind]);
    l->child = (int)chance(arity[l->kind]);
    l->name = (int)chance(3);
}

static void random_terms(void) {
    static struct link links[NETKAT_MAX_LEVELS];
    for (int n = 0; n < RANDOM_TERMS; n++) {
        size_t b = chance(COUNT(bottoms)), count = NETKAT_MAX_LEVELS - bottoms[b].levels;
        for (size_t i = 0; i < count; i++) random_link(&links[i]);
        chain(&term, links, count, bottoms[b].bytes, bottoms[b].len, 1);
        snprintf(term.shape, sizeof term.shape, "random chain %d above %s", n, bottoms[b].name);
        measure_all(&term, &zero);
    }
}

/* Substitute: a variable at the bottom of a chain of each kind, replaced by another, so that the result has 256 levels or one more. */
static void replacements(void) {
    static const size_t levels[] = {0, 1, 64, 128, 192, 254, 255};
    static struct link links[NETKAT_MAX_LEVELS];
    for (int kind = 0; kind <= NETKAT_KIND_VAR_MATCH; kind++)
        for (int child = 0; child < arity[kind]; child++)
            for (size_t l = 0; l < COUNT(levels); l++)
                for (size_t more = 0; more < 2; more++) {
                    size_t rest = NETKAT_MAX_LEVELS - 1 - levels[l] + more;
                    if (rest >= NETKAT_MAX_LEVELS) continue;
                    for (size_t i = 0; i < NETKAT_MAX_LEVELS; i++) links[i] = (struct link){kind, child, 1};
                    chain(&term, links, levels[l], "\x01\x14", 2, 0);
                    chain(&replacement, links, rest, "\x01\x14", 2, 0);
                    snprintf(term.shape, sizeof term.shape, "%zu times %s, child %d, above Var, replaced by %zu of them", levels[l],
                             kinds[kind], child + 1, rest);
                    measure(SUBSTITUTE, &term, &replacement);
                }
}

/* Cost: each match on a direct range. */
static void patterns(void) {
    for (size_t b = 0; b < COUNT(bottoms); b++)
        if (bottoms[b].len > 1 && bottoms[b].bytes[1] == NETKAT_KIND_BIT_RANGE_MATCH) {
            chain(&term, NULL, 0, bottoms[b].bytes, bottoms[b].len, 0);
            snprintf(term.shape, sizeof term.shape, "%s", bottoms[b].name);
            measure(COST, &term, &zero);
        }
}

/* Read core and Run packets: chains of so many records as a core may have, above each bottom. Above one that has several records they are
 * too many. */
static void cores(void) {
    static struct link links[NETKAT_MAX_CORE_RECORDS];
    for (int kind = NETKAT_KIND_UNION; kind <= NETKAT_KIND_LTL_NEXT; kind++)
        for (int child = 0; child < arity[kind]; child++)
            for (size_t b = 0; b < COUNT(bottoms); b++) {
                size_t count = (NETKAT_MAX_CORE_RECORDS - 1) / arity[kind];
                for (size_t i = 0; i < count; i++) links[i] = (struct link){kind, child, 0};
                chain(&term, links, count, bottoms[b].bytes, bottoms[b].len, 0);
                snprintf(term.shape, sizeof term.shape, "%zu times %s, child %d, above %s", count, kinds[kind], child + 1, bottoms[b].name);
                measure(READ_CORE, &term, &zero);
                measure(RUN_PACKETS, &term, &zero);
            }
}

static void random_packets(void) {
    for (size_t i = 0; i < sizeof packets; i++) packets[i] = (uint8_t)chance(256);
    for (size_t i = 0; i < COUNT(lengths); i++) lengths[i] = PACKET_FIELDS / 8;
}

/* Run packets: chains of tests, which lean to the left or to the right, of each field that the packets have or of the last one alone. */
static void test_cores(void) {
    const int count = 16384;
    for (int kind = NETKAT_KIND_UNION; kind <= NETKAT_KIND_SEQUENCE; kind++)
        for (int shape = 0; shape < 4; shape++) {
            term.len = 0;
            for (int i = 0; shape < 2 && i < count; i++) put_parent(&term, kind, 0);
            for (int i = 0; i <= count; i++) {
                int field = shape % 2 ? PACKET_FIELDS - 1 : 1 + i % (PACKET_FIELDS - 1);
                const uint8_t test[] = {0x25, NETKAT_KIND_TEST, (uint8_t)field, (uint8_t)(field >> 8), 0, 0, 1};
                if (shape >= 2 && i < count) put_parent(&term, kind, 0);
                put(&term, test, sizeof test);
            }
            snprintf(term.shape, sizeof term.shape, "%d times %s, leaning to the %s, above tests of %s", count, kinds[kind],
                     shape < 2 ? "left" : "right", shape % 2 ? "one field" : "many fields");
            measure(RUN_PACKETS, &term, &zero);
        }
}

/* Does the call end well on so much stack? With `own` in a thread as a user makes it, with PTHREAD_STACK_MIN more. */
static int survives(enum function f, size_t promised, int own) {
    struct call c = {f, &worst[f].term, &worst[f].replacement, NULL, stack, promised};
    int status;
    fflush(stdout);
    pid_t child = fork();
    if (child < 0) fail("fork");
    if (child == 0) {
        if (own) in_thread(on_any, &c, promised + (size_t)PTHREAD_STACK_MIN);
        else in_thread(on_promised, &c, 0);
        _exit(0);
    }
    if (waitpid(child, &status, 0) < 0) fail("wait");
    return WIFEXITED(status) && WEXITSTATUS(status) == 0;
}

static size_t rounded(size_t bytes) { return (bytes + 512 + 4095) / 4096 * 4096; }

int main(int argc, char **argv) {
    int define = argc > 1 && strcmp(argv[1], "define") == 0, failed = 0;
    size_t page = (size_t)sysconf(_SC_PAGESIZE);
    char *area = mmap(NULL, STACK + page, PROT_READ | PROT_WRITE, MAP_PRIVATE | MAP_ANONYMOUS, -1, 0);
    if (area == MAP_FAILED || mprotect(area, page, PROT_NONE)) fail("mmap");
    stack = area + page;

    chains();
    random_terms();
    replacements();
    measure(SUBRANGE, &zero, &zero);
    patterns();
    random_packets();
    cores();
    test_cores();

    for (int f = 0; f < FUNCTIONS; f++) {
        size_t bytes = worst[f].bytes, promised = functions[f].promised;
        if (define) {
            char line[80];
            snprintf(line, sizeof line, "#define %s %zu", functions[f].define, rounded(bytes));
            printf("%-44s /* %zu measured */\n", line, bytes);
            continue;
        }
        printf("%-24s %7zu measured, %7zu promised: %s\n", functions[f].name, bytes, promised, worst[f].term.shape);
        if (promised > rounded(bytes) + 4096) printf("    %s is more than is needed: make stack\n", functions[f].define);
        if (promised < bytes || !survives(f, promised, 0)) failed = printf("    %s is too small\n", functions[f].define) > 0;
        if (!survives(f, promised, 1)) failed = printf("    %s + PTHREAD_STACK_MIN is too small\n", functions[f].define) > 0;
        if (bytes > 8192 && survives(f, bytes - 4096, 0)) failed = printf("    a stack that is too small was not seen\n") > 0;
    }
    if (!define && !failed) puts("stack: the promised bytes are enough");
    return failed;
}
