/* The header's limits and sizes, at each and one beyond it; and the deepest search, on the stack that the header asks
 * for. */
#include "check.h"

#include <stdlib.h>
#include <string.h>

#define N(bytes) (bytes), sizeof(bytes)

/* Puts a number in so many bytes. */
static size_t little(uint8_t *to, size_t n, size_t bytes) {
    for (size_t i = 0; i < bytes; i++)
        to[i] = (uint8_t)(n >> 8 * i);
    return bytes;
}

/* So many literals of the last dimension. */
static size_t literals(uint8_t *to, size_t n) {
    for (size_t i = 0; i < n; i++)
        to[2 * i] = LF_AT0, to[2 * i + 1] = LF_MAX_DIMENSION;
    return 2 * n;
}

static void ledgers(struct tally *t) {
    uint8_t *zeros = (uint8_t *)room(LF_MAX_LEDGER_BYTES + 1);
    memset(zeros, 0, LF_MAX_LEDGER_BYTES + 1);
    ASK(t, lf_well_formed(zeros, LF_MIN_LEDGER_BYTES - 1), -LF_ILL_FORMED_LEDGER);
    ASK(t, lf_well_formed(zeros, LF_MIN_LEDGER_BYTES), 0);
    ASK(t, lf_well_formed(zeros, LF_MAX_LEDGER_BYTES), 0);
    ASK(t, lf_well_formed(zeros, LF_MAX_LEDGER_BYTES + 1), -LF_ILL_FORMED_LEDGER);
    free(zeros);
}

/* A ledger that 7 refuses takes the call once zero bytes stand behind it. */
static void longer(struct tally *t) {
    static const uint8_t at0[] = {LF_AT0, 0}, ft[] = {LF_FT};
    struct lent l = lent_zeros(200);
    ASK(t, lf_entails(l.bytes, 78, 1, N(at0), N(ft)), -LF_FULL_LEDGER);
    stays(t, "lf_entails", &l);
    ASK(t, lf_face(l.bytes, 78, 1, N(at0)), 2);
    ASK(t, lf_entails(l.bytes, 78, 1, N(at0), N(ft)), -LF_FULL_LEDGER);
    ASK(t, lf_entails(l.bytes, 79, 1, N(at0), N(ft)), 5);
    ASK(t, lf_step_desk(l.bytes, 79), 6);
    ASK(t, lf_step_desk(l.bytes, 200), 6);
    lent_free(&l);
}

static void formulas(struct tally *t) {
    uint8_t f[800], r[800];
    static const uint8_t last[] = {LF_AT0, LF_MAX_DIMENSION}, beyond[] = {LF_AT0, LF_MAX_DIMENSION + 1}, ff[] = {LF_FF};
    struct lent l = lent_zeros(LF_MAX_LEDGER_BYTES), out = lent_filled(LF_MAX_TEXT_BYTES);
    uint8_t *text = (uint8_t *)room(LF_MAX_TEXT_BYTES);

    /* 256 literals: 511 nodes, and the longest formula. */
    size_t n = chain(f, LF_FAND, LF_AT1, 256, 0, 1);
    ASK(t, lf_shift_face(l.bytes, l.len, f, n, 254, out.bytes, LF_MAX_FORMULA_BYTES), 33147 + 4294967296 * 767);
    holds(t, "lf_shift_face", &out, f, n);
    /* 510 times neg over a dimension: 511 nodes, and one more. */
    memset(r, LF_NEG, 511);
    r[510] = LF_DIM, r[511] = 0;
    memset(l.bytes, 0, l.len);
    ASK(t, lf_interval(l.bytes, l.len, 1, r, LF_MAX_NODES + 1), 511);
    r[510] = LF_NEG, r[511] = LF_DIM, r[512] = 0;
    ASK(t, lf_interval(l.bytes, l.len, 1, r, LF_MAX_NODES + 2), -LF_TOO_MANY_NODES);
    /* Dimensions, k and d. */
    memset(l.bytes, 0, l.len);
    ASK(t, lf_forall(l.bytes, l.len, N(last), LF_MAX_DIMENSION, out.bytes, out.len), 4294967296 * (int64_t)sizeof ff);
    holds(t, "lf_forall", &out, N(ff));
    ASK(t, lf_forall(l.bytes, l.len, N(last), LF_MAX_DIMENSION + 1, out.bytes, out.len), -LF_LARGE_DIMENSION);
    ASK(t, lf_face(l.bytes, l.len, LF_MAX_D, N(beyond)), -LF_LARGE_DIMENSION);
    ASK(t, lf_face(l.bytes, l.len, LF_MAX_D + 1, N(last)), -LF_LARGE_DIMENSION);
    ASK(t, lf_face(l.bytes, l.len, LF_MAX_D - 1, N(last)), -LF_NOT_BELOW);
    memset(l.bytes, 0, l.len);
    ASK(t, lf_face(l.bytes, l.len, LF_MAX_D, N(last)), 256);
    /* The longest text there is: 255 times "(fand  )", 256 literals of 254 s each. */
    n = 255 + literals(f + 255, 256);
    ASK(t, lf_write_face(f, n, text, LF_MAX_TEXT_BYTES), 263928);
    ASK(t, lf_write_face(f, n, text, 263927), -LF_SHORT_OUTPUT);
    ASK(t, lf_read_face(text, 263928, out.bytes, out.len), n);
    holds(t, "lf_read_face", &out, f, n);
    /* 16 times 16 clauses, of which the 16 literals are left; refused.c has 16 times 17. */
    n = chain(r, LF_FOR, LF_AT0, LF_MAX_CLAUSES / 16, 0, 1);
    f[0] = LF_FAND;
    memcpy(f + 1, r, n);
    memcpy(f + 1 + n, r, n);
    ASK(t, lf_normal(f, 1 + 2 * n, out.bytes, out.len), n);
    holds(t, "lf_normal", &out, r, n);
    free(text), lent_free(&l), lent_free(&out);
}

/* The longest line that was found: take with two contexts of 511 literals and a face of 511 nodes. */
static void lines(struct tally *t) {
    uint8_t *ledger = (uint8_t *)room(8192), *out = (uint8_t *)room(LF_MAX_LINE_BYTES);
    size_t n = 10;
    n += little(ledger + n, LF_MAX_NODES, 2);
    n += literals(ledger + n, LF_MAX_NODES);
    memset(ledger + n, LF_FAND, 255);
    n += 255 + literals(ledger + n + 255, 256);
    n += little(ledger + n, LF_MAX_NODES, 2);
    n += literals(ledger + n, LF_MAX_NODES);
    little(ledger, n - 4, 4), little(ledger + 4, n - 8, 4), little(ledger + 8, 19, 2);
    /* "0 take.here [] (take CONTEXT FACE CONTEXT)" and byte 10, a context being 511 times "(fc LITERAL )" and fnil. */
    ASK(t, lf_write_step(ledger, n, 0, out, LF_MAX_LINE_BYTES), 21 + 2 * (511 * 1029 + 4) + 263928 + 2 + 2);
    free(ledger), free(out);
}

static void names(struct tally *t) {
    uint8_t out[LF_MAX_NAME_BYTES];
    int longest = 0;
    for (int kind = 1; kind <= LF_MAX_KIND; kind++) {
        int n = (int)lf_rule_name((uint64_t)kind, out, sizeof out);
        longest = n > longest ? n : longest;
        ASK(t, lf_rule_name((uint64_t)kind, out, (size_t)n), n);
        ASK(t, lf_rule_name((uint64_t)kind, out, (size_t)n - 1), -LF_SHORT_OUTPUT);
    }
    ASK(t, longest, LF_MAX_NAME_BYTES);
    ASK(t, lf_rule_name(0, out, sizeof out), 0);
    ASK(t, lf_rule_name(LF_MAX_KIND + 1, out, sizeof out), 0);
}

static void typed(struct tally *t) {
    uint8_t line[LF_MAX_CLAIM_LINE_BYTES + 1], out[200];
    const char *claim = "entails z ff ft", *said = "0 face.ff [] (face z ff)\n1 face.ft [] (face z ft)\n"
                                                   "2 cover.top [] (cover (fc ff fnil) ft)\n"
                                                   "3 entails.checked [0,1,2] (entails z ff ft)\nyes 3\n";
    memset(line, ' ', sizeof line);
    memcpy(line, claim, strlen(claim));
    ASK(t, lf_facesteps(line, LF_MAX_CLAIM_LINE_BYTES, out, sizeof out), strlen(said));
    ASK(t, memcmp(out, said, strlen(said)), 0);
    ASK(t, lf_facesteps(line, LF_MAX_CLAIM_LINE_BYTES + 1, out, sizeof out), strlen("refused 11\n"));
    line[LF_MAX_CLAIM_LINE_BYTES] = 10;
    ASK(t, lf_facesteps(line, LF_MAX_CLAIM_LINE_BYTES + 1, out, sizeof out), strlen(said));
}

/* 256 literals to the same turned round, which takes most stack (docs/BENCHMARK.md). */
static void deepest(struct tally *t) {
    uint8_t a[800], b[800];
    size_t an = chain(a, LF_FAND, LF_AT0, 256, 0, 1), bn = chain(b, LF_FAND, LF_AT0, 256, 255, 253);
    struct lent l = lent_zeros(LF_MAX_LEDGER_BYTES);
    ASK(t, lf_entails(l.bytes, l.len, LF_MAX_D, a, an, b, bn), -LF_FULL_LEDGER);
    stays(t, "lf_entails", &l);
    lent_free(&l);
}

/* 255 dimensions, each of which has to be determined, in an output that is just long enough. */
static void assignments(struct tally *t) {
    uint8_t a[800], b[800], want[LF_MAX_D];
    size_t an = chain(a, LF_FAND, LF_AT1, 256, 0, 1), bn = chain(b, LF_FOR, LF_AT0, 256, 0, 1);
    struct lent out = lent_filled(LF_MAX_D);
    /* The chain has dimensions 0 to 253, and 0 and 1 once more; the last takes the place of that 1. */
    a[an - 1] = LF_MAX_DIMENSION;
    memset(want, LF_ONE, sizeof want);
    ASK(t, lf_counterexample(LF_MAX_D, a, an, b, bn, out.bytes, out.len - 1), -LF_SHORT_OUTPUT);
    stays(t, "lf_counterexample", &out);
    ASK(t, lf_counterexample(LF_MAX_D, a, an, b, bn, out.bytes, out.len), LF_MAX_D);
    holds(t, "lf_counterexample", &out, N(want));
    ASK(t, lf_counterexample(LF_MAX_D - 1, a, an, b, bn, out.bytes, out.len), -LF_NOT_BELOW);
    ASK(t, lf_counterexample(LF_MAX_D, a, an, a, an, out.bytes, out.len), -LF_IMPLIED);
    stays(t, "lf_counterexample", &out);
    lent_free(&out);
}

/* A formula of n literals of one dimension under nodes over two: all but one of them left, all but one right, or half.
 * Its length. */
enum shape { LEFT, RIGHT, HALF, SHAPES };

static size_t shaped(uint8_t *to, int shape, int node, int literal, int n, int dimension) {
    int left = shape == LEFT ? n - 1 : shape == RIGHT ? 1 : n / 2;
    size_t len;
    if (n == 1) {
        to[0] = (uint8_t)literal, to[1] = (uint8_t)dimension;
        return 2;
    }
    to[0] = (uint8_t)node;
    len = 1 + shaped(to + 1, shape, node, literal, left, dimension);
    return len + shaped(to + len, shape, node, literal, n - left, dimension);
}

/* In each shape as many literals as the producer takes, and one more; with halves the limit is that of nodes. */
static void fence(struct tally *t, const char *call, int64_t (*asked)(const uint8_t *, size_t), int node, int literal) {
    uint8_t f[800];
    for (int shape = LEFT; shape < SHAPES; shape++) {
        int most = shape == HALF ? (LF_MAX_NODES + 1) / 2 : LF_MAX_PRODUCER_DEPTH + 1;
        size_t n = shaped(f, shape, node, literal, most, LF_MAX_PRODUCER_DIMENSION);
        answered(t, call, asked(f, n), 2 * most - 1);
        /* The last literal alone, then all the others alone, have a dimension beyond the limit. */
        f[n - 1] = LF_MAX_PRODUCER_DIMENSION + 1;
        answered(t, call, asked(f, n), -LF_BEYOND_PRODUCER);
        shaped(f, shape, node, literal, most, LF_MAX_PRODUCER_DIMENSION + 1);
        f[n - 1] = 0;
        answered(t, call, asked(f, n), -LF_BEYOND_PRODUCER);
        n = shaped(f, shape, node, literal, most + 1, 0);
        answered(t, call, asked(f, n), shape == HALF ? -LF_TOO_MANY_NODES : -LF_BEYOND_PRODUCER);
        f[n - 1] = LF_MAX_DIMENSION + 1;
        answered(t, call, asked(f, n), shape == HALF ? -LF_TOO_MANY_NODES : -LF_LARGE_DIMENSION);
    }
}

static void fences(struct tally *t) {
    static const struct {
        size_t negs;
        int answer;
    } deep[] = {{LF_MAX_PRODUCER_DEPTH, LF_MAX_PRODUCER_DEPTH + 1},
                {LF_MAX_PRODUCER_DEPTH + 1, -LF_BEYOND_PRODUCER},
                {LF_MAX_NODES - 1, -LF_BEYOND_PRODUCER},
                {LF_MAX_NODES, -LF_TOO_MANY_NODES}};
    uint8_t r[LF_MAX_NODES + 1];
    fence(t, "lf_fence_face(f, n)", lf_fence_face, LF_FAND, LF_AT0);
    fence(t, "lf_fence_face(f, n)", lf_fence_face, LF_FOR, LF_AT1);
    fence(t, "lf_fence_interval(f, n)", lf_fence_interval, LF_MEET, LF_DIM);
    fence(t, "lf_fence_interval(f, n)", lf_fence_interval, LF_JOIN, LF_DIM);
    for (size_t i = 0; i < sizeof deep / sizeof *deep; i++) {
        memset(r, LF_NEG, deep[i].negs);
        r[deep[i].negs] = LF_I1;
        ASK(t, lf_fence_interval(r, deep[i].negs + 1), deep[i].answer);
    }
}

void limits(struct tally *t) {
    ledgers(t);
    longer(t);
    formulas(t);
    lines(t);
    names(t);
    typed(t);
    deepest(t);
    assignments(t);
    fences(t);
}
