/* Linefeijoa: face formulas of cubical type theory, their steps and the step desk.
 *
 * Link with the proved library, x86-64 (`bash tools/library/build.sh` writes it):
 *
 *     cc -I include program.c -L target/staticlib -lexports
 *
 * It uses at most memcpy and memset of the C library.
 *
 * A slice is a pointer and a length. Beyond the lent slices a call reads and writes nothing but its stack.
 *  - A slice of length 0 may be NULL; every function takes every length and content.
 *  - Slices must not overlap, but for those that are only read (const): one buffer may be both operands of a call,
 *    or both ledgers of lf_repeats. An operand that stands in the ledger is copied before a call on that ledger.
 *  - A function that is lent a ledger reads all of it, zeros included: small ledgers are answered faster.
 *  - Calls keep no state. Threads may call at once, each on slices that no other thread writes meanwhile.
 *  - A call takes at most 2.51 MB of stack (measured, not proved: docs/BENCHMARK.md), so a thread needs
 *    LF_STACK_BYTES. Each page of a frame is touched in turn, so too small a stack ends at its guard page.
 *
 * Every answer is one number. Refusal q is -q (10 of the desk: below), and then nothing is written, but that 8 and 9
 * leave steps in a ledger. Else it is what the function says; an output's first bytes are the result, and its other
 * bytes stay. The static functions at the end take answers apart. */
#ifndef LINEFEIJOA_H
#define LINEFEIJOA_H

#include <stddef.h>
#include <stdint.h>

#ifdef __cplusplus
extern "C" {
#endif

/* Document 01's refusals: what each means; what to do. All but 8 and 9 leave every lent byte unchanged. 8 and 9 leave
 * outputs unchanged, and in the ledger, where one is lent, the steps that were emitted before the no. The first no
 * decides. */
enum lf_refusal {
    /* the ledger is not 4 to 1,048,576 bytes long, or it is not well formed;
     * start from zero bytes, or from the bytes that a call left */
    LF_ILL_FORMED_LEDGER = 1,
    /* an operand is not exactly one formula of its sort;
     * hand over the bytes of one face, or of one interval where an interval is asked for, and none behind them */
    LF_NOT_A_FORMULA = 2,
    /* a formula has more than 511 nodes;
     * split the formula and ask about its parts */
    LF_TOO_MANY_NODES = 3,
    /* a dimension or k is above 254, or d is above 255;
     * number the dimensions that are used from 0 on */
    LF_LARGE_DIMENSION = 4,
    /* the result would have more than 511 nodes or a dimension above 254, or a normal form takes a list of more than
     * 256 clauses;
     * ask about a smaller formula or lower dimensions */
    LF_LARGE_RESULT = 5,
    /* an output slice is too short for what is to stand in it;
     * lend a longer slice and ask again */
    LF_SHORT_OUTPUT = 6,
    /* the ledger has no room for all the steps of the call;
     * put zero bytes behind the ledger, up to 1,048,576 bytes in all, and ask again */
    LF_FULL_LEDGER = 7,
    /* a dimension is not below d;
     * ask with a larger d */
    LF_NOT_BELOW = 8,
    /* the implication does not hold;
     * take it as the answer: the question was in order, and it is no */
    LF_NOT_IMPLIED = 9,
    /* a step does not follow by its rule;
     * rely on no step from the one that is named on; those below it follow */
    LF_DOES_NOT_FOLLOW = 10,
    /* the text is not accepted;
     * spell it with the known names, every list closed and nothing left over, in a line of at most 4,096 bytes for
     * facesteps */
    LF_NOT_ACCEPTED = 11,
    /* the implication holds, so there is no counterexample;
     * take it as the answer: entails says yes */
    LF_IMPLIED = 12,
    /* a dimension is above 32, or a node is more than 32 levels below the root, which the producer does not take;
     * number the dimensions that are used from 0 on, and nest the formula less deeply or split it */
    LF_BEYOND_PRODUCER = 13
};

/* Limits, and sizes that are always enough. */
#define LF_MIN_LEDGER_BYTES 4        /* a ledger is no shorter; zeros are an empty one */
#define LF_MAX_LEDGER_BYTES 1048576  /* and no longer */
#define LF_MAX_NODES 511             /* of a formula; each kind byte is a node */
#define LF_MAX_DIMENSION 254         /* of a formula; k too */
#define LF_MAX_D 255                 /* how many dimensions there may be */
#define LF_MAX_PRODUCER_DIMENSION 32 /* of a formula that the producer takes */
#define LF_MAX_PRODUCER_DEPTH 32     /* of its nodes, the root being at depth 0 */
#define LF_MAX_CLAUSES 256           /* of a list on the way to a normal form */
#define LF_MAX_FORMULA_BYTES 1022    /* proved; the longest formulas have 767 */
#define LF_MAX_TEXT_BYTES 527352     /* of a formula's text, proved; the longest have 263,928 */
#define LF_MAX_LINE_BYTES 6354504    /* of a step's line, proved; begin with less, and lend more on refusal 6 */
#define LF_MAX_NAME_BYTES 15         /* of a rule's name */
#define LF_MAX_KIND 75               /* kinds of steps are 1 to 75 */
#define LF_KIND_ENTAILS 30           /* entails.checked, the only kind with an entails judgement */
#define LF_MAX_CLAIM_LINE_BYTES 4096 /* that lf_facesteps reads, before byte 10 or the end */
#define LF_STACK_BYTES 4194304       /* for a thread that calls any function: enough in all measurements */

/* The kind bytes of formulas. A formula is its kind byte, then its parts; d dimensions are 0 to d - 1. */
enum lf_node {
    LF_FF = 0,    /* face that never holds */
    LF_FT = 1,    /* face that always holds */
    LF_AT0 = 2,   /* face: the dimension in the next byte is zero */
    LF_AT1 = 3,   /* face: the dimension in the next byte is one */
    LF_FAND = 4,  /* face: both of the two that follow hold */
    LF_FOR = 5,   /* face: one of the two that follow holds */
    LF_I0 = 16,   /* interval: zero */
    LF_I1 = 17,   /* interval: one */
    LF_DIM = 18,  /* interval: the dimension in the next byte */
    LF_NEG = 19,  /* interval: zero where the one that follows is one, and one where it is zero */
    LF_MEET = 20, /* interval: zero where one of the two that follow is, one where both are */
    LF_JOIN = 21  /* interval: one where one of the two that follow is, zero where both are */
};

/* The bytes of assignments: what a dimension is. */
enum lf_value {
    LF_ZERO = 0,        /* at0 of it holds */
    LF_ONE = 1,         /* at1 of it holds */
    LF_UNDETERMINED = 2 /* neither does */
};

/* ---- Ledgers ---- */

/* How many steps the ledger has. Refused by 1. */
int64_t lf_well_formed(const uint8_t *ledger, size_t ledger_len);

/* The step desk: how many steps there are, where each follows by its rule; every judgement is true then, whoever wrote
 * the bytes. Refused by 1, and by 10 as -(10 + 16 * n), n being the lowest step that does not follow. */
int64_t lf_step_desk(const uint8_t *ledger, size_t ledger_len);

/* 1 where both ledgers end in an entails step with equal operand bytes, else 0. Refused by 1 where either is no
 * ledger. */
int64_t lf_repeats(const uint8_t *l, size_t l_len, const uint8_t *m, size_t m_len);

/* ---- Calls: each emits steps into the ledger ----
 *
 * The answer is the number of the step with the call's own judgement, the lowest with that judgement, plus 2^32 times
 * the length of the result where there is one. A call asked again appends nothing and answers the same. */

/* That all dimensions of the face f are below d. Refused by 1, 2, 3, 4, 7, 8. */
int64_t lf_face(uint8_t *ledger, size_t ledger_len, uint64_t d, const uint8_t *f, size_t f_len);

/* That all dimensions of the interval r are below d. Refused by 1, 2, 3, 4, 7, 8. */
int64_t lf_interval(uint8_t *ledger, size_t ledger_len, uint64_t d, const uint8_t *r, size_t r_len);

/* The boundary of the interval r: out0 holds exactly where r is zero, out1 where it is one. Both results are of the
 * length that is answered. Refused by 1, 2, 3, 4, 6, 7. */
int64_t lf_boundary(uint8_t *ledger, size_t ledger_len, const uint8_t *r, size_t r_len, uint8_t *out0, size_t out0_len,
                    uint8_t *out1, size_t out1_len);

/* That the interval r is zero (one is 0) or one (one is anything else) wherever the face phi holds, all dimensions
 * being below d. Refused by 1, 2, 3, 4, 7, 8, 9. */
int64_t lf_endpoint(uint8_t *ledger, size_t ledger_len, uint64_t d, const uint8_t *phi, size_t phi_len,
                    const uint8_t *r, size_t r_len, uint64_t one);

/* The face f for all k: out holds where f does with k undetermined; dimensions above k are lowered by one.
 * Refused by 1, 2, 3, 4, 6, 7. */
int64_t lf_forall(uint8_t *ledger, size_t ledger_len, const uint8_t *f, size_t f_len, uint64_t k, uint8_t *out,
                  size_t out_len);

/* The face t with dimensions from k on raised by one. Refused by 1 to 7. */
int64_t lf_shift_face(uint8_t *ledger, size_t ledger_len, const uint8_t *t, size_t t_len, uint64_t k, uint8_t *out,
                      size_t out_len);

/* The interval t with dimensions from k on raised by one. Refused by 1 to 7. */
int64_t lf_shift_interval(uint8_t *ledger, size_t ledger_len, const uint8_t *t, size_t t_len, uint64_t k, uint8_t *out,
                          size_t out_len);

/* The face t with the interval r for dimension k; dimensions above k are lowered by one, r stays as it is.
 * Refused by 1 to 7. */
int64_t lf_substitute_face(uint8_t *ledger, size_t ledger_len, const uint8_t *t, size_t t_len, uint64_t k,
                           const uint8_t *r, size_t r_len, uint8_t *out, size_t out_len);

/* The interval t with the interval r for dimension k; dimensions above k are lowered by one, r stays as it is.
 * Refused by 1 to 7. */
int64_t lf_substitute_interval(uint8_t *ledger, size_t ledger_len, const uint8_t *t, size_t t_len, uint64_t k,
                               const uint8_t *r, size_t r_len, uint8_t *out, size_t out_len);

/* That the face a implies the face b over d: all their dimensions are below d, and every assignment that satisfies a
 * satisfies b. Refused by 1, 2, 3, 4, 7, by 8 where a dimension is not below d, by 9 where it does not imply it. */
int64_t lf_entails(uint8_t *ledger, size_t ledger_len, uint64_t d, const uint8_t *a, size_t a_len, const uint8_t *b,
                   size_t b_len);

/* ---- Counterexamples: no ledger is asked for ---- */

/* Where the face a does not imply the face b over d, so where lf_entails says 9 on a ledger that is long enough: an
 * assignment that satisfies a and not b, in front of out, a byte (enum lf_value) for each of the d dimensions: d. No
 * such assignment determines fewer dimensions; of those that determine as few it is the first in byte order.
 * Refused by 2, 3, 4, by 6 where out is shorter than d, by 8 where a dimension is not below d, by 12 where a implies
 * b. */
int64_t lf_counterexample(uint64_t d, const uint8_t *a, size_t a_len, const uint8_t *b, size_t b_len, uint8_t *out,
                          size_t out_len);

/* ---- The producer's limits: no ledger is asked for ----
 *
 * The published Rust's producer takes fewer formulas: no dimension is above LF_MAX_PRODUCER_DIMENSION, and no node is
 * deeper than LF_MAX_PRODUCER_DEPTH. Only these two functions ask for that. */

/* How many nodes the face f has, where the producer takes it. Refused by 2, 3, 4, 13. */
int64_t lf_fence_face(const uint8_t *f, size_t f_len);

/* How many nodes the interval r has, where the producer takes it. Refused by 2, 3, 4, 13. */
int64_t lf_fence_interval(const uint8_t *r, size_t r_len);

/* ---- Texts ---- */

/* The face that a text is, in front of out: its length. Bytes 32 and 10 separate. Refused by 3, 4, 11, whichever is met
 * first from left to right, then 6. */
int64_t lf_read_face(const uint8_t *source, size_t source_len, uint8_t *out, size_t out_len);

/* The interval that a text is, in front of out: its length. Refused by 3, 4, 11, 6 likewise. */
int64_t lf_read_interval(const uint8_t *source, size_t source_len, uint8_t *out, size_t out_len);

/* The claim that a text is, the word entails, d and two faces: d, plus 2^16 times the length of the first face, which
 * is in front of a, plus 2^32 times that of the second, in front of b. Refused by 3, 4, 11, 6 likewise; on 6 neither
 * slice is written. */
int64_t lf_read_claim(const uint8_t *source, size_t source_len, uint8_t *a, size_t a_len, uint8_t *b, size_t b_len);

/* The text of a face, in front of out: its length. No zero byte is put behind it. Refused by 2, 3, 4, 6. */
int64_t lf_write_face(const uint8_t *f, size_t f_len, uint8_t *out, size_t out_len);

/* The text of an interval, in front of out: its length. Refused by 2, 3, 4, 6. */
int64_t lf_write_interval(const uint8_t *r, size_t r_len, uint8_t *out, size_t out_len);

/* The normal form of a face, in front of out: its length. It holds at the same assignments, and two faces that do have
 * one normal form. Refused by 2, 3, 4, 5, 6. */
int64_t lf_normal(const uint8_t *f, size_t f_len, uint8_t *out, size_t out_len);

/* The line of a step, NUMBER RULE [REFERENCES] JUDGEMENT and byte 10, in front of out: its length; 0 past the last
 * step. Refused by 1, 6. */
int64_t lf_write_step(const uint8_t *ledger, size_t ledger_len, uint64_t step, uint8_t *out, size_t out_len);

/* ---- Steps looked up by their number: never refused ---- */

/* Where the bytes of a step's judgement begin in the ledger, plus 2^32 times how many they are; 0 past the last step,
 * and where the bytes are no ledger. */
int64_t lf_operands(const uint8_t *ledger, size_t ledger_len, uint64_t step);

/* The kind of a step, 1 to 75; 0 as above. */
int64_t lf_kind(const uint8_t *ledger, size_t ledger_len, uint64_t step);

/* One more than the step that reference i of a step names, i from 0 on; 0 past the last reference, and as above. */
int64_t lf_reference(const uint8_t *ledger, size_t ledger_len, uint64_t step, uint64_t i);

/* The name of the rule of a kind, in front of out: its length, without a zero byte behind it; 0 for a number that is no
 * kind. Refused by 6. */
int64_t lf_rule_name(uint64_t kind, uint8_t *out, size_t out_len);

/* ---- The program facesteps ---- */

/* All that the program prints for an input, in front of out: its length. It reads the first line, a claim, on an empty
 * ledger of 65,536 bytes; it prints the line of each step, then "yes" and the step or "refused" and the number.
 * Refused by 6 alone. */
int64_t lf_facesteps(const uint8_t *input, size_t input_len, uint8_t *out, size_t out_len);

#ifdef __cplusplus
}
#endif

/* ---- Answers taken apart ---- */

/* The refusal's number, 1 to 13, or 0 where the answer is none: any function's. */
static inline int lf_refusal_of(int64_t answer) {
    return answer < 0 ? (int)((0 - (uint64_t)answer) & 15) : 0;
}

/* What a refusal's number means; the empty text for another number. */
static inline const char *lf_refusal_meaning(int refusal) {
    switch (refusal) {
    case LF_ILL_FORMED_LEDGER:
        return "the ledger is not 4 to 1,048,576 bytes long, or it is not well formed";
    case LF_NOT_A_FORMULA:
        return "an operand is not exactly one formula of its sort";
    case LF_TOO_MANY_NODES:
        return "a formula has more than 511 nodes";
    case LF_LARGE_DIMENSION:
        return "a dimension or k is above 254, or d is above 255";
    case LF_LARGE_RESULT:
        return "the result would have more than 511 nodes or a dimension above 254, "
               "or a normal form takes a list of more than 256 clauses";
    case LF_SHORT_OUTPUT:
        return "an output slice is too short for what is to stand in it";
    case LF_FULL_LEDGER:
        return "the ledger has no room for all the steps of the call";
    case LF_NOT_BELOW:
        return "a dimension is not below d";
    case LF_NOT_IMPLIED:
        return "the implication does not hold";
    case LF_DOES_NOT_FOLLOW:
        return "a step does not follow by its rule";
    case LF_NOT_ACCEPTED:
        return "the text is not accepted";
    case LF_IMPLIED:
        return "the implication holds, so there is no counterexample";
    case LF_BEYOND_PRODUCER:
        return "a dimension is above 32, or a node is more than 32 levels below the root, "
               "which the producer does not take";
    default:
        return "";
    }
}

/* Of a call, lf_face to lf_entails, that is not refused: the number of the step with its judgement. Else 0. */
static inline uint32_t lf_step_of(int64_t answer) {
    return answer < 0 ? 0 : (uint32_t)(answer & 0xffffffff);
}

/* Of a call: the length of the result in front of each output; 0 where there is none. */
static inline size_t lf_result_len_of(int64_t answer) {
    return answer < 0 ? 0 : (size_t)(answer >> 32);
}

/* Of lf_step_desk, where it is refused by 10: the lowest step that does not follow; else 0. */
static inline uint32_t lf_failing_step_of(int64_t answer) {
    return lf_refusal_of(answer) == LF_DOES_NOT_FOLLOW ? (uint32_t)((0 - (uint64_t)answer) >> 4) : 0;
}

/* Of lf_read_claim: d; 0 where it is refused. */
static inline uint64_t lf_claim_d_of(int64_t answer) {
    return answer < 0 ? 0 : (uint64_t)(answer & 0xffff);
}

/* Of lf_read_claim: the length of the first face, in front of a; 0 where it is refused. */
static inline size_t lf_claim_a_len_of(int64_t answer) {
    return answer < 0 ? 0 : (size_t)(answer >> 16 & 0xffff);
}

/* Of lf_read_claim: the length of the second face, in front of b; 0 where it is refused. */
static inline size_t lf_claim_b_len_of(int64_t answer) {
    return answer < 0 ? 0 : (size_t)(answer >> 32);
}

/* Of lf_operands: where the part begins in the ledger; 0 where there is no such step. */
static inline size_t lf_part_start_of(int64_t answer) {
    return (size_t)(answer & 0xffffffff);
}

/* Of lf_operands: how many bytes the part has; 0 where there is no such step, and never else. */
static inline size_t lf_part_len_of(int64_t answer) {
    return (size_t)(answer >> 32);
}

#endif
