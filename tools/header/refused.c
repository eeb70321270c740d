/* The refusals of each function that the other parts do not meet, and that they leave every lent byte as it was. */
#include "check.h"

#include <string.h>

#define N(bytes) (bytes), sizeof(bytes)
#define LEDGER l.bytes, l.len
#define SHORT tiny.bytes, tiny.len
#define OUT out.bytes, out.len
#define OUT1 out1.bytes, out1.len

/* Asks, and looks at all that was lent. */
#define REFUSE(call, q)                                                                                                \
    do {                                                                                                               \
        ASK(t, call, -(q));                                                                                            \
        stays(t, #call, &l);                                                                                           \
        stays(t, #call, &tiny);                                                                                        \
        stays(t, #call, &out);                                                                                         \
        stays(t, #call, &out1);                                                                                        \
    } while (0)

void refused(struct tally *t) {
    static const uint8_t ft[] = {LF_FT}, i1[] = {LF_I1}, at0[] = {LF_AT0, 0}, dim0[] = {LF_DIM, 0};
    static const uint8_t high[] = {LF_AT0, 255}, high_dim[] = {LF_DIM, 255}, last[] = {LF_AT1, 254},
                         last_dim[] = {LF_DIM, 254};
    static const uint8_t both[] = {LF_FAND, LF_AT0, 0, LF_AT1, 0}, two[] = {LF_MEET, LF_DIM, 0, LF_DIM, 0};
    static const uint8_t bad[] = {LF_FAND, LF_FT};
    uint8_t wide[800], wide_dim[800], whole_dim[800], sixteen[64], seventeen[64], pairs[128];
    char many[8192] = "", claim[8300], deep[2000] = "";
    /* 513 nodes, 511 nodes, and lists of 17 times 16 clauses. */
    size_t wn = chain(wide, LF_FAND, LF_AT0, 257, 0, 1), dn = chain(wide_dim, LF_MEET, LF_DIM, 257, 0, 1);
    size_t fulln = chain(whole_dim, LF_MEET, LF_DIM, 256, 0, 1);
    size_t n16 = chain(sixteen, LF_FOR, LF_AT0, 16, 0, 1), n17 = chain(seventeen, LF_FOR, LF_AT0, 17, 0, 1);
    size_t pn = 1 + n16 + n17;
    struct lent l = lent_zeros(1000), tiny = lent_zeros(LF_MIN_LEDGER_BYTES), out = lent_filled(LF_MAX_FORMULA_BYTES);
    struct lent out1 = lent_filled(LF_MAX_FORMULA_BYTES), steps = lent_zeros(1000);
    pairs[0] = LF_FAND;
    memcpy(pairs + 1, sixteen, n16);
    memcpy(pairs + 1 + n16, seventeen, n17);

    REFUSE(lf_face(LEDGER, 1, wide, wn), LF_TOO_MANY_NODES);
    REFUSE(lf_face(LEDGER, 1, N(high)), LF_LARGE_DIMENSION);
    REFUSE(lf_face(LEDGER, LF_MAX_D + 1, N(ft)), LF_LARGE_DIMENSION);
    REFUSE(lf_face(SHORT, 1, N(at0)), LF_FULL_LEDGER);
    REFUSE(lf_interval(LEDGER, 1, wide_dim, dn), LF_TOO_MANY_NODES);
    REFUSE(lf_interval(LEDGER, 1, N(high_dim)), LF_LARGE_DIMENSION);
    REFUSE(lf_interval(SHORT, 1, N(dim0)), LF_FULL_LEDGER);

    REFUSE(lf_boundary(LEDGER, wide_dim, dn, OUT, OUT1), LF_TOO_MANY_NODES);
    REFUSE(lf_boundary(LEDGER, N(high_dim), OUT, OUT1), LF_LARGE_DIMENSION);
    REFUSE(lf_boundary(SHORT, N(dim0), OUT, OUT1), LF_FULL_LEDGER);
    REFUSE(lf_endpoint(LEDGER, 1, wide, wn, N(dim0), 0), LF_TOO_MANY_NODES);
    REFUSE(lf_endpoint(LEDGER, 1, N(ft), N(high_dim), 0), LF_LARGE_DIMENSION);
    REFUSE(lf_endpoint(SHORT, 1, N(at0), N(dim0), 0), LF_FULL_LEDGER);
    REFUSE(lf_forall(LEDGER, wide, wn, 0, OUT), LF_TOO_MANY_NODES);
    REFUSE(lf_forall(LEDGER, N(ft), LF_MAX_DIMENSION + 1, OUT), LF_LARGE_DIMENSION);
    REFUSE(lf_forall(SHORT, N(at0), 0, OUT), LF_FULL_LEDGER);

    REFUSE(lf_shift_face(LEDGER, wide, wn, 0, OUT), LF_TOO_MANY_NODES);
    REFUSE(lf_shift_face(LEDGER, N(ft), UINT64_MAX, OUT), LF_LARGE_DIMENSION);
    REFUSE(lf_shift_face(LEDGER, N(last), 0, OUT), LF_LARGE_RESULT);
    REFUSE(lf_shift_face(SHORT, N(at0), 0, OUT), LF_FULL_LEDGER);
    REFUSE(lf_shift_interval(LEDGER, wide_dim, dn, 0, OUT), LF_TOO_MANY_NODES);
    REFUSE(lf_shift_interval(LEDGER, N(i1), LF_MAX_DIMENSION + 1, OUT), LF_LARGE_DIMENSION);
    REFUSE(lf_shift_interval(LEDGER, N(last_dim), 0, OUT), LF_LARGE_RESULT);
    REFUSE(lf_shift_interval(SHORT, N(dim0), 0, OUT), LF_FULL_LEDGER);
    REFUSE(lf_substitute_face(LEDGER, N(at0), 0, wide_dim, dn, OUT), LF_TOO_MANY_NODES);
    REFUSE(lf_substitute_face(LEDGER, N(high), 0, N(i1), OUT), LF_LARGE_DIMENSION);
    REFUSE(lf_substitute_face(LEDGER, N(both), 0, whole_dim, fulln, OUT), LF_LARGE_RESULT);
    REFUSE(lf_substitute_face(SHORT, N(at0), 0, N(i1), OUT), LF_FULL_LEDGER);
    REFUSE(lf_substitute_interval(LEDGER, wide_dim, dn, 0, N(i1), OUT), LF_TOO_MANY_NODES);
    REFUSE(lf_substitute_interval(LEDGER, N(i1), 0, N(high_dim), OUT), LF_LARGE_DIMENSION);
    REFUSE(lf_substitute_interval(LEDGER, N(two), 0, whole_dim, fulln, OUT), LF_LARGE_RESULT);
    REFUSE(lf_substitute_interval(SHORT, N(dim0), 0, N(i1), OUT), LF_FULL_LEDGER);
    REFUSE(lf_entails(LEDGER, 1, N(ft), wide, wn), LF_TOO_MANY_NODES);
    REFUSE(lf_entails(LEDGER, LF_MAX_D + 1, N(ft), N(ft)), LF_LARGE_DIMENSION);
    REFUSE(lf_entails(SHORT, 1, N(ft), N(ft)), LF_FULL_LEDGER);

    /* Each question of all operands, and of d, before the next. */
    REFUSE(lf_counterexample(256, wide, wn, N(bad), OUT), LF_NOT_A_FORMULA);
    REFUSE(lf_counterexample(256, N(bad), N(high), OUT), LF_NOT_A_FORMULA);
    REFUSE(lf_counterexample(256, N(high), wide, wn, OUT), LF_TOO_MANY_NODES);
    REFUSE(lf_counterexample(1, wide, wn, N(high), OUT), LF_TOO_MANY_NODES);
    REFUSE(lf_counterexample(1, N(at0), N(high), NULL, 0), LF_LARGE_DIMENSION);
    REFUSE(lf_counterexample(LF_MAX_D + 1, N(at0), N(at0), OUT), LF_LARGE_DIMENSION);
    REFUSE(lf_counterexample(UINT64_MAX, N(ft), N(ft), OUT), LF_LARGE_DIMENSION);
    REFUSE(lf_counterexample(1, N(last), N(ft), NULL, 0), LF_SHORT_OUTPUT);
    REFUSE(lf_counterexample(LF_MAX_D, N(ft), N(at0), out.bytes, LF_MAX_D - 1), LF_SHORT_OUTPUT);
    REFUSE(lf_counterexample(LF_MAX_DIMENSION, N(ft), N(last), OUT), LF_NOT_BELOW);
    REFUSE(lf_counterexample(1, N(last), N(ft), OUT), LF_NOT_BELOW);
    REFUSE(lf_counterexample(1, N(both), N(at0), OUT), LF_IMPLIED);

    /* The first no decides: what is refused by 3 and 4 here is beyond the producer too. */
    REFUSE(lf_fence_face(N(bad)), LF_NOT_A_FORMULA);
    REFUSE(lf_fence_face(wide, wn - 1), LF_NOT_A_FORMULA);
    REFUSE(lf_fence_face(both + 1, sizeof both - 1), LF_NOT_A_FORMULA);
    REFUSE(lf_fence_face(N(dim0)), LF_NOT_A_FORMULA);
    REFUSE(lf_fence_face(wide, wn), LF_TOO_MANY_NODES);
    REFUSE(lf_fence_face(N(high)), LF_LARGE_DIMENSION);
    REFUSE(lf_fence_face(N(last)), LF_BEYOND_PRODUCER);
    REFUSE(lf_fence_interval(two + 1, sizeof two - 1), LF_NOT_A_FORMULA);
    REFUSE(lf_fence_interval(N(at0)), LF_NOT_A_FORMULA);
    REFUSE(lf_fence_interval(wide_dim, dn - 1), LF_NOT_A_FORMULA);
    REFUSE(lf_fence_interval(wide_dim, dn), LF_TOO_MANY_NODES);
    REFUSE(lf_fence_interval(N(high_dim)), LF_LARGE_DIMENSION);
    REFUSE(lf_fence_interval(N(last_dim)), LF_BEYOND_PRODUCER);
    REFUSE(lf_fence_interval(whole_dim, fulln), LF_BEYOND_PRODUCER);

    /* 8 leaves steps, and outputs as they were: on a ledger of their own. */
    ASK(t, lf_face(steps.bytes, steps.len, 0, N(at0)), -LF_NOT_BELOW);
    ASK(t, lf_interval(steps.bytes, steps.len, 0, N(dim0)), -LF_NOT_BELOW);
    ASK(t, lf_endpoint(steps.bytes, steps.len, 0, N(ft), N(dim0), 1), -LF_NOT_BELOW);
    ASK(t, lf_step_desk(steps.bytes, steps.len), lf_well_formed(steps.bytes, steps.len));

    for (int i = 0; i < 512; i++)
        strcat(many, "(neg ");
    for (int i = 0; i < 255; i++)
        strcat(deep, "(s ");
    REFUSE(lf_read_interval((const uint8_t *)many, strlen(many), OUT), LF_TOO_MANY_NODES);
    strcpy(claim, "(dim ");
    strcat(claim, deep);
    REFUSE(lf_read_interval((const uint8_t *)claim, strlen(claim), OUT), LF_LARGE_DIMENSION);
    strcpy(claim, "(at1 ");
    strcat(claim, deep);
    REFUSE(lf_read_face((const uint8_t *)claim, strlen(claim), OUT), LF_LARGE_DIMENSION);
    strcpy(claim, "entails (s ");
    strcat(claim, deep);
    REFUSE(lf_read_claim((const uint8_t *)claim, strlen(claim), OUT, OUT1), LF_LARGE_DIMENSION);
    many[0] = 0;
    for (int i = 0; i < 512; i++)
        strcat(many, "(for ");
    REFUSE(lf_read_face((const uint8_t *)many, strlen(many), OUT), LF_TOO_MANY_NODES);
    strcpy(claim, "entails z ft ");
    strcat(claim, many);
    REFUSE(lf_read_claim((const uint8_t *)claim, strlen(claim), OUT, OUT1), LF_TOO_MANY_NODES);

    REFUSE(lf_write_face(wide, wn, OUT), LF_TOO_MANY_NODES);
    REFUSE(lf_write_face(N(high), OUT), LF_LARGE_DIMENSION);
    REFUSE(lf_write_face(N(bad), OUT), LF_NOT_A_FORMULA);
    REFUSE(lf_write_interval(wide_dim, dn, OUT), LF_TOO_MANY_NODES);
    REFUSE(lf_write_interval(N(high_dim), OUT), LF_LARGE_DIMENSION);
    REFUSE(lf_write_interval(N(at0), OUT), LF_NOT_A_FORMULA);
    REFUSE(lf_normal(wide, wn, OUT), LF_TOO_MANY_NODES);
    REFUSE(lf_normal(N(high), OUT), LF_LARGE_DIMENSION);
    REFUSE(lf_normal(pairs, pn, OUT), LF_LARGE_RESULT);
    lent_free(&l), lent_free(&tiny), lent_free(&out), lent_free(&out1), lent_free(&steps);
}
