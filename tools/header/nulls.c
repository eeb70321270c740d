/* NULL with length 0, for every slice of every function. */
#include "check.h"

#include <string.h>

#define N(bytes) (bytes), sizeof(bytes)
#define NONE NULL, 0

void nulls(struct tally *t) {
    static const uint8_t ft[] = {LF_FT}, i1[] = {LF_I1}, claim[] = "entails z ft ft", face[] = "ft", interval[] = "i1";
    struct lent l = lent_zeros(64), out = lent_filled(64), out1 = lent_filled(64);
    size_t n = l.len, on = out.len;

    ASK(t, lf_well_formed(NONE), -LF_ILL_FORMED_LEDGER);
    ASK(t, lf_step_desk(NONE), -LF_ILL_FORMED_LEDGER);
    ASK(t, lf_repeats(NONE, l.bytes, n), -LF_ILL_FORMED_LEDGER);
    ASK(t, lf_repeats(l.bytes, n, NONE), -LF_ILL_FORMED_LEDGER);
    ASK(t, lf_repeats(NONE, NONE), -LF_ILL_FORMED_LEDGER);

    ASK(t, lf_face(NONE, 0, N(ft)), -LF_ILL_FORMED_LEDGER);
    ASK(t, lf_face(l.bytes, n, 0, NONE), -LF_NOT_A_FORMULA);
    ASK(t, lf_face(NONE, 0, NONE), -LF_ILL_FORMED_LEDGER);
    ASK(t, lf_interval(NONE, 0, N(i1)), -LF_ILL_FORMED_LEDGER);
    ASK(t, lf_interval(l.bytes, n, 0, NONE), -LF_NOT_A_FORMULA);
    ASK(t, lf_interval(NONE, 0, NONE), -LF_ILL_FORMED_LEDGER);

    ASK(t, lf_boundary(NONE, N(i1), out.bytes, on, out1.bytes, on), -LF_ILL_FORMED_LEDGER);
    ASK(t, lf_boundary(l.bytes, n, NONE, out.bytes, on, out1.bytes, on), -LF_NOT_A_FORMULA);
    ASK(t, lf_boundary(l.bytes, n, N(i1), NONE, out1.bytes, on), -LF_SHORT_OUTPUT);
    ASK(t, lf_boundary(l.bytes, n, N(i1), out.bytes, on, NONE), -LF_SHORT_OUTPUT);
    ASK(t, lf_boundary(NONE, NONE, NONE, NONE), -LF_ILL_FORMED_LEDGER);
    ASK(t, lf_endpoint(NONE, 0, N(ft), N(i1), 1), -LF_ILL_FORMED_LEDGER);
    ASK(t, lf_endpoint(l.bytes, n, 0, NONE, N(i1), 1), -LF_NOT_A_FORMULA);
    ASK(t, lf_endpoint(l.bytes, n, 0, N(ft), NONE, 1), -LF_NOT_A_FORMULA);
    ASK(t, lf_endpoint(NONE, 0, NONE, NONE, 1), -LF_ILL_FORMED_LEDGER);

    ASK(t, lf_forall(NONE, N(ft), 0, out.bytes, on), -LF_ILL_FORMED_LEDGER);
    ASK(t, lf_forall(l.bytes, n, NONE, 0, out.bytes, on), -LF_NOT_A_FORMULA);
    ASK(t, lf_forall(l.bytes, n, N(ft), 0, NONE), -LF_SHORT_OUTPUT);
    ASK(t, lf_forall(NONE, NONE, 0, NONE), -LF_ILL_FORMED_LEDGER);
    ASK(t, lf_shift_face(NONE, N(ft), 0, out.bytes, on), -LF_ILL_FORMED_LEDGER);
    ASK(t, lf_shift_face(l.bytes, n, NONE, 0, out.bytes, on), -LF_NOT_A_FORMULA);
    ASK(t, lf_shift_face(l.bytes, n, N(ft), 0, NONE), -LF_SHORT_OUTPUT);
    ASK(t, lf_shift_face(NONE, NONE, 0, NONE), -LF_ILL_FORMED_LEDGER);
    ASK(t, lf_shift_interval(NONE, N(i1), 0, out.bytes, on), -LF_ILL_FORMED_LEDGER);
    ASK(t, lf_shift_interval(l.bytes, n, NONE, 0, out.bytes, on), -LF_NOT_A_FORMULA);
    ASK(t, lf_shift_interval(l.bytes, n, N(i1), 0, NONE), -LF_SHORT_OUTPUT);
    ASK(t, lf_shift_interval(NONE, NONE, 0, NONE), -LF_ILL_FORMED_LEDGER);
    ASK(t, lf_substitute_face(NONE, N(ft), 0, N(i1), out.bytes, on), -LF_ILL_FORMED_LEDGER);
    ASK(t, lf_substitute_face(l.bytes, n, NONE, 0, N(i1), out.bytes, on), -LF_NOT_A_FORMULA);
    ASK(t, lf_substitute_face(l.bytes, n, N(ft), 0, NONE, out.bytes, on), -LF_NOT_A_FORMULA);
    ASK(t, lf_substitute_face(l.bytes, n, N(ft), 0, N(i1), NONE), -LF_SHORT_OUTPUT);
    ASK(t, lf_substitute_face(NONE, NONE, 0, NONE, NONE), -LF_ILL_FORMED_LEDGER);
    ASK(t, lf_substitute_interval(NONE, N(i1), 0, N(i1), out.bytes, on), -LF_ILL_FORMED_LEDGER);
    ASK(t, lf_substitute_interval(l.bytes, n, NONE, 0, N(i1), out.bytes, on), -LF_NOT_A_FORMULA);
    ASK(t, lf_substitute_interval(l.bytes, n, N(i1), 0, NONE, out.bytes, on), -LF_NOT_A_FORMULA);
    ASK(t, lf_substitute_interval(l.bytes, n, N(i1), 0, N(i1), NONE), -LF_SHORT_OUTPUT);
    ASK(t, lf_substitute_interval(NONE, NONE, 0, NONE, NONE), -LF_ILL_FORMED_LEDGER);
    ASK(t, lf_entails(NONE, 0, N(ft), N(ft)), -LF_ILL_FORMED_LEDGER);
    ASK(t, lf_entails(l.bytes, n, 0, NONE, N(ft)), -LF_NOT_A_FORMULA);
    ASK(t, lf_entails(l.bytes, n, 0, N(ft), NONE), -LF_NOT_A_FORMULA);
    ASK(t, lf_entails(NONE, 0, NONE, NONE), -LF_ILL_FORMED_LEDGER);
    ASK(t, lf_counterexample(1, NONE, N(ft), out.bytes, on), -LF_NOT_A_FORMULA);
    ASK(t, lf_counterexample(1, N(ft), NONE, out.bytes, on), -LF_NOT_A_FORMULA);
    ASK(t, lf_counterexample(1, N(ft), N(ft), NONE), -LF_SHORT_OUTPUT);
    ASK(t, lf_counterexample(0, N(ft), N(ft), NONE), -LF_IMPLIED);
    ASK(t, lf_counterexample(0, NONE, NONE, NONE), -LF_NOT_A_FORMULA);
    ASK(t, lf_fence_face(NONE), -LF_NOT_A_FORMULA);
    ASK(t, lf_fence_interval(NONE), -LF_NOT_A_FORMULA);

    /* Texts without their last byte, the zero. */
    ASK(t, lf_read_face(NONE, out.bytes, on), -LF_NOT_ACCEPTED);
    ASK(t, lf_read_face(face, sizeof face - 1, NONE), -LF_SHORT_OUTPUT);
    ASK(t, lf_read_face(NONE, NONE), -LF_NOT_ACCEPTED);
    ASK(t, lf_read_interval(NONE, out.bytes, on), -LF_NOT_ACCEPTED);
    ASK(t, lf_read_interval(interval, sizeof interval - 1, NONE), -LF_SHORT_OUTPUT);
    ASK(t, lf_read_interval(NONE, NONE), -LF_NOT_ACCEPTED);
    ASK(t, lf_read_claim(NONE, out.bytes, on, out1.bytes, on), -LF_NOT_ACCEPTED);
    ASK(t, lf_read_claim(claim, sizeof claim - 1, NONE, out1.bytes, on), -LF_SHORT_OUTPUT);
    ASK(t, lf_read_claim(claim, sizeof claim - 1, out.bytes, on, NONE), -LF_SHORT_OUTPUT);
    ASK(t, lf_read_claim(NONE, NONE, NONE), -LF_NOT_ACCEPTED);
    ASK(t, lf_write_face(NONE, out.bytes, on), -LF_NOT_A_FORMULA);
    ASK(t, lf_write_face(N(ft), NONE), -LF_SHORT_OUTPUT);
    ASK(t, lf_write_face(NONE, NONE), -LF_NOT_A_FORMULA);
    ASK(t, lf_write_interval(NONE, out.bytes, on), -LF_NOT_A_FORMULA);
    ASK(t, lf_write_interval(N(i1), NONE), -LF_SHORT_OUTPUT);
    ASK(t, lf_write_interval(NONE, NONE), -LF_NOT_A_FORMULA);
    ASK(t, lf_normal(NONE, out.bytes, on), -LF_NOT_A_FORMULA);
    ASK(t, lf_normal(N(ft), NONE), -LF_SHORT_OUTPUT);
    ASK(t, lf_normal(NONE, NONE), -LF_NOT_A_FORMULA);

    /* A ledger with one step. */
    stays(t, "every refusal so far", &l);
    ASK(t, lf_face(l.bytes, n, 0, N(ft)), 0);
    ASK(t, lf_write_step(NONE, 0, out.bytes, on), -LF_ILL_FORMED_LEDGER);
    ASK(t, lf_write_step(l.bytes, n, 0, NONE), -LF_SHORT_OUTPUT);
    ASK(t, lf_write_step(l.bytes, n, 1, NONE), 0);
    ASK(t, lf_write_step(NONE, 0, NONE), -LF_ILL_FORMED_LEDGER);
    ASK(t, lf_operands(NONE, 0), 0);
    ASK(t, lf_kind(NONE, 0), 0);
    ASK(t, lf_reference(NONE, 0, 0), 0);
    ASK(t, lf_rule_name(1, NONE), -LF_SHORT_OUTPUT);
    ASK(t, lf_rule_name(0, NONE), 0);
    stays(t, "every refusal so far", &out);
    stays(t, "every refusal so far", &out1);
    ASK(t, lf_facesteps(NONE, NONE), -LF_SHORT_OUTPUT);
    ASK(t, lf_facesteps(claim, sizeof claim - 1, NONE), -LF_SHORT_OUTPUT);
    ASK(t, lf_facesteps(NONE, out.bytes, on), strlen("refused 11\n"));
    holds(t, "lf_facesteps", &out, (const uint8_t *)"refused 11\n", strlen("refused 11\n"));
    lent_free(&l), lent_free(&out), lent_free(&out1);
}
