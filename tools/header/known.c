/* Document 01's listing and marked examples: every function once or more, its answer and every lent byte. */
#include "check.h"

#include <string.h>

#define N(bytes) (bytes), sizeof(bytes)

static const uint8_t at0[] = {LF_AT0, 0}, ft[] = {LF_FT}, ff[] = {LF_FF};

/* The ledger that `entails (s z) (at0 z) ft` leaves, by the published Rust. */
static const uint8_t listed[] = {75, 0, 0,  0,  4, 0, 0, 0,  1, 0, 0, 1, 9, 0, 0, 0,  7, 0, 0, 0, 0, 0, 1, 18, 0, 9, 0,
                                 0,  0, 13, 0,  1, 0, 0, 0,  1, 2, 0, 4, 0, 0, 0, 12, 0, 1, 1, 7, 0, 0, 0, 21, 0, 1, 0,
                                 2,  0, 1,  18, 0, 0, 0, 30, 0, 2, 0, 0, 0, 3, 0, 0,  0, 4, 0, 0, 0, 1, 2, 0,  1};

static const char *const lines[] = {
    "0 lt.z [] (lt z (s z))\n",
    "1 interval.dim [0] (interval (s z) (dim z))\n",
    "2 face.0 [1] (face (s z) (at0 z))\n",
    "3 face.ft [] (face (s z) ft)\n",
    "4 cover.top [] (cover (fc (at0 z) fnil) ft)\n",
    "5 entails.checked [2,3,4] (entails (s z) (at0 z) ft)\n",
};

/* A text as bytes. */
#define TEXT(s) (const uint8_t *)(s), strlen(s)

/* The claim read, asked, written, looked up and judged. */
static void listing(struct tally *t) {
    struct lent l = lent_zeros(2048), m = lent_zeros(100), a = lent_filled(8), b = lent_filled(8),
                out = lent_filled(200);
    int64_t claim = 1 + 65536 * (int64_t)sizeof at0 + 4294967296 * (int64_t)sizeof ft;
    const char *text = "entails (s z) (at0 z) ft";

    ASK(t, lf_read_claim(TEXT(text), a.bytes, a.len, b.bytes, b.len), claim);
    holds(t, "lf_read_claim", &a, N(at0));
    holds(t, "lf_read_claim", &b, N(ft));
    ASK(t, lf_well_formed(l.bytes, l.len), 0);
    ASK(t, lf_step_desk(l.bytes, l.len), 0);
    ASK(t, lf_entails(l.bytes, l.len, 1, N(at0), N(ft)), 5);
    holds(t, "lf_entails", &l, N(listed));
    ASK(t, lf_entails(l.bytes, l.len, 1, N(at0), N(ft)), 5);
    ASK(t, lf_face(l.bytes, l.len, 1, N(at0)), 2);
    ASK(t, lf_well_formed(l.bytes, l.len), 6);
    ASK(t, lf_step_desk(l.bytes, l.len), 6);
    stays(t, "asked again", &l);

    for (uint64_t i = 0; i < 6; i++) {
        ASK(t, lf_write_step(l.bytes, l.len, i, out.bytes, out.len), strlen(lines[i]));
        holds(t, "lf_write_step", &out, TEXT(lines[i]));
    }
    ASK(t, lf_write_step(l.bytes, l.len, 6, out.bytes, out.len), 0);
    ASK(t, lf_kind(l.bytes, l.len, 5), LF_KIND_ENTAILS);
    ASK(t, lf_kind(l.bytes, l.len, 6), 0);
    ASK(t, lf_reference(l.bytes, l.len, 5, 0), 1 + 2);
    ASK(t, lf_reference(l.bytes, l.len, 5, 2), 1 + 4);
    ASK(t, lf_reference(l.bytes, l.len, 5, 3), 0);
    ASK(t, lf_operands(l.bytes, l.len, 5), 75 + 4294967296 * 4);
    ASK(t, lf_operands(l.bytes, l.len, 6), 0);
    ASK(t, lf_rule_name(LF_KIND_ENTAILS, out.bytes, out.len), 15);
    holds(t, "lf_rule_name", &out, TEXT("entails.checked"));
    ASK(t, lf_rule_name(LF_MAX_KIND + 1, out.bytes, out.len), 0);

    /* Another ledger that ends in the same claim, and one that does not. */
    ASK(t, lf_face(m.bytes, m.len, 1, N(ft)), 0);
    ASK(t, lf_repeats(l.bytes, l.len, m.bytes, m.len), 0);
    ASK(t, lf_entails(m.bytes, m.len, 1, N(at0), N(ft)), 5);
    ASK(t, lf_repeats(l.bytes, l.len, m.bytes, m.len), 1);
    ASK(t, lf_repeats(l.bytes, l.len, l.bytes, l.len), 1);

    /* A step that refers to another one than its rule asks for. */
    l.bytes[31] = 0;
    ASK(t, lf_step_desk(l.bytes, l.len), -(10 + 16 * 2));
    lent_free(&l), lent_free(&m), lent_free(&a), lent_free(&b), lent_free(&out);
}

/* All that the program prints. */
static void program(struct tally *t) {
    char want[400] = "";
    struct lent out = lent_filled(400);
    for (int i = 0; i < 6; i++)
        strcat(want, lines[i]);
    strcat(want, "yes 5\n");
    ASK(t, lf_facesteps(TEXT("entails (s z) (at0 z) ft\n"), out.bytes, out.len), strlen(want));
    holds(t, "lf_facesteps", &out, TEXT(want));
    ASK(t, lf_facesteps(TEXT("entails z ft (at1 z)"), out.bytes, out.len),
        strlen("0 face.ft [] (face z ft)\nrefused 8\n"));
    holds(t, "lf_facesteps", &out, TEXT("0 face.ft [] (face z ft)\nrefused 8\n"));
    lent_free(&out);
}

/* The marked entailments, each on an empty ledger. */
static void entailments(struct tally *t) {
    static const uint8_t a[] = {LF_FAND, LF_AT0, 0, LF_FOR, LF_AT0, 1, LF_AT1, 1};
    static const uint8_t b[] = {LF_FOR, LF_FAND, LF_AT0, 0, LF_AT0, 1, LF_FAND, LF_AT0, 0, LF_AT1, 1};
    static const uint8_t both[] = {LF_FAND, LF_AT0, 0, LF_AT1, 0}, either[] = {LF_FOR, LF_AT0, 0, LF_AT1, 0};
    struct lent l = lent_zeros(2048);
    ASK(t, lf_entails(l.bytes, l.len, 2, N(a), N(b)), 31);
    ASK(t, lf_step_desk(l.bytes, l.len), 32);
    memset(l.bytes, 0, l.len);
    ASK(t, lf_entails(l.bytes, l.len, 1, N(both), N(ff)), 12);
    memset(l.bytes, 0, l.len);
    ASK(t, lf_entails(l.bytes, l.len, 1, N(ft), N(either)), -LF_NOT_IMPLIED);
    ASK(t, lf_step_desk(l.bytes, l.len), 6);
    memset(l.bytes, 0, l.len);
    ASK(t, lf_entails(l.bytes, l.len, 0, N(ff), N(at0)), -LF_NOT_BELOW);
    ASK(t, lf_step_desk(l.bytes, l.len), 1);
    memset(l.bytes, 0, l.len);
    ASK(t, lf_entails(l.bytes, l.len, 0, N(ff), N(ff)), 3);
    /* One buffer as both operands, and an operand that is a part of the other. */
    ASK(t, lf_entails(l.bytes, l.len, 0, N(ff), N(ff)), 3);
    memset(l.bytes, 0, l.len);
    ASK(t, lf_entails(l.bytes, l.len, 1, either + 1, sizeof at0, N(either)), 8);
    ASK(t, lf_step_desk(l.bytes, l.len), 9);
    lent_free(&l);
}

/* The least assignments at which the same and others do not hold. */
static void counterexamples(struct tally *t) {
    static const uint8_t a[] = {LF_FAND, LF_AT0, 0, LF_FOR, LF_AT0, 1, LF_AT1, 1};
    static const uint8_t b[] = {LF_FOR, LF_FAND, LF_AT0, 0, LF_AT0, 1, LF_FAND, LF_AT0, 0, LF_AT1, 1};
    static const uint8_t both[] = {LF_FAND, LF_AT0, 0, LF_AT1, 0}, either[] = {LF_FOR, LF_AT0, 0, LF_AT1, 0};
    static const uint8_t some[] = {LF_FOR, LF_AT0, 1, LF_FOR, LF_AT1, 0, LF_AT0, 2}, second[] = {LF_AT0, 1};
    static const uint8_t open[] = {LF_UNDETERMINED}, zeros[] = {LF_ZERO, LF_ZERO, LF_UNDETERMINED};
    static const uint8_t one[] = {LF_ONE, LF_UNDETERMINED, LF_UNDETERMINED};
    static const uint8_t middle[] = {LF_UNDETERMINED, LF_ZERO, LF_UNDETERMINED}, mixed[] = {LF_ZERO, LF_ONE};
    struct lent out = lent_filled(20), none = lent_filled(0);
    ASK(t, lf_counterexample(2, N(a), N(b), out.bytes, out.len), -LF_IMPLIED);
    ASK(t, lf_counterexample(1, N(both), N(ff), out.bytes, out.len), -LF_IMPLIED);
    ASK(t, lf_counterexample(0, N(ff), N(at0), out.bytes, out.len), -LF_NOT_BELOW);
    ASK(t, lf_counterexample(0, N(ff), N(ff), out.bytes, out.len), -LF_IMPLIED);
    stays(t, "lf_counterexample", &out);
    ASK(t, lf_counterexample(1, N(ft), N(either), out.bytes, out.len), sizeof open);
    holds(t, "lf_counterexample", &out, N(open));
    /* As few dimensions in three ways, and the first in byte order of those that are left. */
    ASK(t, lf_counterexample(3, N(some), N(ff), out.bytes, out.len), sizeof one);
    holds(t, "lf_counterexample", &out, N(one));
    ASK(t, lf_counterexample(3, N(some), either + 3, sizeof at0, out.bytes, out.len), sizeof middle);
    holds(t, "lf_counterexample", &out, N(middle));
    ASK(t, lf_counterexample(3, N(a), N(ff), out.bytes, out.len), sizeof zeros);
    holds(t, "lf_counterexample", &out, N(zeros));
    ASK(t, lf_counterexample(2, N(a), N(second), out.bytes, out.len), sizeof mixed);
    holds(t, "lf_counterexample", &out, N(mixed));
    /* No dimension, no byte; one buffer as both operands. */
    ASK(t, lf_counterexample(0, N(ft), N(ff), none.bytes, none.len), 0);
    stays(t, "lf_counterexample", &none);
    ASK(t, lf_counterexample(1, N(at0), N(at0), out.bytes, out.len), -LF_IMPLIED);
    stays(t, "lf_counterexample", &out);
    lent_free(&out), lent_free(&none);
}

/* The node counts of formulas that the producer takes. */
static void fences(struct tally *t) {
    static const uint8_t f[] = {LF_FOR, LF_AT0, 0, LF_FAND, LF_AT1, 1, LF_FT}, last[] = {LF_AT1, 32};
    static const uint8_t r[] = {LF_MEET, LF_DIM, 0, LF_NEG, LF_DIM, 0}, i0[] = {LF_I0};
    ASK(t, lf_fence_face(N(ff)), 1);
    ASK(t, lf_fence_face(N(at0)), 1);
    ASK(t, lf_fence_face(N(last)), 1);
    ASK(t, lf_fence_face(N(f)), 5);
    /* A part of it alone. */
    ASK(t, lf_fence_face(f + 3, sizeof f - 3), 3);
    ASK(t, lf_fence_interval(N(i0)), 1);
    ASK(t, lf_fence_interval(N(r)), 4);
    ASK(t, lf_fence_interval(r + 3, sizeof r - 3), 2);
}

/* The answer of a call with a result: its step and its length. */
static int64_t made(int64_t step, size_t len) {
    return step + 4294967296 * (int64_t)len;
}

/* The marked results: forall, boundary, shift, substitution, and an endpoint. */
static void results(struct tally *t) {
    static const uint8_t f[] = {LF_FOR, LF_AT0, 0, LF_FAND, LF_AT1, 1, LF_AT0, 2};
    static const uint8_t forall[] = {LF_FOR, LF_AT0, 0, LF_FAND, LF_FF, LF_AT0, 1};
    static const uint8_t r[] = {LF_MEET, LF_DIM, 0, LF_NEG, LF_DIM, 0};
    static const uint8_t zero[] = {LF_FOR, LF_AT0, 0, LF_AT1, 0}, one[] = {LF_FAND, LF_AT1, 0, LF_AT0, 0};
    static const uint8_t dim0[] = {LF_DIM, 0}, dim1[] = {LF_DIM, 1}, dim2[] = {LF_DIM, 2};
    static const uint8_t first[] = {LF_AT0, 1}, second[] = {LF_AT0, 2}, last[] = {LF_AT0, 254};
    static const uint8_t at1[] = {LF_AT1, 0}, join[] = {LF_JOIN, LF_DIM, 3, LF_I0};
    static const uint8_t put[] = {LF_FOR, LF_AT1, 3, LF_FF};
    struct lent l = lent_zeros(2048), out = lent_filled(20), out1 = lent_filled(5);

    ASK(t, lf_forall(l.bytes, l.len, N(f), 1, out.bytes, out.len), made(6, sizeof forall));
    holds(t, "lf_forall", &out, N(forall));
    memset(l.bytes, 0, l.len);
    ASK(t, lf_boundary(l.bytes, l.len, N(r), out.bytes, out.len, out1.bytes, out1.len), made(2, sizeof zero));
    holds(t, "lf_boundary", &out, N(zero));
    holds(t, "lf_boundary", &out1, N(one));
    memset(l.bytes, 0, l.len);
    ASK(t, lf_shift_face(l.bytes, l.len, N(first), 1, out.bytes, out.len), made(3, sizeof second));
    holds(t, "lf_shift_face", &out, N(second));
    memset(l.bytes, 0, l.len);
    ASK(t, lf_shift_face(l.bytes, l.len, N(at0), 1, out.bytes, out.len), made(2, sizeof at0));
    holds(t, "lf_shift_face", &out, N(at0));
    ASK(t, lf_shift_face(l.bytes, l.len, N(last), 0, out.bytes, out.len), -LF_LARGE_RESULT);
    memset(l.bytes, 0, l.len);
    ASK(t, lf_shift_interval(l.bytes, l.len, N(dim1), 1, out.bytes, out.len), made(2, sizeof dim2));
    holds(t, "lf_shift_interval", &out, N(dim2));
    memset(l.bytes, 0, l.len);
    ASK(t, lf_substitute_face(l.bytes, l.len, N(at1), 0, N(join), out.bytes, out.len), made(4, sizeof put));
    holds(t, "lf_substitute_face", &out, N(put));
    memset(l.bytes, 0, l.len);
    ASK(t, lf_substitute_interval(l.bytes, l.len, N(dim0), 0, N(join), out.bytes, out.len), made(0, sizeof join));
    holds(t, "lf_substitute_interval", &out, N(join));
    /* One buffer as t and r. */
    ASK(t, lf_substitute_interval(l.bytes, l.len, N(dim0), 0, N(dim0), out.bytes, out.len), made(1, sizeof dim0));
    holds(t, "lf_substitute_interval", &out, N(dim0));
    memset(l.bytes, 0, l.len);
    ASK(t, lf_interval(l.bytes, l.len, 1, N(r)), 3);
    memset(l.bytes, 0, l.len);
    ASK(t, lf_endpoint(l.bytes, l.len, 1, N(at0), N(r), 0), 14);
    ASK(t, lf_endpoint(l.bytes, l.len, 1, N(at1), N(dim0), 1), 18);
    ASK(t, lf_endpoint(l.bytes, l.len, 1, N(at1), N(dim0), UINT64_MAX), 18);
    ASK(t, lf_endpoint(l.bytes, l.len, 1, N(ft), N(dim0), 1), -LF_NOT_IMPLIED);
    ASK(t, lf_step_desk(l.bytes, l.len), lf_well_formed(l.bytes, l.len));
    lent_free(&l), lent_free(&out), lent_free(&out1);
}

/* Texts of both sorts, and the marked normal forms. */
static void formulas(struct tally *t) {
    static const uint8_t f[] = {LF_FOR, LF_AT0, 0, LF_FAND, LF_AT1, 1, LF_FT};
    static const uint8_t r[] = {LF_JOIN, LF_DIM, 1, LF_NEG, LF_I0};
    static const uint8_t both[] = {LF_FAND, LF_AT0, 0, LF_AT1, 0}, either[] = {LF_FOR, LF_AT0, 0, LF_AT1, 0};
    static const uint8_t wide[] = {LF_FOR, LF_AT1, 0, LF_FAND, LF_AT1, 0, LF_AT0, 1}, narrow[] = {LF_AT1, 0};
    const char *face = "(for (at0 z) (fand (at1 (s z)) ft))", *interval = "(join (dim (s z)) (neg i0))";
    struct lent out = lent_filled(50);
    ASK(t, lf_read_face(TEXT(face), out.bytes, out.len), sizeof f);
    holds(t, "lf_read_face", &out, N(f));
    ASK(t, lf_write_face(N(f), out.bytes, out.len), strlen(face));
    holds(t, "lf_write_face", &out, TEXT(face));
    ASK(t, lf_read_interval(TEXT(interval), out.bytes, out.len), sizeof r);
    holds(t, "lf_read_interval", &out, N(r));
    ASK(t, lf_write_interval(N(r), out.bytes, out.len), strlen(interval));
    holds(t, "lf_write_interval", &out, TEXT(interval));
    ASK(t, lf_read_face(TEXT(" ((ft)"), out.bytes, out.len), -LF_NOT_ACCEPTED);
    ASK(t, lf_normal(N(both), out.bytes, out.len), sizeof ff);
    holds(t, "lf_normal", &out, N(ff));
    ASK(t, lf_normal(N(either), out.bytes, out.len), sizeof either);
    holds(t, "lf_normal", &out, N(either));
    ASK(t, lf_normal(N(wide), out.bytes, out.len), sizeof narrow);
    holds(t, "lf_normal", &out, N(narrow));
    lent_free(&out);
}

/* What the functions that take answers apart say. */
static void apart(struct tally *t) {
    int64_t call = made(7, 5), claim = 200 + 65536 * (int64_t)300 + 4294967296 * (int64_t)400;
    ASK(t, lf_refusal_of(call), 0);
    ASK(t, lf_refusal_of(0), 0);
    for (int q = 1; q <= 13; q++)
        ASK(t, lf_refusal_of(-q), q);
    ASK(t, lf_refusal_of(-(10 + 16 * (int64_t)131071)), 10);
    ASK(t, lf_step_of(call), 7);
    ASK(t, lf_step_of(-7), 0);
    ASK(t, lf_result_len_of(call), 5);
    ASK(t, lf_result_len_of(-7), 0);
    ASK(t, lf_failing_step_of(-(10 + 16 * (int64_t)131071)), 131071);
    ASK(t, lf_failing_step_of(-1), 0);
    ASK(t, lf_failing_step_of(6), 0);
    ASK(t, lf_claim_d_of(claim), 200);
    ASK(t, lf_claim_a_len_of(claim), 300);
    ASK(t, lf_claim_b_len_of(claim), 400);
    ASK(t, lf_claim_d_of(-11) + lf_claim_a_len_of(-11) + lf_claim_b_len_of(-11), 0);
    ASK(t, lf_part_start_of(75 + 4294967296 * 4), 75);
    ASK(t, lf_part_len_of(75 + 4294967296 * 4), 4);
    ASK(t, strcmp(lf_refusal_meaning(LF_NOT_IMPLIED), "the implication does not hold"), 0);
    ASK(t, strcmp(lf_refusal_meaning(LF_IMPLIED), "the implication holds, so there is no counterexample"), 0);
    ASK(t, lf_refusal_meaning(0)[0], 0);
    ASK(t, lf_refusal_meaning(14)[0], 0);
}

void known(struct tally *t) {
    listing(t);
    program(t);
    entailments(t);
    counterexamples(t);
    fences(t);
    results(t);
    formulas(t);
    apart(t);
}
