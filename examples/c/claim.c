/* Asks a claim, prints its listing and the answer, where it does not hold, and what the step desk says of the ledger.
 *
 *     cc -I include examples/c/claim.c -L target/staticlib -lexports -o claim
 *     ./claim 'entails (s z) (at0 z) ft'
 *
 * Exit status: 0 where the claim holds, 1 where it is refused, 2 where it could not be asked. */
#include "linefeijoa.h"

#include <stdio.h>
#include <stdlib.h>
#include <string.h>

/* A ledger, which may grow: zero bytes behind it leave its steps as they are. */
struct ledger {
    uint8_t *bytes;
    size_t len;
};

static int grow(struct ledger *l, size_t len) {
    uint8_t *bytes = realloc(l->bytes, len);
    if (!bytes)
        return 0;
    memset(bytes + l->len, 0, len - l->len);
    l->bytes = bytes;
    l->len = len;
    return 1;
}

/* Prints the line of every step. The buffer grows on refusal 6. */
static int print_steps(const struct ledger *l) {
    size_t room = 4096;
    uint8_t *line = malloc(room);
    uint64_t step = 0;
    int64_t n = 0;
    while (line && (n = lf_write_step(l->bytes, l->len, step, line, room)) != 0) {
        if (n > 0) {
            fwrite(line, 1, (size_t)n, stdout);
            step++;
        } else if (lf_refusal_of(n) == LF_SHORT_OUTPUT) {
            room *= 4;
            free(line);
            line = malloc(room);
        } else {
            break;
        }
    }
    if (!line)
        return 0;
    free(line);
    return n == 0;
}

/* Prints an assignment at which a holds and b does not: a sign for each dimension, _ where it is undetermined. */
static void print_counterexample(uint64_t d, const uint8_t *a, size_t a_len, const uint8_t *b, size_t b_len) {
    uint8_t at[LF_MAX_D];
    int64_t n = lf_counterexample(d, a, a_len, b, b_len, at, sizeof at);
    fputs("it does not hold at ", stdout);
    for (int64_t i = 0; i < n; i++)
        putchar(at[i] == LF_ZERO ? '0' : at[i] == LF_ONE ? '1' : '_');
    putchar('\n');
}

int main(int count, char **words) {
    struct ledger l = {NULL, 0};
    uint8_t a[LF_MAX_FORMULA_BYTES], b[LF_MAX_FORMULA_BYTES];
    int64_t claim, answer, desk;
    if (count != 2) {
        fputs("usage: claim 'entails D FACE FACE'\n", stderr);
        return 2;
    }

    claim = lf_read_claim((const uint8_t *)words[1], strlen(words[1]), a, sizeof a, b, sizeof b);
    if (claim < 0) {
        printf("refused %d: %s\n", lf_refusal_of(claim), lf_refusal_meaning(lf_refusal_of(claim)));
        return 1;
    }

    /* From a small ledger on: a call reads all of it. On 7 it is as it was. */
    do {
        if (!grow(&l, l.len ? 4 * l.len : 4096))
            return 2;
        answer =
            lf_entails(l.bytes, l.len, lf_claim_d_of(claim), a, lf_claim_a_len_of(claim), b, lf_claim_b_len_of(claim));
    } while (lf_refusal_of(answer) == LF_FULL_LEDGER && l.len < LF_MAX_LEDGER_BYTES);

    if (!print_steps(&l))
        return 2;
    if (answer < 0)
        printf("refused %d: %s\n", lf_refusal_of(answer), lf_refusal_meaning(lf_refusal_of(answer)));
    else
        printf("yes %u\n", lf_step_of(answer));
    if (lf_refusal_of(answer) == LF_NOT_IMPLIED)
        print_counterexample(lf_claim_d_of(claim), a, lf_claim_a_len_of(claim), b, lf_claim_b_len_of(claim));

    desk = lf_step_desk(l.bytes, l.len);
    if (desk < 0)
        printf("refused %d at %u\n", lf_refusal_of(desk), lf_failing_step_of(desk));
    else
        printf("passed %d\n", (int)desk);
    free(l.bytes);
    return answer < 0;
}
