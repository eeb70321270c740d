#include "linefeijoa.h"
#include <stdio.h>

int main(void) {
    uint8_t ledger[4096] = {0};               /* an empty ledger */
    uint8_t a[] = {LF_AT0, 0}, b[] = {LF_FT}; /* dimension 0 is zero; always */
    int64_t answer = lf_entails(ledger, sizeof ledger, 1, a, sizeof a, b, sizeof b);
    if (answer < 0)
        printf("refused %d: %s\n", lf_refusal_of(answer), lf_refusal_meaning(lf_refusal_of(answer)));
    else
        printf("yes %u, passed %d\n", lf_step_of(answer), (int)lf_step_desk(ledger, sizeof ledger));
    return answer < 0;
}
