/* What the parts of the check share. All of it is C99 and C++11. */
#ifndef CHECK_H
#define CHECK_H

#include "linefeijoa.h"

#define ROWS 64

/* One run of all parts. Threads have one each. */
struct tally {
    const char *sample; /* the published Rust's lists of calls, as text */
    long answers;       /* compared */
    long bytes;         /* compared, of lent slices and what stands around them */
    long failures;
    uint64_t digest;         /* of all of these, in order */
    const char *names[ROWS]; /* the functions asked so far, up to their parenthesis */
    unsigned refusals[ROWS]; /* by bits, those that each was seen to answer */
};

/* A slice between bytes that must stay. What is behind a result must be as it was when the slice was made. */
struct lent {
    uint8_t *bytes;
    size_t len;
    uint8_t *whole; /* with the guards */
    uint8_t *before;
};

struct lent lent_filled(size_t len);
struct lent lent_zeros(size_t len);
struct lent lent_copy(const uint8_t *bytes, size_t len);
void lent_free(struct lent *l);

/* Whether a call, given as its text, answered what it should; notes the refusals of functions of the header. */
void answered(struct tally *t, const char *call, int64_t have, int64_t want);
#define ASK(t, call, want) answered(t, #call, (int64_t)(call), (int64_t)(want))

/* Whether a slice has these bytes in front and all others as before; those become what it had before. */
void holds(struct tally *t, const char *call, struct lent *l, const uint8_t *want, size_t want_len);
void stays(struct tally *t, const char *call, struct lent *l);

/* Memory that must be there. */
void *room(size_t len);

/* A formula of n literals of a kind in a row of nodes over two, left-deep; the dimension of the i-th is first + step *
 * i, modulo 254. Its length. */
size_t chain(uint8_t *to, int node, int literal, int n, int first, int step);

/* The parts. */
void known(struct tally *t);
void refused(struct tally *t);
void nulls(struct tally *t);
void limits(struct tally *t);
void sample(struct tally *t);

#endif
