/* The stored lists of calls with the published Rust's answers (tools/oracle/README.md has their form): every answer,
 * every output and every ledger. */
#include "check.h"

#include <stdio.h>
#include <stdlib.h>
#include <string.h>

#define WORDS 8

/* A line's words, cut in place. */
struct line {
    char *text;
    char *words[WORDS];
    int count;
};

/* The next line that is no comment; 0 at the end. */
static int next(const char **at, struct line *l) {
    const char *end;
    while (**at == '#')
        *at = strchr(*at, '\n') + 1;
    if (!**at)
        return 0;
    end = strchr(*at, '\n');
    memcpy(l->text, *at, (size_t)(end - *at));
    l->text[end - *at] = 0;
    *at = end + 1;
    l->count = 0;
    for (char *word = l->text; word && l->count < WORDS;) {
        char *space = strchr(word, ' ');
        if (space)
            *space++ = 0;
        l->words[l->count++] = word;
        word = space;
    }
    return 1;
}

static int digit(char c) {
    return c <= '9' ? c - '0' : c - 'a' + 10;
}

/* Hex bytes; - for none. */
static struct lent unhex(const char *word) {
    size_t n = *word == '-' ? 0 : strlen(word) / 2;
    uint8_t *bytes = (uint8_t *)room(n);
    struct lent l;
    for (size_t i = 0; i < n; i++)
        bytes[i] = (uint8_t)(16 * digit(word[2 * i]) + digit(word[2 * i + 1]));
    l = lent_copy(bytes, n);
    free(bytes);
    return l;
}

static int is(const struct line *l, const char *name) {
    return !strcmp(l->words[0], name);
}

/* The bytes of a word of an answer; none where there is no such word. */
static struct lent result(const struct line *said, int i) {
    return unhex(is(said, "yes") && i < said->count ? said->words[i] : "-");
}

/* Asks a call, and compares with the line behind it. */
static void ask(struct tally *t, struct lent *l, const struct line *call, const struct line *said) {
    const char *name = call->words[0];
    /* One number in front of the operands, or two: d, k, rooms of outputs, the end. */
    int plain = is(call, "face") || is(call, "interval") || is(call, "entails"), first = plain ? 2 : 3;
    uint64_t x = strtoull(call->words[1], NULL, 10), y = plain ? 0 : strtoull(call->words[2], NULL, 10);
    int rooms = plain || is(call, "endpoint") ? 0 : is(call, "boundary") ? 2 : 1;
    struct lent a = unhex(call->words[first]), b = unhex(first + 1 < call->count ? call->words[first + 1] : "-");
    struct lent out = lent_filled(rooms == 2 ? x : rooms == 1 ? y : 0), out1 = lent_filled(rooms == 2 ? y : 0);
    struct lent r = result(said, 2), r1 = result(said, 3);
    int64_t number = strtoll(said->words[1], NULL, 10);
    int64_t want = is(said, "yes") ? number + 4294967296 * (int64_t)r.len : -number;

    if (is(call, "face"))
        ASK(t, lf_face(l->bytes, l->len, x, a.bytes, a.len), want);
    else if (is(call, "interval"))
        ASK(t, lf_interval(l->bytes, l->len, x, a.bytes, a.len), want);
    else if (is(call, "boundary"))
        ASK(t, lf_boundary(l->bytes, l->len, a.bytes, a.len, out.bytes, out.len, out1.bytes, out1.len), want);
    else if (is(call, "endpoint"))
        ASK(t, lf_endpoint(l->bytes, l->len, x, a.bytes, a.len, b.bytes, b.len, y), want);
    else if (is(call, "forall"))
        ASK(t, lf_forall(l->bytes, l->len, a.bytes, a.len, x, out.bytes, out.len), want);
    else if (is(call, "face-shift"))
        ASK(t, lf_shift_face(l->bytes, l->len, a.bytes, a.len, x, out.bytes, out.len), want);
    else if (is(call, "interval-shift"))
        ASK(t, lf_shift_interval(l->bytes, l->len, a.bytes, a.len, x, out.bytes, out.len), want);
    else if (is(call, "face-substitute"))
        ASK(t, lf_substitute_face(l->bytes, l->len, a.bytes, a.len, x, b.bytes, b.len, out.bytes, out.len), want);
    else if (is(call, "interval-substitute"))
        ASK(t, lf_substitute_interval(l->bytes, l->len, a.bytes, a.len, x, b.bytes, b.len, out.bytes, out.len), want);
    else if (is(call, "entails"))
        ASK(t, lf_entails(l->bytes, l->len, x, a.bytes, a.len, b.bytes, b.len), want);
    else {
        fprintf(stderr, "no call is named %s\n", name);
        exit(2);
    }

    holds(t, name, &out, r.bytes, r.len);
    holds(t, name, &out1, r1.bytes, r1.len);
    stays(t, name, &a);
    stays(t, name, &b);
    lent_free(&a), lent_free(&b), lent_free(&out), lent_free(&out1), lent_free(&r), lent_free(&r1);
}

/* Whether the ledger is what the line says: its first bytes, or their sums. */
static void compare(struct tally *t, struct lent *l, const struct line *said) {
    if (is(said, "ledger-is")) {
        struct lent want = unhex(said->words[1]);
        /* Four bytes are told of a shorter ledger too. */
        holds(t, "the ledger", l, want.bytes, want.len < l->len ? want.len : l->len);
        lent_free(&want);
    } else {
        size_t n = strtoull(said->words[1], NULL, 10);
        unsigned a = 1, b = 0;
        for (size_t i = 0; i < n; i++)
            a = (a + l->bytes[i]) % 65521, b = (b + a) % 65521;
        ASK(t, (int64_t)(a) == strtoll(said->words[2], NULL, 10), 1);
        ASK(t, (int64_t)(b) == strtoll(said->words[3], NULL, 10), 1);
        holds(t, "the ledger", l, l->bytes, n);
    }
    if (LF_MIN_LEDGER_BYTES <= l->len && l->len <= LF_MAX_LEDGER_BYTES)
        ASK(t, lf_step_desk(l->bytes, l->len), lf_well_formed(l->bytes, l->len));
}

void sample(struct tally *t) {
    const char *at = t->sample;
    struct line call, said;
    struct lent l = lent_zeros(0);
    call.text = (char *)room(8192), said.text = (char *)room(8192);
    while (next(&at, &call)) {
        if (is(&call, "list"))
            continue;
        if (is(&call, "ledger")) {
            lent_free(&l);
            l = lent_zeros(strtoull(call.words[1], NULL, 10));
        } else if (!strncmp(call.words[0], "ledger-", 7)) {
            compare(t, &l, &call);
        } else if (next(&at, &said)) {
            ask(t, &l, &call, &said);
        }
    }
    free(call.text), free(said.text), lent_free(&l);
}
