/* Slices between guards, and comparisons that are counted. */
#include "check.h"

#include <stdio.h>
#include <stdlib.h>
#include <string.h>

#define GUARD 16
#define GUARD_BYTE 0xc5

void *room(size_t len) {
    void *p = malloc(len ? len : 1);
    if (!p) {
        fputs("no memory\n", stderr);
        exit(2);
    }
    return p;
}

static struct lent lent_of(size_t len) {
    struct lent l;
    l.len = len;
    l.whole = (uint8_t *)room(len + 2 * GUARD);
    l.before = (uint8_t *)room(len);
    l.bytes = l.whole + GUARD;
    memset(l.whole, GUARD_BYTE, GUARD);
    memset(l.bytes + len, GUARD_BYTE, GUARD);
    return l;
}

struct lent lent_filled(size_t len) {
    struct lent l = lent_of(len);
    for (size_t i = 0; i < len; i++)
        l.bytes[i] = (uint8_t)(31 * len + 7 * i + 0x5a);
    memcpy(l.before, l.bytes, len);
    return l;
}

struct lent lent_zeros(size_t len) {
    struct lent l = lent_of(len);
    memset(l.bytes, 0, len);
    memset(l.before, 0, len);
    return l;
}

struct lent lent_copy(const uint8_t *bytes, size_t len) {
    struct lent l = lent_of(len);
    if (len) {
        memcpy(l.bytes, bytes, len);
        memcpy(l.before, bytes, len);
    }
    return l;
}

void lent_free(struct lent *l) {
    free(l->whole);
    free(l->before);
}

/* FNV-1a, over bytes. */
static void digest(struct tally *t, const uint8_t *bytes, size_t n) {
    for (size_t i = 0; i < n; i++)
        t->digest = (t->digest ^ bytes[i]) * 1099511628211u;
}

static void fail(struct tally *t, const char *call, const char *what) {
    if (t->failures++ < 20)
        fprintf(stderr, "%s: %s\n", call, what);
}

/* The function's row, by its name up to the parenthesis. */
static int row(struct tally *t, const char *call) {
    size_t n = strcspn(call, "(");
    int i = 0;
    while (i < ROWS && t->names[i] && (strncmp(t->names[i], call, n) || t->names[i][n] != '('))
        i++;
    if (i == ROWS) {
        fputs("more functions than rows\n", stderr);
        exit(2);
    }
    t->names[i] = call;
    return i;
}

void answered(struct tally *t, const char *call, int64_t have, int64_t want) {
    t->answers++;
    digest(t, (const uint8_t *)&have, sizeof have);
    if (!strncmp(call, "lf_", 3))
        t->refusals[row(t, call)] |= have < 0 ? 1u << lf_refusal_of(have) : 0;
    if (have != want) {
        char words[80];
        snprintf(words, sizeof words, "answered %lld, expected %lld", (long long)have, (long long)want);
        fail(t, call, words);
    }
}

void holds(struct tally *t, const char *call, struct lent *l, const uint8_t *want, size_t want_len) {
    if (l->len < want_len) {
        fail(t, call, "a result longer than the slice is expected");
        return;
    }
    if (want_len)
        memcpy(l->before, want, want_len);
    t->bytes += (long)l->len + 2 * GUARD;
    digest(t, l->bytes, l->len);
    for (size_t i = 0; i < l->len; i++)
        if (l->bytes[i] != l->before[i]) {
            fail(t, call, i < want_len ? "another result" : "a byte changed that should stay");
            break;
        }
    for (size_t i = 0; i < GUARD; i++)
        if (l->whole[i] != GUARD_BYTE || l->bytes[l->len + i] != GUARD_BYTE) {
            fail(t, call, "a byte around a slice was written");
            break;
        }
}

void stays(struct tally *t, const char *call, struct lent *l) {
    holds(t, call, l, NULL, 0);
}

size_t chain(uint8_t *to, int node, int literal, int n, int first, int step) {
    size_t len = 0;
    for (int i = 1; i < n; i++)
        to[len++] = (uint8_t)node;
    for (int i = 0; i < n; i++) {
        to[len++] = (uint8_t)literal;
        to[len++] = (uint8_t)((first + step * i) % 254);
    }
    return len;
}
