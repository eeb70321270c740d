/* Calls every function of linefeijoa.h and compares; then the same in several threads at once.
 * usage: check SAMPLE..     lists of calls in the form of tools/oracle */
#include "check.h"

#include <pthread.h>
#include <stdio.h>
#include <stdlib.h>
#include <string.h>

#define THREADS 4

static void *all(void *tally) {
    struct tally *t = (struct tally *)tally;
    known(t);
    refused(t);
    nulls(t);
    limits(t);
    sample(t);
    return NULL;
}

/* The files' texts, one behind another, and a zero. */
static char *texts(int n, char **names) {
    char *text = (char *)room(1);
    size_t len = 0;
    for (int i = 0; i < n; i++) {
        FILE *file = fopen(names[i], "rb");
        long size = -1;
        if (!file || fseek(file, 0, SEEK_END) || (size = ftell(file)) < 0 || fseek(file, 0, SEEK_SET) ||
            !(text = (char *)realloc(text, len + (size_t)size + 1)) ||
            fread(text + len, 1, (size_t)size, file) != (size_t)size) {
            fprintf(stderr, "%s: cannot be read\n", names[i]);
            exit(2);
        }
        len += (size_t)size;
        fclose(file);
    }
    text[len] = 0;
    return text;
}

static struct tally fresh(const char *text) {
    struct tally t;
    memset(&t, 0, sizeof t);
    t.sample = text;
    t.digest = 14695981039346656037u;
    return t;
}

int main(int n, char **words) {
    char *text = texts(n - 1, words + 1);
    struct tally alone = fresh(text), beside[THREADS];
    pthread_t threads[THREADS];
    pthread_attr_t attributes;
    int bad;

    all(&alone);
    bad = alone.failures != 0;
    /* Each function, and the refusals that it was seen to answer. */
    for (int i = 0; i < ROWS && alone.names[i]; i++) {
        printf("%.*s", (int)strcspn(alone.names[i], "("), alone.names[i]);
        for (int q = 1; q <= LF_BEYOND_PRODUCER; q++)
            if (alone.refusals[i] >> q & 1)
                printf(" %d", q);
        putchar('\n');
    }
    printf("%ld answers and %ld bytes compared, %ld differences\n", alone.answers, alone.bytes, alone.failures);

    if (pthread_attr_init(&attributes) || pthread_attr_setstacksize(&attributes, LF_STACK_BYTES))
        return 2;
    for (int i = 0; i < THREADS; i++) {
        beside[i] = fresh(text);
        if (pthread_create(&threads[i], &attributes, all, &beside[i]))
            return 2;
    }
    for (int i = 0; i < THREADS; i++) {
        pthread_join(threads[i], NULL);
        if (beside[i].failures || beside[i].answers != alone.answers || beside[i].digest != alone.digest)
            bad = 1;
    }
    printf("in %d threads at once, of %d bytes of stack each: %s\n", THREADS, LF_STACK_BYTES,
           bad ? "OTHER ANSWERS OR BYTES" : "the same answers and bytes");
    free(text);
    return bad;
}
