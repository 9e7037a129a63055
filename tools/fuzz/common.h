/* What the targets share: calls that want no more memory than there is, and promises that end the run where they are broken. */
#ifndef FUZZ_COMMON_H
#define FUZZ_COMMON_H

#include "matzupol.h"
#include <stdio.h>
#include <stdlib.h>
#include <string.h>

#define PROMISE(holds)                                                             \
    do {                                                                           \
        if (!(holds)) {                                                            \
            fprintf(stderr, "%s:%d: broken: %s\n", __FILE__, __LINE__, #holds);    \
            abort();                                                               \
        }                                                                          \
    } while (0)

/* An answer of its own. */
typedef struct answer {
    uint8_t *bytes;
    size_t len;
} answer;

static inline answer answer_of(matzupol_schema *schema) {
    answer it = {NULL, matzupol_answer_len(schema)};
    it.bytes = malloc(it.len + 1);
    PROMISE(it.bytes && matzupol_answer(schema, it.bytes, it.len) == MATZUPOL_DONE);
    return it;
}

static inline void let_go(answer it) { free(it.bytes); }

static inline int is_answer(matzupol_schema *schema, answer wanted) {
    answer it = answer_of(schema);
    int same = it.len == wanted.len && !memcmp(it.bytes, wanted.bytes, it.len);
    let_go(it);
    return same;
}

/* A schema that is open. */
static inline matzupol_schema opened(void) {
    matzupol_schema schema = MATZUPOL_CLOSED;
    PROMISE(matzupol_open(&schema) == MATZUPOL_DONE);
    return schema;
}

/* Adds a source that fits. */
static inline void add_source(matzupol_schema *schema, const char *name, const char *text) {
    PROMISE(matzupol_source(schema, name, strlen(name), text, strlen(text)) == MATZUPOL_DONE);
    if (matzupol_link(schema) != MATZUPOL_DONE) {
        answer fault = answer_of(schema);
        fprintf(stderr, "%.*s\n", (int)fault.len, fault.bytes);
        abort();
    }
}

/* A schema of one source. */
static inline matzupol_schema of_source(const char *name, const char *text) {
    matzupol_schema schema = opened();
    add_source(&schema, name, text);
    return schema;
}

/* The type of the messages that are read and written, and a schema in which it has fields of each kind. */
#define TYPE "p.M"
matzupol_schema rich(void);

/* How many braces of either kind are open at once in a text, not counting those in literals. */
static inline size_t open_braces(answer text) {
    size_t most = 0, open = 0;
    uint8_t quote = 0;
    for (size_t i = 0; i < text.len; i++) {
        uint8_t b = text.bytes[i];
        if (quote) {
            if (b == '\\') i++;
            else if (b == quote) quote = 0;
        } else if (b == '"' || b == '\'') quote = b;
        else if (b == '{' || b == '<') most = ++open > most ? open : most;
        else if (b == '}' || b == '>') open--;
    }
    return most;
}

#endif
