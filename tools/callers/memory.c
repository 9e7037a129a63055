/* What `tools/c_library` runs with each allocation refused in turn: a call that wants memory is refused, loses nothing, and is answered
 * as ever when it is made again. */
#include "matzupol.h"
#include <stdio.h>
#include <stdlib.h>
#include <string.h>

#define EXPECT(c)                                                      \
    do {                                                               \
        if (!(c)) {                                                    \
            fprintf(stderr, "%s:%d: %s\n", __FILE__, __LINE__, #c);    \
            exit(1);                                                   \
        }                                                              \
    } while (0)

static const char SOURCE[] = "syntax = \"proto3\"; package p; message M { int32 foo = 1; N nested = 3; } message N { int32 bar = 2; }";
static const char BYTES[] = "\x08\x96\x01\x1a\x02\x10\x42";
static matzupol_schema schema = MATZUPOL_CLOSED;
static char answer[1024], whole[1024];
static size_t whole_len;
static int refusals;

static matzupol_code add(void) {
    matzupol_code code = matzupol_source(&schema, "a.proto", 7, SOURCE, strlen(SOURCE));
    return code ? code : matzupol_link(&schema);
}

static matzupol_code add_bad(void) {
    matzupol_code code = matzupol_source(&schema, "c.proto", 7, "import \"b.proto\";", 17);
    return code ? code : matzupol_link(&schema);
}

static matzupol_code set(void) { return matzupol_set(&schema); }
static matzupol_code encode(void) { return matzupol_encode(&schema, "p.M", 3, "foo: 150 nested { bar: 66 }", 27); }
static matzupol_code encode_bad(void) { return matzupol_encode(&schema, "p.M", 3, "fop: 150", 8); }
static matzupol_code decode(void) { return matzupol_decode(&schema, "p.M", 3, BYTES, 7); }
static matzupol_code recode(void) { return matzupol_recode(&schema, "p.M", 3, BYTES, 7); }
static matzupol_code unknown(void) { return matzupol_decode(&schema, "p.Q", 3, "", 0); }
static matzupol_code add_set(void) { return matzupol_add_set(&schema, whole, whole_len); }
static matzupol_code reopen(void) { return matzupol_open(&schema); }

/* A call ends so, if need be at the second time. */
static void ends(matzupol_code wanted, matzupol_code (*call)(void)) {
    matzupol_code code = call();
    if (code == MATZUPOL_MEMORY) {
        refusals++;
        code = call();
    }
    EXPECT(code == wanted);
    if (code == MATZUPOL_DONE) EXPECT(matzupol_answer(&schema, answer, sizeof answer) == MATZUPOL_DONE);
}

int main(void) {
    ends(MATZUPOL_DONE, reopen);
    ends(MATZUPOL_DONE, add);
    ends(MATZUPOL_DONE, set);
    whole_len = matzupol_answer_len(&schema);
    memcpy(whole, answer, whole_len);
    ends(MATZUPOL_LINK, add_bad);
    ends(MATZUPOL_TEXT, encode_bad);
    ends(MATZUPOL_UNKNOWN_TYPE, unknown);
    ends(MATZUPOL_DONE, encode);
    EXPECT(!memcmp(answer, BYTES, 7));
    ends(MATZUPOL_DONE, decode);
    EXPECT(!memcmp(answer, "foo:150,nested{bar:66}", 22));
    ends(MATZUPOL_DONE, recode);
    EXPECT(!memcmp(answer, BYTES, 7));
    ends(MATZUPOL_DONE, set);
    EXPECT(matzupol_answer_len(&schema) == whole_len && !memcmp(answer, whole, whole_len));
    ends(MATZUPOL_DONE, add_set);
    ends(MATZUPOL_DONE, set);
    EXPECT(matzupol_answer_len(&schema) == whole_len && !memcmp(answer, whole, whole_len));
    matzupol_close(&schema);
    return refusals > 1;
}
