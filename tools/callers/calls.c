/* What `tools/c_library` runs in C: the README's example, each refusal, and calls in any order. */
#include "matzupol.h"
#include <stdio.h>
#include <stdlib.h>
#include <string.h>

#define EXPECT(c)                                                      \
    do {                                                               \
        if (!(c)) {                                                    \
            fprintf(stderr, "%s:%d: %s\n", __FILE__, __LINE__, #c);    \
            exit(1);                                                   \
        }                                                              \
    } while (0)

static const char SOURCE[] = "syntax = \"proto3\"; package p; message M { int32 foo = 1; N nested = 3; } message N { int32 bar = 2; }";
static const char BYTES[] = "\x08\x96\x01\x1a\x02\x10\x42";

static matzupol_code source(matzupol_schema *schema, const char *name, const char *text) {
    return matzupol_source(schema, name, strlen(name), text, strlen(text));
}

/* The answer is this text. */
static int answers(matzupol_schema *schema, const void *text, size_t len) {
    char buffer[4096];
    return matzupol_answer_len(schema) == len && matzupol_answer(schema, buffer, sizeof buffer) == MATZUPOL_DONE && !memcmp(buffer, text, len);
}

static int says(matzupol_schema *schema, const char *text) { return answers(schema, text, strlen(text)); }

static void example(matzupol_schema *schema) {
    EXPECT(source(schema, "a.proto", SOURCE) == MATZUPOL_DONE);
    EXPECT(matzupol_link(schema) == MATZUPOL_DONE);
    EXPECT(matzupol_encode(schema, "p.M", 3, "foo: 150 nested { bar: 66 }", 27) == MATZUPOL_DONE);
    EXPECT(answers(schema, BYTES, 7));
    EXPECT(matzupol_decode(schema, "p.M", 3, BYTES, 7) == MATZUPOL_DONE);
    EXPECT(says(schema, "foo:150,nested{bar:66}"));
    EXPECT(matzupol_recode(schema, ".p.M", 4, "\x1a\x02\x10\x42\x08\x96\x01", 7) == MATZUPOL_DONE);
    EXPECT(answers(schema, BYTES, 7));
}

/* Each refusal has its code, its text and, where it is known, its place, and leaves the schema. */
static void refusals(matzupol_schema *schema) {
    char file[16];
    EXPECT(source(schema, "foo.proto", "message {}") == MATZUPOL_DONE);
    EXPECT(matzupol_link(schema) == MATZUPOL_PARSE);
    EXPECT(says(schema, "foo.proto:1:9: expected an identifier, but found '{'"));
    EXPECT(matzupol_file_len(schema) == 9 && matzupol_file(schema, file, 8) == MATZUPOL_ROOM);
    EXPECT(matzupol_file(schema, file, sizeof file) == MATZUPOL_DONE && !memcmp(file, "foo.proto", 9));
    EXPECT(matzupol_place(schema).line == 1 && matzupol_place(schema).column == 9);
    EXPECT(source(schema, "c.proto", "syntax = \"proto3\"; import \"b.proto\";") == MATZUPOL_DONE);
    EXPECT(matzupol_link(schema) == MATZUPOL_LINK);
    EXPECT(says(schema, "c.proto:1:20: imported file 'b.proto' has not been added"));
    EXPECT(matzupol_source(schema, "\xff", 1, "", 0) == MATZUPOL_NOT_UTF8 && says(schema, ""));
    EXPECT(matzupol_encode(schema, "p.Q", 3, "", 0) == MATZUPOL_UNKNOWN_TYPE);
    EXPECT(says(schema, "message type 'p.Q' not found"));
    EXPECT(matzupol_encode(schema, "p.M", 3, "foo: 150 foo: 1", 15) == MATZUPOL_TEXT);
    EXPECT(says(schema, "'foo' is already set"));
    EXPECT(matzupol_file_len(schema) == 0 && matzupol_place(schema).line == 1 && matzupol_place(schema).column == 15);
    EXPECT(matzupol_decode(schema, "p.M", 3, "\x08\x96", 2) == MATZUPOL_WIRE);
    EXPECT(matzupol_file_len(schema) == 0 && matzupol_place(schema).line == 0);
    EXPECT(matzupol_add_set(schema, "\x08", 1) == MATZUPOL_WIRE);
    EXPECT(matzupol_encode(schema, "p.M", 3, "foo: 150 nested { bar: 66 }", 27) == MATZUPOL_DONE && answers(schema, BYTES, 7));
}

/* The schema's own set makes the schema again, beside sources that wait and are let go. */
static void sets(matzupol_schema *schema) {
    matzupol_schema other = MATZUPOL_CLOSED;
    char set[512];
    size_t len;
    EXPECT(matzupol_set(schema) == MATZUPOL_DONE && (len = matzupol_answer_len(schema)) <= sizeof set);
    EXPECT(matzupol_answer(schema, set, len - 1) == MATZUPOL_ROOM && matzupol_answer(schema, set, len) == MATZUPOL_DONE);
    EXPECT(matzupol_open(&other) == MATZUPOL_DONE);
    EXPECT(source(&other, "foo.proto", "message {}") == MATZUPOL_DONE && matzupol_forget(&other) == MATZUPOL_DONE);
    EXPECT(matzupol_link(&other) == MATZUPOL_DONE && matzupol_add_set(&other, set, len) == MATZUPOL_DONE);
    EXPECT(matzupol_decode(&other, "p.M", 3, BYTES, 7) == MATZUPOL_DONE && says(&other, "foo:150,nested{bar:66}"));
    matzupol_close(&other);
}

/* A closed schema, none at all, and texts that are not there. */
static void nothing(void) {
    matzupol_schema schema = MATZUPOL_CLOSED, moved;
    EXPECT(matzupol_link(&schema) == MATZUPOL_NOT_OPEN && matzupol_answer_len(&schema) == 0);
    EXPECT(matzupol_link(NULL) == MATZUPOL_NOT_OPEN && matzupol_open(NULL) == MATZUPOL_NOT_OPEN);
    EXPECT(matzupol_answer(NULL, NULL, 0) == MATZUPOL_NOT_OPEN && matzupol_place(NULL).line == 0);
    EXPECT(matzupol_open(&schema) == MATZUPOL_DONE && matzupol_open(&schema) == MATZUPOL_DONE);
    EXPECT(matzupol_source(&schema, NULL, 9, NULL, 9) == MATZUPOL_DONE && matzupol_link(&schema) == MATZUPOL_DONE);
    EXPECT(matzupol_answer(&schema, NULL, 9) == MATZUPOL_DONE);
    moved = schema;
    matzupol_close(&moved);
    matzupol_close(&moved);
    matzupol_close(NULL);
    EXPECT(matzupol_set(&moved) == MATZUPOL_NOT_OPEN);
}

int main(void) {
    matzupol_schema schema = MATZUPOL_CLOSED;
    EXPECT(matzupol_open(&schema) == MATZUPOL_DONE);
    example(&schema);
    refusals(&schema);
    sets(&schema);
    matzupol_close(&schema);
    nothing();
    puts("c: ok");
    return 0;
}
