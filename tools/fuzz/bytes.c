/* Bytes of a message: decode and recode accept the same; recoded twice is recoded once, and prints the same; an older schema's recoding
 * prints the same by the newer. */
#include "common.h"

int LLVMFuzzerTestOneInput(const uint8_t *data, size_t size);

static matzupol_schema schema, older;

/* Without the fields in a oneof, of which the newer type leaves none out, and maps: an older type of the newer. */
static const char OLDER[] =
    "syntax = \"proto2\"; package p; import \"packed.proto\";\n"
    "message M {\n"
    "  optional int64 l = 2; optional string s = 12; optional M m = 15; repeated M ms = 20;\n"
    "  map<string, M> sm = 23; oneof o { int32 oa = 25; string ob = 26; M om = 27; } optional P three = 32;\n"
    "  extensions 100 to 199;\n"
    "}\n"
    "extend M { repeated M exts = 101; }\n";
static const char OLDER_PACKED[] = "syntax = \"proto3\"; package p; message P { P nested = 3; repeated int32 xs = 4; map<int32, P> m = 5; }";

static matzupol_code recode(matzupol_schema *by, answer bytes) { return matzupol_recode(by, TYPE, strlen(TYPE), bytes.bytes, bytes.len); }

int LLVMFuzzerTestOneInput(const uint8_t *data, size_t size) {
    if (!schema.full) {
        schema = rich();
        older = of_source("packed.proto", OLDER_PACKED);
        add_source(&older, "older.proto", OLDER);
    }
    matzupol_code decoded = matzupol_decode(&schema, TYPE, strlen(TYPE), data, size);
    matzupol_code recoded = matzupol_recode(&schema, TYPE, strlen(TYPE), data, size);
    PROMISE(decoded == recoded);
    if (recoded != MATZUPOL_DONE) return 0;
    answer bytes = answer_of(&schema);
    PROMISE(recode(&schema, bytes) == MATZUPOL_DONE && is_answer(&schema, bytes));
    PROMISE(matzupol_recode(&older, TYPE, strlen(TYPE), data, size) == MATZUPOL_DONE);
    answer passed = answer_of(&older);
    PROMISE(recode(&schema, passed) == MATZUPOL_DONE && is_answer(&schema, bytes));
    let_go(passed);
    let_go(bytes);
    return 0;
}
