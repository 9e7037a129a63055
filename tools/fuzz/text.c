/* Texts of a message: what encode gives, decode accepts; recode leaves it; and its reprint encodes to the same bytes. */
#include "common.h"

int LLVMFuzzerTestOneInput(const uint8_t *data, size_t size);

static matzupol_schema schema;

int LLVMFuzzerTestOneInput(const uint8_t *data, size_t size) {
    if (!schema.full) schema = rich();
    if (matzupol_encode(&schema, TYPE, strlen(TYPE), data, size) != MATZUPOL_DONE) return 0;
    answer bytes = answer_of(&schema);
    PROMISE(matzupol_recode(&schema, TYPE, strlen(TYPE), bytes.bytes, bytes.len) == MATZUPOL_DONE && is_answer(&schema, bytes));
    PROMISE(matzupol_decode(&schema, TYPE, strlen(TYPE), bytes.bytes, bytes.len) == MATZUPOL_DONE);
    answer text = answer_of(&schema);
    matzupol_code code = matzupol_encode(&schema, TYPE, strlen(TYPE), text.bytes, text.len);
    if (open_braces(text) <= 100) PROMISE(code == MATZUPOL_DONE && is_answer(&schema, bytes));
    else PROMISE(code == MATZUPOL_TEXT);
    let_go(text);
    let_go(bytes);
    return 0;
}
