/* Descriptor sets: a refusal leaves the schema; an accepted set is written in a form that is accepted, and written again as it is. */
#include "common.h"

int LLVMFuzzerTestOneInput(const uint8_t *data, size_t size);

int LLVMFuzzerTestOneInput(const uint8_t *data, size_t size) {
    matzupol_schema schema = opened(), read = opened();
    matzupol_code code = matzupol_add_set(&schema, data, size);
    PROMISE(code != MATZUPOL_MEMORY && matzupol_set(&schema) == MATZUPOL_DONE);
    answer set = answer_of(&schema);
    if (code == MATZUPOL_DONE) {
        PROMISE(matzupol_add_set(&read, set.bytes, set.len) == MATZUPOL_DONE);
        PROMISE(matzupol_set(&read) == MATZUPOL_DONE && is_answer(&read, set));
    } else PROMISE(set.len == 0);
    let_go(set);
    matzupol_close(&schema);
    matzupol_close(&read);
    return 0;
}
