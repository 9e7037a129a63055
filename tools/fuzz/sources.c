/* Sources: the input is cut at bytes of 0 into files a.proto, b.proto and so on, linked as one batch. A refusal leaves the schema; an
 * accepted batch reads back from its set, whose set is the same; and it is accepted in the opposite order. */
#include "common.h"

int LLVMFuzzerTestOneInput(const uint8_t *data, size_t size);

enum { MOST_FILES = 8 };

typedef struct piece {
    const uint8_t *text;
    size_t len;
    char name[8];
} piece;

static size_t cut(const uint8_t *data, size_t size, piece *pieces) {
    size_t count = 0;
    while (count < MOST_FILES) {
        const uint8_t *end = count + 1 < MOST_FILES ? memchr(data, 0, size) : NULL;
        size_t len = end ? (size_t)(end - data) : size;
        pieces[count] = (piece){data, len, "a.proto"};
        pieces[count].name[0] = (char)('a' + count);
        count++;
        if (!end) break;
        data = end + 1;
        size -= len + 1;
    }
    return count;
}

static matzupol_code add(matzupol_schema *schema, const piece *pieces, size_t count, int is_backwards) {
    for (size_t i = 0; i < count; i++) {
        const piece *it = &pieces[is_backwards ? count - 1 - i : i];
        matzupol_code code = matzupol_source(schema, it->name, 7, it->text, it->len);
        if (code != MATZUPOL_DONE) {
            PROMISE(code == MATZUPOL_NOT_UTF8 && matzupol_forget(schema) == MATZUPOL_DONE);
            return code;
        }
    }
    return matzupol_link(schema);
}

static void accepted(matzupol_schema *schema, const piece *pieces, size_t count) {
    matzupol_schema read = opened(), turned = opened();
    PROMISE(matzupol_set(schema) == MATZUPOL_DONE);
    answer set = answer_of(schema);
    PROMISE(matzupol_add_set(&read, set.bytes, set.len) == MATZUPOL_DONE);
    PROMISE(matzupol_set(&read) == MATZUPOL_DONE && is_answer(&read, set));
    PROMISE(add(&turned, pieces, count, 1) == MATZUPOL_DONE);
    matzupol_close(&read);
    matzupol_close(&turned);
    let_go(set);
}

int LLVMFuzzerTestOneInput(const uint8_t *data, size_t size) {
    piece pieces[MOST_FILES];
    matzupol_schema schema = opened();
    size_t count = cut(data, size, pieces);
    matzupol_code code = add(&schema, pieces, count, 0);
    if (code == MATZUPOL_DONE) accepted(&schema, pieces, count);
    else {
        PROMISE(code != MATZUPOL_MEMORY && matzupol_set(&schema) == MATZUPOL_DONE && matzupol_answer_len(&schema) == 0);
    }
    matzupol_close(&schema);
    return 0;
}
