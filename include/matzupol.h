/* Protobuf reflection in process: schemas from sources or descriptor sets, and messages of a type that is named at run time as
 * text and as wire bytes.
 *
 *     matzupol_schema schema = MATZUPOL_CLOSED;
 *     if (matzupol_open(&schema)) ...                                    the code says why
 *     matzupol_source(&schema, "a.proto", 7, text, strlen(text));        a source at a time ...
 *     if (matzupol_link(&schema)) ...                                    ... linked as one batch
 *     if (matzupol_encode(&schema, "p.M", 3, "foo: 150", 8) == MATZUPOL_DONE) {
 *         size_t len = matzupol_answer_len(&schema);
 *         uint8_t *bytes = malloc(len);
 *         matzupol_answer(&schema, bytes, len);
 *     }
 *     matzupol_close(&schema);
 *
 * A call answers a code, MATZUPOL_DONE where it did what it is for. Where it is refused, the schema is as it was (`matzupol_open` leaves
 * it closed, `matzupol_link` keeps no source), and until the next
 * call that answers a code `matzupol_answer` gives the text of the fault, `matzupol_file` and `matzupol_place` its file and its
 * place there, or, of a text that `matzupol_encode` refuses, its place in this text.
 * The calls that give these, and `matzupol_code_text`, change nothing.
 *
 * What a caller owes, and nothing tests:
 *   - A `matzupol_schema` begins as MATZUPOL_CLOSED (zeroed memory), and only these calls change it. It may be moved, and the old copy
 *     is then dead: a copy that is used after the other was changed or closed is an error, as with a pointer that was freed.
 *   - One call at a time on a schema; between two threads' calls stands a lock, or a thread's start or join.
 *   - A pointer and its length speak of memory that is there for the call, and what is written overlaps nothing else.
 *   - Not from a signal handler, nor in the forked child of a process with threads. `malloc`, `realloc`, `free` are one allocator.
 *   - `matzupol_close` ends a schema; one that is let go open leaks. A closed one may be closed again.
 * A NULL schema is a closed one, a NULL text an empty one.
 *
 * Names, sources and texts are UTF-8; lengths are in bytes, and no text needs a zero behind it. */
#ifndef MATZUPOL_H
#define MATZUPOL_H

#include <stdbool.h>
#include <stddef.h>
#include <stdint.h>

#ifdef __cplusplus
extern "C" {
#endif

/* A schema. Its fields are the library's. */
typedef struct matzupol_schema {
    void *at;
    bool full;
} matzupol_schema;

/* clang-format off */
#define MATZUPOL_CLOSED {0, false}
/* clang-format on */

/* A place in a file or a text: line and column, both from 1 and the column in bytes; 0 where it is not known. */
typedef struct matzupol_place_at {
    size_t line;
    size_t column;
} matzupol_place_at;

/* How a call ended. */
typedef enum matzupol_code {
    MATZUPOL_DONE = 0,
    MATZUPOL_NOT_OPEN = 1,     /* the schema is closed */
    MATZUPOL_MEMORY = 2,       /* memory ran out; the schema is as it was */
    MATZUPOL_ROOM = 3,         /* the buffer is shorter than what belongs into it, and is as it was */
    MATZUPOL_NOT_UTF8 = 4,     /* a name or a text is not UTF-8 */
    MATZUPOL_PARSE = 5,        /* a source is no protobuf file */
    MATZUPOL_LINK = 6,         /* the files do not fit together */
    MATZUPOL_OPTIONS = 7,      /* the options of the files do not suit their types */
    MATZUPOL_WIRE = 8,         /* the bytes are no message of the type, or no descriptor set */
    MATZUPOL_TEXT = 9,         /* the text is no message of the type */
    MATZUPOL_UNKNOWN_TYPE = 10, /* there is no message type of this name */
    MATZUPOL_TOO_LONG = 11     /* the bytes would be more than a length can say */
} matzupol_code;

/* The library's own calls, of which no pointer may be NULL, also where its length is 0. */
uint32_t matzupol_unchecked_open(matzupol_schema *schema);
void matzupol_unchecked_close(matzupol_schema *schema);
uint32_t matzupol_unchecked_source(matzupol_schema *schema, const uint8_t *name, size_t name_len, const uint8_t *text, size_t text_len);
uint32_t matzupol_unchecked_link(matzupol_schema *schema);
uint32_t matzupol_unchecked_forget(matzupol_schema *schema);
uint32_t matzupol_unchecked_add_set(matzupol_schema *schema, const uint8_t *set, size_t set_len);
uint32_t matzupol_unchecked_set(matzupol_schema *schema);
uint32_t matzupol_unchecked_encode(matzupol_schema *schema, const uint8_t *type, size_t type_len, const uint8_t *text, size_t text_len);
uint32_t matzupol_unchecked_decode(matzupol_schema *schema, const uint8_t *type, size_t type_len, const uint8_t *bytes, size_t bytes_len);
uint32_t matzupol_unchecked_recode(matzupol_schema *schema, const uint8_t *type, size_t type_len, const uint8_t *bytes, size_t bytes_len);
size_t matzupol_unchecked_answer_len(matzupol_schema *schema);
uint32_t matzupol_unchecked_answer(matzupol_schema *schema, uint8_t *into, size_t into_len);
size_t matzupol_unchecked_file_len(matzupol_schema *schema);
uint32_t matzupol_unchecked_file(matzupol_schema *schema, uint8_t *into, size_t into_len);
uint32_t matzupol_unchecked_place(matzupol_schema *schema, matzupol_place_at *place);

/* An address to lend where there is nothing to lend. */
static inline const uint8_t *matzupol_lent(const void *text, size_t *len) {
    static const uint8_t nothing = 0;
    if (!text) {
        *len = 0;
        return &nothing;
    }
    return (const uint8_t *)text;
}

/* Opens a schema without files; one that was open there is closed. MEMORY leaves it closed. */
static inline matzupol_code matzupol_open(matzupol_schema *schema) {
    return schema ? (matzupol_code)matzupol_unchecked_open(schema) : MATZUPOL_NOT_OPEN;
}

/* Ends a schema, whose memory is freed. */
static inline void matzupol_close(matzupol_schema *schema) {
    if (schema) matzupol_unchecked_close(schema);
}

/* Keeps a copy of a source, by its file's name and its text, for `matzupol_link`. NOT_UTF8 or MEMORY keeps nothing. */
static inline matzupol_code matzupol_source(matzupol_schema *schema, const void *name, size_t name_len, const void *text, size_t text_len) {
    const uint8_t *n = matzupol_lent(name, &name_len), *t = matzupol_lent(text, &text_len);
    return schema ? (matzupol_code)matzupol_unchecked_source(schema, n, name_len, t, text_len) : MATZUPOL_NOT_OPEN;
}

/* Links the sources that were kept with each other and with the schema's files, as one batch: those whose names
 * the schema has are passed over, and no import is loaded that was not kept. Whatever comes, none is kept any more. PARSE, LINK or OPTIONS tells the first fault. */
static inline matzupol_code matzupol_link(matzupol_schema *schema) {
    return schema ? (matzupol_code)matzupol_unchecked_link(schema) : MATZUPOL_NOT_OPEN;
}

/* Lets go of the sources that were kept, unlinked. */
static inline matzupol_code matzupol_forget(matzupol_schema *schema) {
    return schema ? (matzupol_code)matzupol_unchecked_forget(schema) : MATZUPOL_NOT_OPEN;
}

/* Links the files of a descriptor set with the schema's, as one batch. WIRE where the bytes are no set; else as `matzupol_link`. */
static inline matzupol_code matzupol_add_set(matzupol_schema *schema, const void *set, size_t set_len) {
    const uint8_t *s = matzupol_lent(set, &set_len);
    return schema ? (matzupol_code)matzupol_unchecked_add_set(schema, s, set_len) : MATZUPOL_NOT_OPEN;
}

/* Answers the descriptor set of all files, in the order in which they were added. */
static inline matzupol_code matzupol_set(matzupol_schema *schema) {
    return schema ? (matzupol_code)matzupol_unchecked_set(schema) : MATZUPOL_NOT_OPEN;
}

/* Answers the wire bytes of the message of a type that a text in protobuf's text format spells. TEXT tells the fault. The type's
 * full name may have a leading dot, here and below. */
static inline matzupol_code matzupol_encode(matzupol_schema *schema, const void *type, size_t type_len, const void *text, size_t text_len) {
    const uint8_t *n = matzupol_lent(type, &type_len), *t = matzupol_lent(text, &text_len);
    return schema ? (matzupol_code)matzupol_unchecked_encode(schema, n, type_len, t, text_len) : MATZUPOL_NOT_OPEN;
}

/* Answers the text, on one line, of the message of a type that wire bytes spell. */
static inline matzupol_code matzupol_decode(matzupol_schema *schema, const void *type, size_t type_len, const void *bytes, size_t bytes_len) {
    const uint8_t *n = matzupol_lent(type, &type_len), *b = matzupol_lent(bytes, &bytes_len);
    return schema ? (matzupol_code)matzupol_unchecked_decode(schema, n, type_len, b, bytes_len) : MATZUPOL_NOT_OPEN;
}

/* Answers the one form in which the message of a type is written that wire bytes spell, with the records of unknown fields. */
static inline matzupol_code matzupol_recode(matzupol_schema *schema, const void *type, size_t type_len, const void *bytes, size_t bytes_len) {
    const uint8_t *n = matzupol_lent(type, &type_len), *b = matzupol_lent(bytes, &bytes_len);
    return schema ? (matzupol_code)matzupol_unchecked_recode(schema, n, type_len, b, bytes_len) : MATZUPOL_NOT_OPEN;
}

/* How long the answer of the last call is, or the text of its fault; 0 for a closed schema. */
static inline size_t matzupol_answer_len(matzupol_schema *schema) {
    return schema ? matzupol_unchecked_answer_len(schema) : 0;
}

/* Copies the answer, or the text of the fault, to the front of a buffer; ROOM where it is longer. */
static inline matzupol_code matzupol_answer(matzupol_schema *schema, void *into, size_t into_len) {
    uint8_t nothing = 0;
    if (!schema) return MATZUPOL_NOT_OPEN;
    return (matzupol_code)matzupol_unchecked_answer(schema, into ? (uint8_t *)into : &nothing, into ? into_len : 0);
}

/* How long the name of the file is in which the last fault stands; 0 where none is known. */
static inline size_t matzupol_file_len(matzupol_schema *schema) {
    return schema ? matzupol_unchecked_file_len(schema) : 0;
}

/* Copies that name to the front of a buffer; ROOM where it is longer. */
static inline matzupol_code matzupol_file(matzupol_schema *schema, void *into, size_t into_len) {
    uint8_t nothing = 0;
    if (!schema) return MATZUPOL_NOT_OPEN;
    return (matzupol_code)matzupol_unchecked_file(schema, into ? (uint8_t *)into : &nothing, into ? into_len : 0);
}

/* The line and the column at which the last fault begins in its file, 0 and 0 where they are not known. */
static inline matzupol_place_at matzupol_place(matzupol_schema *schema) {
    matzupol_place_at place = {0, 0};
    if (schema) matzupol_unchecked_place(schema, &place);
    return place;
}

/* What a code says, in a few words. */
static inline const char *matzupol_code_text(matzupol_code code) {
    switch (code) {
    case MATZUPOL_DONE: return "done";
    case MATZUPOL_NOT_OPEN: return "the schema is closed";
    case MATZUPOL_MEMORY: return "out of memory";
    case MATZUPOL_ROOM: return "the buffer is too short";
    case MATZUPOL_NOT_UTF8: return "not UTF-8";
    case MATZUPOL_PARSE: return "a source is no protobuf file";
    case MATZUPOL_LINK: return "the files do not fit together";
    case MATZUPOL_OPTIONS: return "the options do not suit their types";
    case MATZUPOL_WIRE: return "the bytes are no message of the type, or no descriptor set";
    case MATZUPOL_TEXT: return "the text is no message of the type";
    case MATZUPOL_UNKNOWN_TYPE: return "there is no message type of this name";
    case MATZUPOL_TOO_LONG: return "the bytes would be too long";
    }
    return "no code of this library";
}

#ifdef __cplusplus
}
#endif
#endif
