/* What `tools/measure_library` times of the library in process: loading a descriptor set, and one message as text and bytes.
 *
 * usage: bench --set FILE --type NAME --text FILE [--min-ms MS]
 *
 * Each line has an operation, the nanoseconds that one takes, and how often it was done: the least of five turns. */
#define _POSIX_C_SOURCE 199309L
#include "matzupol.h"
#include <stdio.h>
#include <stdlib.h>
#include <string.h>
#include <time.h>

typedef struct text {
    char *bytes;
    size_t len;
} text;

static text set, message, bytes;
static const char *type;
static matzupol_schema schema = MATZUPOL_CLOSED;

static void require(int holds, const char *what) {
    if (holds) return;
    fprintf(stderr, "bench: %s\n", what);
    exit(1);
}

static text read_file(const char *path) {
    text it = {malloc(1 << 26), 0};
    FILE *file = fopen(path, "rb");
    require(file && it.bytes, path);
    it.len = fread(it.bytes, 1, 1 << 26, file);
    fclose(file);
    return it;
}

/* The answer, copied as a caller would. */
static text answer(void) {
    text it = {NULL, matzupol_answer_len(&schema)};
    it.bytes = malloc(it.len + 1);
    require(it.bytes && matzupol_answer(&schema, it.bytes, it.len) == MATZUPOL_DONE, "no answer");
    return it;
}

static void load_set(void) {
    matzupol_schema other = MATZUPOL_CLOSED;
    require(!matzupol_open(&other) && !matzupol_add_set(&other, set.bytes, set.len), "the set is refused");
    matzupol_close(&other);
}

static void encode(void) {
    require(!matzupol_encode(&schema, type, strlen(type), message.bytes, message.len), "the text is refused");
    free(answer().bytes);
}

static void decode(void) {
    require(!matzupol_decode(&schema, type, strlen(type), bytes.bytes, bytes.len), "the bytes are refused");
    free(answer().bytes);
}

static void recode(void) {
    require(!matzupol_recode(&schema, type, strlen(type), bytes.bytes, bytes.len), "the bytes are refused");
    free(answer().bytes);
}

static double now(void) {
    struct timespec it;
    clock_gettime(CLOCK_MONOTONIC, &it);
    return (double)it.tv_sec * 1e9 + (double)it.tv_nsec;
}

static double turn(void (*operation)(void), long rounds) {
    double start = now();
    for (long i = 0; i < rounds; i++) operation();
    return now() - start;
}

static void row(const char *name, void (*operation)(void), double least_ns) {
    long rounds = 1;
    double least;
    while (turn(operation, rounds) < least_ns && rounds < (1L << 30)) rounds *= 2;
    least = turn(operation, rounds);
    for (int i = 1; i < 5; i++) {
        double taken = turn(operation, rounds);
        if (taken < least) least = taken;
    }
    printf("%s %.0f %ld\n", name, least / (double)rounds, rounds);
}

int main(int count, char **words) {
    double least_ns = 1e8;
    for (int i = 1; i + 1 < count; i += 2) {
        if (!strcmp(words[i], "--set")) set = read_file(words[i + 1]);
        else if (!strcmp(words[i], "--type")) type = words[i + 1];
        else if (!strcmp(words[i], "--text")) message = read_file(words[i + 1]);
        else if (!strcmp(words[i], "--min-ms")) least_ns = atof(words[i + 1]) * 1e6;
        else require(0, words[i]);
    }
    require(set.bytes && type && message.bytes, "--set, --type and --text are needed");
    require(!matzupol_open(&schema) && !matzupol_add_set(&schema, set.bytes, set.len), "the set is refused");
    require(!matzupol_encode(&schema, type, strlen(type), message.bytes, message.len), "the text is refused");
    bytes = answer();
    row("load_set", load_set, least_ns);
    row("encode", encode, least_ns);
    row("decode", decode, least_ns);
    row("recode", recode, least_ns);
    return 0;
}
