/*
 * What bench/bench.py measures of the library for C.
 *
 *   check FILE ROUNDS    FILE has look-ups: a body, a name and a reply, each behind its length in two bytes
 *
 * Like the crate `measure` it runs in steps, and at the end of each prints a number that depends on the step's work and
 * waits for a line. Each step goes over all look-ups so often: they are read; read and checked, with their values; and
 * checked alone.
 */
#include <coniks.h>
#include <stdio.h>
#include <stdlib.h>

typedef struct {
    const uint8_t *bytes;
    size_t len;
} text;

typedef struct {
    text body, name, reply;
} look_up;

enum { MOST = 1 << 24 };

static uint8_t bytes[MOST];
static look_up look_ups[MOST / 64];

static text next(size_t *at, size_t len) {
    text found = {bytes + *at + 2, 0};
    if (len - *at < 2) exit(1);
    found.len = (size_t)bytes[*at] << 8 | bytes[*at + 1];
    *at += 2 + found.len;
    if (*at > len) exit(1);
    return found;
}

static size_t read_look_ups(const char *path) {
    FILE *file = fopen(path, "rb");
    size_t count = 0;
    if (!file) exit(1);
    size_t len = fread(bytes, 1, MOST, file);
    fclose(file);
    for (size_t at = 0; at < len && count < MOST / 64; count++) {
        look_ups[count].body = next(&at, len);
        look_ups[count].name = next(&at, len);
        look_ups[count].reply = next(&at, len);
    }
    return count;
}

static void step(size_t number) {
    printf("%zu\n", number);
    fflush(stdout);
    for (int byte; (byte = getchar()) != '\n' && byte != EOF;) {}
}

static coniks_reply parts_of(text reply) {
    coniks_reply parts;
    if (coniks_read_reply(reply.bytes, reply.len, &parts)) exit(1);
    return parts;
}

static bool is_accepted(text name, text reply) {
    coniks_reply parts = parts_of(reply);
    return coniks_keyed_accepts(reply.bytes + parts.vuf_key.start, parts.vuf_key.len, name.bytes, name.len,
                                reply.bytes + parts.value.start, parts.value.len);
}

/* How many bytes the key has. */
static size_t checked(const look_up *of, bool value_is_accepted) {
    coniks_binding found;
    if (coniks_check(of->body.bytes, of->body.len, of->name.bytes, of->name.len, of->reply.bytes, of->reply.len,
                     value_is_accepted, &found)) exit(1);
    return found.key.len;
}

int main(int words, char **word) {
    if (words != 3) return 2;
    size_t count = read_look_ups(word[1]), number = 0;
    long rounds = strtol(word[2], NULL, 10);
    step(count);
    for (long round = 0; round < rounds; round++)
        for (size_t i = 0; i < count; i++) number += parts_of(look_ups[i].reply).value.len;
    step(number);
    number = 0;
    for (long round = 0; round < rounds; round++)
        for (size_t i = 0; i < count; i++) number += checked(&look_ups[i], is_accepted(look_ups[i].name, look_ups[i].reply));
    step(number);
    number = 0;
    for (long round = 0; round < rounds; round++)
        for (size_t i = 0; i < count; i++) number += checked(&look_ups[i], true);
    step(number);
    return 0;
}
