/*
 * Calls the library for C on buffers beside pages that must not be touched.
 *
 *   guarded ends|begins < CASES    each buffer ends at such a page, or begins behind one
 *
 * A case is a line: a call without `coniks_`, and its words in the order of coniks.h. Bytes are in hex behind an `x`, numbers
 * in decimal, and of what is written only the size of a buffer is a word. Bytes that are given can only be read. Prints a
 * line for each case: the answer, and in hex what each output has then, which was all a5 before.
 *
 * The call `past` is none of the library's: it reads the byte behind its bytes, or the one before them.
 */
#define _GNU_SOURCE
#include <coniks.h>
#include <stdio.h>
#include <stdlib.h>
#include <string.h>
#include <sys/mman.h>

enum { PAGE = 4096, WORDS = 16 };

/* Pages, and the buffer in them. A number has no pages. */
typedef struct {
    uint8_t *pages, *bytes;
    size_t room, len;
    unsigned long long number;
} word;

static bool ends;
static word words[WORDS], outputs[3];

static word guarded(size_t len) {
    word made = {.room = (len + PAGE - 1) / PAGE * PAGE, .len = len};
    made.pages = mmap(NULL, made.room + 2 * PAGE, PROT_NONE, MAP_PRIVATE | MAP_ANONYMOUS, -1, 0);
    if (made.pages == MAP_FAILED) abort();
    if (made.room && mprotect(made.pages + PAGE, made.room, PROT_READ | PROT_WRITE)) abort();
    made.bytes = made.pages + PAGE + (ends ? made.room - len : 0);
    return made;
}

static void drop(word *old) {
    if (old->pages) munmap(old->pages, old->room + 2 * PAGE);
    *old = (word){0};
}

static void *output(int place, size_t len) {
    outputs[place] = guarded(len);
    memset(outputs[place].bytes, 0xa5, len);
    return outputs[place].bytes;
}

static int digit(char text) {
    return text <= '9' ? text - '0' : text - 'a' + 10;
}

static void put_hex(const uint8_t *bytes, size_t len) {
    for (size_t i = 0; i < len; i++) {
        putchar("0123456789abcdef"[bytes[i] >> 4]);
        putchar("0123456789abcdef"[bytes[i] & 15]);
    }
}

static word read_word(const char *text) {
    if (text[0] != 'x') return (word){.number = strtoull(text, NULL, 10)};
    word made = guarded(strlen(text + 1) / 2);
    for (size_t i = 0; i < made.len; i++) made.bytes[i] = (uint8_t)(digit(text[1 + 2 * i]) << 4 | digit(text[2 + 2 * i]));
    if (made.room && mprotect(made.pages + PAGE, made.room, PROT_READ)) abort();
    return made;
}

#define B(place) words[place].bytes, words[place].len
#define N(place) words[place].number
#define FRAME(place) output(0, N(place)), N(place), output(1, sizeof(size_t))

static unsigned called(const char *name) {
#define CALL(text, ...) if (!strcmp(name, #text)) return coniks_##text(__VA_ARGS__)
    CALL(read_root, B(0), output(0, sizeof(coniks_root)));
    CALL(follows, B(0), B(1));
    CALL(evidence, B(0), B(1));
    CALL(read_reply, B(0), output(0, sizeof(coniks_reply)));
    CALL(check, B(0), B(1), B(2), N(3), output(0, sizeof(coniks_binding)));
    CALL(compare, B(0), B(1), B(2), B(3), N(4), N(5), output(0, N(6)), N(6), output(1, N(7)), N(7),
         output(2, sizeof(coniks_lens)));
    CALL(read_promise, B(0), output(0, sizeof(coniks_promise)));
    CALL(test_promise, B(0), B(1), B(2), N(3));
    CALL(test_final, B(0), B(1), B(2), B(3), B(4), N(5), N(6));
    CALL(write_put, N(0), B(1), B(2), (uint8_t)N(3), FRAME(4));
    CALL(write_promise, B(0), FRAME(1));
    CALL(write_lookup, B(0), N(1), FRAME(2));
    CALL(write_history, N(0), (uint16_t)N(1), FRAME(2));
    CALL(write_head, FRAME(0));
    CALL(write_turn, B(0), N(1), B(2), FRAME(3));
    CALL(read_frame, B(0), output(0, sizeof(coniks_frame)));
    CALL(read_roots, B(0), output(0, N(1) * sizeof(coniks_part)), N(1), output(1, sizeof(size_t)));
    CALL(read_refused, B(0), output(0, 1));
    CALL(keyed_verifies, B(0), B(1), B(2));
    CALL(keyed_accepts, B(0), B(1), B(2));
    if (!strcmp(name, "past")) return *(volatile uint8_t *)(ends ? words[0].bytes + words[0].len : words[0].bytes - 1);
    abort();
}

int main(int count, char **options) {
    char *line = NULL;
    size_t room = 0;
    if (count != 2) return 2;
    ends = !strcmp(options[1], "ends");
    setvbuf(stdout, NULL, _IOLBF, 1 << 16);
    while (getline(&line, &room, stdin) > 0) {
        const char *name = strtok(line, " \n");
        int last = 0;
        for (const char *text; (text = strtok(NULL, " \n")) && last < WORDS;) words[last++] = read_word(text);
        printf("%u", called(name));
        for (int i = 0; i < 3; i++) {
            if (outputs[i].pages) putchar(' ');
            put_hex(outputs[i].bytes, outputs[i].len);
            drop(&outputs[i]);
        }
        putchar('\n');
        while (last > 0) drop(&words[--last]);
    }
    free(line);
    return 0;
}
