/*
 * Looks a name up at a directory, and checks the reply by the proved library.
 *
 *   look ADDRESS PORT KEY NAME    ADDRESS is numeric (IPv4), KEY the provider's public key in 64 hexadecimal digits of
 *                                 lower case, NAME is text
 *
 * Prints the key of the name in hexadecimal digits, with ` final` behind it if it is never changed, or `absent`. The status is 0; 1 if nothing can be said, as where the
 * directory does not answer, or refuses; 2 if the words are wrong; 3 if what the directory sent is refused.
 *
 *   cc -I include -o look examples/c/look.c crates/coniks/out/libconiks.a
 *
 * The stand-ins check signature and value here, and give no security: put your own in their two places. A client that
 * looks twice keeps the roots that it took, and places each new one: coniks.h says how. It bounds the time of a whole reply.
 */
#include <arpa/inet.h>
#include <coniks.h>
#include <errno.h>
#include <stdio.h>
#include <stdlib.h>
#include <string.h>
#include <sys/socket.h>
#include <sys/time.h>

/* A frame that came: its bytes, and its parts. */
typedef struct {
    uint8_t bytes[5 + 65535];
    coniks_frame parts;
} answer;

static int silent(void) {
    fputs("no reply\n", stderr);
    return 1;
}

static int refused(const char *what, unsigned number) {
    fprintf(stderr, "%s refused: %u\n", what, number);
    return 3;
}

static int send_all(int stream, const uint8_t *bytes, size_t len) {
    for (size_t done = 0; done < len;) {
        ssize_t sent = send(stream, bytes + done, len - done, MSG_NOSIGNAL);
        if (sent < 0 && errno == EINTR) continue;
        if (sent <= 0) return -1;
        done += (size_t)sent;
    }
    return 0;
}

/* Reads the next frame. Returns 0, or the status of the program once it said why. */
static int read_answer(int stream, answer *got) {
    uint8_t why = CONIKS_SHORT_FRAME;
    for (size_t len = 0; why == CONIKS_SHORT_FRAME;) {
        ssize_t came = recv(stream, got->bytes + len, sizeof got->bytes - len, 0);
        if (came < 0 && errno == EINTR) continue;
        if (came <= 0) return silent();
        len += (size_t)came;
        why = coniks_read_frame(got->bytes, len, &got->parts);
    }
    return why ? refused("frame", why) : 0;
}

/* Sends a request, and reads its answer, which has to be of this kind. Returns 0 or a status, as above. */
static int ask(int stream, const uint8_t *request, size_t len, uint8_t kind, answer *got) {
    if (send_all(stream, request, len)) return silent();
    int status = read_answer(stream, got);
    if (status || got->parts.kind == kind) return status;
    if (got->parts.kind != CONIKS_REFUSED) return refused("kind", got->parts.kind);
    uint8_t number;
    uint8_t why = coniks_read_refused(got->bytes + got->parts.body.start, got->parts.body.len, &number);
    if (why) return refused("refusal", why);
    fprintf(stderr, "the directory refuses: %u\n", number);
    return 1;
}

static int connected(const char *address, unsigned short port) {
    struct sockaddr_in to = {.sin_family = AF_INET, .sin_port = htons(port)};
    struct timeval most = {.tv_sec = 60};
    int stream = socket(AF_INET, SOCK_STREAM, 0);
    if (stream < 0 || inet_pton(AF_INET, address, &to.sin_addr) != 1) return -1;
    if (setsockopt(stream, SOL_SOCKET, SO_RCVTIMEO, &most, sizeof most)) return -1;
    return connect(stream, (struct sockaddr *)&to, sizeof to) ? -1 : stream;
}

/* The key of 64 hexadecimal digits. */
static int read_key(const char *digits, uint8_t *key) {
    if (strlen(digits) != 64 || strspn(digits, "0123456789abcdef") != 64) return -1;
    for (int i = 0; i < 32; i++) sscanf(digits + 2 * i, "%2hhx", &key[i]);
    return 0;
}

int main(int count, char **words) {
    static answer head, proof;
    uint8_t key[32], request[2400];
    size_t name_len = count == 5 ? strlen(words[4]) : 0, request_len;
    long port = count == 5 ? strtol(words[2], NULL, 10) : 0;
    if (name_len < 1 || name_len > 255 || port < 1 || port > 65535 || read_key(words[3], key)) {
        fputs("look ADDRESS PORT KEY NAME\n", stderr);
        return 2;
    }
    const uint8_t *name = (const uint8_t *)words[4];

    int stream = connected(words[1], (unsigned short)port);
    if (stream < 0) {
        fputs("cannot connect\n", stderr);
        return 1;
    }

    /* The latest root, whose signature the caller verifies. */
    uint8_t why = coniks_write_head(request, sizeof request, &request_len);
    if (why) return refused("request", why);
    int status = ask(stream, request, request_len, CONIKS_ROOT, &head);
    if (status) return status;
    const uint8_t *root = head.bytes + head.parts.body.start;
    coniks_root is;
    why = coniks_read_root(root, head.parts.body.len, &is);
    if (why) return refused("root", why);
    const uint8_t *body = root + is.body.start;
    if (!coniks_keyed_verifies(key, 32, body, is.body.len, root + is.signature.start, is.signature.len)) {
        fputs("bad signature\n", stderr);
        return 3;
    }

    /* A look-up at the epoch of that root. */
    why = coniks_write_lookup(name, name_len, is.epoch, request, sizeof request, &request_len);
    if (why) return refused("request", why);
    status = ask(stream, request, request_len, CONIKS_PROOF, &proof);
    if (status) return status;
    const uint8_t *reply = proof.bytes + proof.parts.body.start;
    size_t reply_len = proof.parts.body.len;

    /* Whether its value is accepted for the name, the caller finds out too. The rest is checked here. */
    coniks_reply parts;
    coniks_binding found;
    why = coniks_read_reply(reply, reply_len, &parts);
    if (why) return refused("reply", why);
    bool is_accepted = coniks_keyed_accepts(reply + parts.vuf_key.start, 32, name, name_len, reply + parts.value.start,
                                            parts.value.len);
    why = coniks_check(body, is.body.len, name, name_len, reply, reply_len, is_accepted, &found);
    if (why) return refused("reply", why);

    if (!found.is_present) {
        puts("absent");
        return 0;
    }
    for (size_t i = 0; i < found.key.len; i++) printf("%02x", reply[found.key.start + i]);
    puts(found.policy == 2 ? " final" : "");
    return 0;
}
