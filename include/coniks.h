/*
 * The checks of a CONIKS client, proved. This file is the manual.
 *
 * A provider signs one root an epoch, and answers a look-up of a name by a reply whose proof leads from the root to
 * what it states of the name. These calls say whether bytes are such a root or reply, and whether a reply is right.
 * docs/FORMATS.md has the bytes. What each call answers is proved for whatever bytes it is given.
 *
 * Two things are the caller's, since they need the provider's real cryptography: whether a signature verifies, and
 * whether a value of the verifiable function is accepted for a name. The calls say which bytes to ask about. At most one
 * value may be accepted for a name under a key, since the name's index is its SHA-256: with a scheme that accepts two, a
 * provider can show two keys under one root. Proofs of ECVRF (RFC 9381) are not such values, as there are several for a name.
 *
 * To check a reply under a root:
 *
 *   1. coniks_read_root, and verify root.signature of root.body under the provider's public key.
 *   2. Place the root in your chain (below).
 *   3. coniks_read_reply, and ask whether reply.value is accepted for the name under reply.vuf_key.
 *   4. coniks_check with the body of the root of step 1, and that answer. Never with the reply's own body: OTHER_ROOT is
 *      what ties the reply, and its vuf_key, to the root whose signature you verified.
 *
 * To take a promise: coniks_read_promise; verify promise.signature of promise.promise; compare name, key and policy with
 * what you asked for, and body_hash with the SHA-256 of the body of your root of that epoch, by a SHA-256 of your own. Once
 * you have the next root, coniks_test_promise.
 *
 * The library keeps no root. A client keeps those that it took, its chain. A root whose signature verifies is taken
 *
 *   - as the first, if the client has none;
 *   - if coniks_follows with the last one answers 0.
 *
 * Any other is not taken. If its body is that of one in the chain, it is known, and is the latest only if that is the last
 * one. If its previous_epoch is above the epoch of the last one, ask the provider for the roots between. Else ask
 * coniks_evidence with it and its neighbours in the chain: 0 says only that these two show nothing. docs/FORMATS.md, "Where
 * a root stands to a chain", has every case.
 *
 * Of every call:
 *
 *   - Bytes are a pointer and a length. A pointer is never null, also where the length is 0. What a call writes to
 *     overlaps nothing else that it is given. Bytes do not change during a call, nor between the call that reads them and
 *     the one that checks them. Nothing is read or written outside of them.
 *   - The library allocates nothing, keeps nothing between two calls, and may be called from several threads.
 *   - A part of bytes that were given is where it starts in them, and how long it is. It lies within them.
 *   - An answer is 0, or the number of a refusal: the first that applies. After a refusal the output is unchanged.
 *     What else coniks_evidence, coniks_compare and the two tests answer is told below.
 *
 * Build: rt lib in crates/coniks proves it, some ten minutes the first time, and makes out/libconiks.a, for x86-64-v2. It
 * needs libc alone, and of that memcpy, memmove and memset.
 */
#ifndef CONIKS_H
#define CONIKS_H

#include <stdbool.h>
#include <stddef.h>
#include <stdint.h>

#ifdef __cplusplus
extern "C" {
#endif

/* Bytes from start on, counted from the beginning of what was read. */
typedef struct {
    size_t start;
    size_t len;
} coniks_part;

/* A signed root: up to 404 bytes. */
typedef struct {
    uint64_t epoch;
    uint64_t previous_epoch; /* 0 if none came before */
    coniks_part body;        /* what is signed: 146 bytes */
    coniks_part vuf_key;     /* the public key of the provider's verifiable function: 32 bytes of the body */
    coniks_part signature;   /* 1 to 256 bytes */
} coniks_root;

/* A reply to a look-up: up to 10,682 bytes. */
typedef struct {
    uint64_t epoch;
    coniks_part body;    /* the body of the root that it is of */
    coniks_part vuf_key; /* 32 bytes of that body */
    coniks_part value;   /* the value that has to be accepted for the name under this key: 1 to 256 bytes */
} coniks_reply;

/* A signed promise: up to 2,640 bytes. */
typedef struct {
    uint64_t epoch;        /* the epoch in which the provider made it */
    coniks_part body_hash; /* the SHA-256 of the body of the root of that epoch: 32 bytes */
    coniks_part promise;   /* what is signed */
    coniks_part signature; /* 1 to 256 bytes */
    coniks_part name;      /* 1 to 255 bytes */
    coniks_part key;       /* 1 to 2,048 bytes */
    uint8_t policy;        /* 1: the key may be changed; 2: it is never changed; 0: nothing is said */
} coniks_promise;

/* What an accepted reply states of the name. */
typedef struct {
    bool is_present; /* whether the name is bound to a key; if it is not, the rest is 0 */
    uint8_t policy;  /* 1: the key may be changed; 2: it is never changed; 0: nothing is said */
    coniks_part key; /* in the reply: 1 to 2,048 bytes */
} coniks_binding;

#define CONIKS_MALFORMED 1    /* the bytes are not of the form */
#define CONIKS_TRAILING 2     /* more bytes follow a reply */
#define CONIKS_OTHER_ROOT 3   /* the reply is of another root */
#define CONIKS_BAD_VALUE 4    /* of a reply: the caller says that the value is not accepted */
#define CONIKS_BAD_LINK 4     /* coniks_follows: the later root does not name the earlier one */
#define CONIKS_SAME_INDEX 5   /* the leaf that should show absence is that of the name's own index */
#define CONIKS_OTHER_PREFIX 6 /* the leaf that should show absence is not on the way of the name's index */
#define CONIKS_BAD_PATH 7     /* the siblings do not lead from the root to what the reply states */
#define CONIKS_BAD_NAME 8     /* the name has no or more than 255 bytes */
#define CONIKS_BAD_BODY 9     /* the body is not of the form */

#define CONIKS_BAD_PROMISE 10  /* the promise is not of the form */
#define CONIKS_BAD_ROOT 11     /* the root is not of the form */
#define CONIKS_NOT_NEXT 12     /* the root does not name that of the promise as the one before it: give the root that does */

#define CONIKS_FORK 16 /* two bodies of one epoch */
#define CONIKS_LINK 17 /* the second names the epoch of the first as the one before, but not its hash */
#define CONIKS_SKIP 18 /* the epoch of the first lies between that of the second and the one that the second names */

/* Reads a signed root. Its signature is the caller's to verify. MALFORMED. */
uint8_t coniks_read_root(const uint8_t *root, size_t root_len, coniks_root *parts);

/*
 * Whether the later root names the earlier one as the one before it, by its epoch and the SHA-256 of its body.
 * MALFORMED if one is no root, BAD_LINK.
 */
uint8_t coniks_follows(const uint8_t *earlier, size_t earlier_len, const uint8_t *later, size_t later_len);

/*
 * What two roots of one provider show, if both signatures verify under its key: 0 for nothing, FORK, LINK or SKIP. Then
 * no honest provider signed both: keep them, and show them to others. Give the root of the earlier epoch first: in the
 * other order LINK and SKIP are not seen. MALFORMED if one is no root.
 */
uint8_t coniks_evidence(const uint8_t *one, size_t one_len, const uint8_t *other, size_t other_len);

/* Reads a reply, and does not check it. MALFORMED, TRAILING. */
uint8_t coniks_read_reply(const uint8_t *reply, size_t reply_len, coniks_reply *parts);

/*
 * Checks a reply for a name under the body of a root, of which the caller verified the signature. value_is_accepted:
 * whether the reply's value is accepted for the name under the body's key. If it answers 0, and that is so, the provider
 * stated in this root that the name has this binding, or none; and whoever finds another binding for the name that is
 * accepted under the same root and index has found two byte strings with one SHA-256 value.
 * BAD_BODY, BAD_NAME, then MALFORMED to BAD_PATH in their order.
 */
uint8_t coniks_check(const uint8_t *body, size_t body_len, const uint8_t *name, size_t name_len, const uint8_t *reply,
                     size_t reply_len, bool value_is_accepted, coniks_binding *binding);

#define CONIKS_BROKEN 19      /* the reply does not state what was promised */
#define CONIKS_OTHER_INDEX 20 /* the name has another index than the promise says: it shows nothing */

#define CONIKS_SHORT_BUFFER 13 /* a buffer has fewer than 2,400 bytes, or fewer than 64 parts */
#define CONIKS_OF_SECOND 32    /* what is added to a refusal of the second reply */
#define CONIKS_TWO_VALUES 21   /* they state two things, and have two indices: two values were accepted */
#define CONIKS_COLLISION 22    /* they state two things, and two different texts have one SHA-256 value */

/* How long the two texts of a collision are. */
typedef struct {
    size_t one;
    size_t other;
} coniks_lens;

/*
 * Compares two replies for a name under the body of one root, of which the caller verified the signature: 0 if they state
 * the same, TWO_VALUES, COLLISION. There is no other answer to two replies that are accepted: so with one index they
 * state the same binding, or the two texts that are put into the buffers have one SHA-256 value. first_is_accepted and
 * second_is_accepted: whether the value of that reply is accepted for the name under the body's key. Each buffer has 2,400
 * bytes or more.
 * SHORT_BUFFER, BAD_BODY, BAD_NAME, then MALFORMED to BAD_PATH of the first reply, and of the second with OF_SECOND added.
 */
uint8_t coniks_compare(const uint8_t *body, size_t body_len, const uint8_t *name, size_t name_len, const uint8_t *first,
                       size_t first_len, const uint8_t *second, size_t second_len, bool first_is_accepted,
                       bool second_is_accepted, uint8_t *one, size_t one_len, uint8_t *other, size_t other_len,
                       coniks_lens *lens);

/* Reads a signed promise. Its signature is the caller's to verify. MALFORMED. */
uint8_t coniks_read_promise(const uint8_t *promise, size_t promise_len, coniks_promise *parts);

/*
 * Tests a promise, whose signature the caller verified, against a reply for its name under the signed root that follows
 * the root of the promise's epoch: 0 if the promised key stands there, BROKEN, OTHER_INDEX. The caller verified that
 * root too, and value_is_accepted says whether the reply's value is accepted for the promise's name under the key of the
 * root's body. If it was, BROKEN is evidence, if promise and root verify under one
 * provider's key: keep the promise, the root and the reply, and show them to others.
 * BAD_PROMISE, BAD_ROOT, NOT_NEXT, then MALFORMED to BAD_PATH, of the reply, in their order.
 */
uint8_t coniks_test_promise(const uint8_t *promise, size_t promise_len, const uint8_t *root, size_t root_len,
                            const uint8_t *reply, size_t reply_len, bool value_is_accepted);

#define CONIKS_NOT_LATER 14 /* the second root is not of a later epoch */
#define CONIKS_CHANGED 23   /* the first reply states a key that is never changed, and the second, with its index, anything else */

/*
 * Whether the second of two replies for a name, each under a signed root that the caller verified, changes what the
 * first states to be final: CHANGED, or 0. value_is_accepted and later_value_is_accepted: whether the value of that reply is
 * accepted for the name under the key of its root's body. If both are, CHANGED is evidence, if both roots verify under one
 * provider's key: keep both roots and both replies, and show them to others. Of two replies with two indices it says 0.
 * BAD_NAME, BAD_ROOT, NOT_LATER, then MALFORMED to BAD_PATH of the first reply, and of the second with OF_SECOND added.
 */
uint8_t coniks_test_final(const uint8_t *name, size_t name_len, const uint8_t *root, size_t root_len,
                          const uint8_t *reply, size_t reply_len, const uint8_t *later_root, size_t later_root_len,
                          const uint8_t *later_reply, size_t later_reply_len, bool value_is_accepted,
                          bool later_value_is_accepted);

/*
 * The frames of this repository's directory: 4 bytes with the length of what follows, a byte with the kind, and the body.
 * A client of another protocol does not need them. What a client has to test of each answer, beside what these calls do,
 * has docs/FORMATS.md, "What a client tests of a response".
 *
 * Each of these writes a request to the front of a buffer of 2,400 bytes or more, and its length to len. A name has 1 to
 * 255 bytes, a key 1 to 2,048. SHORT_BUFFER, then BAD_NAME, BAD_KEY, BAD_POLICY, BAD_TOKEN, BAD_NONCE.
 */
#define CONIKS_BAD_KEY 24    /* the key has no or more than 2,048 bytes */
#define CONIKS_BAD_POLICY 25 /* the byte is neither 0, nor 1, nor 2 */
#define CONIKS_BAD_TOKEN 26  /* the token does not have 32 bytes */
#define CONIKS_BAD_NONCE 27  /* the nonce has neither 32 bytes nor none */

/*
 * To bind a key to a name, or to change the key that it has, with a policy, or with 0 for none. Answered by PROMISED. This
 * and each other request may be answered by REFUSED.
 */
uint8_t coniks_write_put(bool is_change, const uint8_t *name, size_t name_len, const uint8_t *key, size_t key_len,
                         uint8_t policy, uint8_t *frame, size_t frame_len, size_t *len);

/* To get the promise for a name, of which an operation waits for the next epoch. Answered by PROMISED. */
uint8_t coniks_write_promise(const uint8_t *name, size_t name_len, uint8_t *frame, size_t frame_len, size_t *len);

/* To look a name up at an epoch, or at the latest with 0. Answered by PROOF. */
uint8_t coniks_write_lookup(const uint8_t *name, size_t name_len, uint64_t epoch, uint8_t *frame, size_t frame_len,
                            size_t *len);

/*
 * To get up to count signed roots, from the first one of this epoch or later on. A directory refuses a count of 0 or above
 * 64. Answered by ROOTS.
 */
uint8_t coniks_write_history(uint64_t from, uint16_t count, uint8_t *frame, size_t frame_len, size_t *len);

/* To get the latest signed root. Answered by ROOT. */
uint8_t coniks_write_head(uint8_t *frame, size_t frame_len, size_t *len);

/*
 * The operator's order to end the epoch. The next one has this number, above the latest, and its tree this nonce; or that of
 * the last tree, if nonce_len is 0. Answered by ROOT.
 */
uint8_t coniks_write_turn(const uint8_t *token, size_t token_len, uint64_t epoch, const uint8_t *nonce,
                          size_t nonce_len, uint8_t *frame, size_t frame_len, size_t *len);

/* The kinds of answers, and which call reads the body of each. */
#define CONIKS_PROMISED 129 /* a signed promise: coniks_read_promise */
#define CONIKS_PROOF 130    /* a reply: coniks_read_reply */
#define CONIKS_ROOTS 131    /* a list of signed roots: coniks_read_roots */
#define CONIKS_ROOT 132     /* a signed root: coniks_read_root */
#define CONIKS_REFUSED 255  /* the directory refuses: coniks_read_refused */

#define CONIKS_SHORT_FRAME 28 /* the bytes end within a frame: more have to come */

/* A frame at the front of bytes: 5 + body.len of them. */
typedef struct {
    uint8_t kind;
    coniks_part body; /* at most 65,535 bytes */
} coniks_frame;

/*
 * Reads the frame at the front of bytes that came. SHORT_FRAME; MALFORMED if its length, in the first four bytes, is 0 or
 * above 65,536: then nothing that comes can be read, and the connection is to be closed.
 */
uint8_t coniks_read_frame(const uint8_t *bytes, size_t len, coniks_frame *frame);

/*
 * Reads a list of signed roots: count of them, root n at roots[n], to be read by coniks_read_root and taken as above, in
 * order. A known root is passed over; if one is neither known nor taken, none of the list is. roots_len counts parts, not
 * bytes: 64 or more. Those behind the last root are as they were. SHORT_BUFFER, MALFORMED.
 */
uint8_t coniks_read_roots(const uint8_t *list, size_t list_len, coniks_part *roots, size_t roots_len, size_t *count);

/* Reads the body of a refusal: the directory's number, which is none of those above. docs/FORMATS.md has them. MALFORMED. */
uint8_t coniks_read_refused(const uint8_t *body, size_t body_len, uint8_t *number);

/*
 * The stand-ins that this repository's directory runs with, for trying. They give no security. A key of another length
 * than 32 bytes verifies and accepts nothing.
 */
bool coniks_keyed_verifies(const uint8_t *key, size_t key_len, const uint8_t *message, size_t message_len,
                           const uint8_t *signature, size_t signature_len);
bool coniks_keyed_accepts(const uint8_t *key, size_t key_len, const uint8_t *name, size_t name_len,
                          const uint8_t *value, size_t value_len);

#ifdef __cplusplus
}
#endif

#endif
