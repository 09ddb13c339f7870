/* Calls the library with secret bytes that are marked undefined, under valgrind's memcheck, which reports a branch or an
 * address that depends on an undefined byte: the secrets decide neither. Each buffer is its own piece of the heap, so that
 * memcheck also reports a byte that is read or written beside it. tests/memcheck/run builds this and starts it:
 *   memcheck calls           the calls on secrets, and the comparison of two MACs; memcheck must report nothing
 *   memcheck control-branch  a comparison that leaves early; memcheck must report it
 *   memcheck control-index   a table that is looked up by a secret byte; memcheck must report it */
#include "cerberus.h"
#include "../../examples/c/same_bytes.h"

#include <stdio.h>
#include <stdlib.h>
#include <string.h>
#include <valgrind/memcheck.h>

enum { MAC_LEN = 32, LONGEST = 64, OTHER_LENGTHS = 6 };

static const size_t lengths[] = {0, 1, 31, 32, 55, 56, 63, 64, 65, 111, 112, 113, 127, 128, 129, 200, 239, 240, 255, 256};
#define LENGTHS (sizeof lengths / sizeof lengths[0])

/* A hash: its type, its length and its own call. */
typedef struct {
    const char *name;
    uint8_t type;
    size_t len;
    uint8_t (*own_call)(const uint8_t *, size_t, uint8_t *);
} kind;

static const kind kinds[] = {
    {"SHA-256", CERBERUS_HASH_SHA256, 32, cerberus_sha256},
    {"SHA-384", CERBERUS_HASH_SHA384, 48, cerberus_sha384},
    {"SHA-512", CERBERUS_HASH_SHA512, 64, cerberus_sha512},
};
#define KINDS (sizeof kinds / sizeof kinds[0])

static unsigned calls, comparisons;

/* Status 1 is memcheck's. */
static void fail(const char *what, size_t len, size_t other) {
    fprintf(stderr, "%s, lengths %zu and %zu\n", what, len, other);
    exit(3);
}

static uint8_t *bytes(size_t len, unsigned seed) {
    uint8_t *made = malloc(len);
    if (made == NULL)
        exit(2);
    for (size_t i = 0; i < len; i++)
        made[i] = (uint8_t)(seed + 37 * i + i / 7);
    return made;
}

static uint8_t *secret(size_t len, unsigned seed) {
    uint8_t *made = bytes(len, seed);
    VALGRIND_MAKE_MEM_UNDEFINED(made, len);
    return made;
}

/* What came of secrets is undefined in every byte, or the marks were lost on the way; what came of none is defined. */
static void expect_marks(const uint8_t *out, size_t out_len, int from_secrets, const char *call, size_t len, size_t other) {
    uint8_t marks[LONGEST];
    if (VALGRIND_GET_VBITS(out, marks, out_len) != 1)
        fail("memcheck gives no marks", len, other);
    for (size_t i = 0; i < out_len; i++)
        if ((marks[i] != 0) != from_secrets)
            fail(call, len, other);
}

/* The call on secrets gives what it gives on the same bytes without marks. */
static void expect_same(uint8_t *out, const uint8_t *right, size_t out_len, const char *call, size_t len, size_t other) {
    VALGRIND_MAKE_MEM_DEFINED(out, out_len);
    if (memcmp(out, right, out_len) != 0)
        fail(call, len, other);
    calls++;
}

/* The hash's own call, and the call by its type. */
static void hash(const kind *of, size_t len) {
    uint8_t *message = bytes(len, 1), *hidden = secret(len, 1), *right = bytes(of->len, 2);
    uint8_t *out = bytes(of->len, 3), *by_type = bytes(of->len, 12);
    if (of->own_call(message, len, right) != CERBERUS_ACCEPTED || of->own_call(hidden, len, out) != CERBERUS_ACCEPTED
        || cerberus_hash(of->type, hidden, len, by_type, of->len) != CERBERUS_ACCEPTED)
        fail(of->name, len, of->len);
    expect_marks(out, of->len, len > 0, "hash: marks", len, of->len);
    expect_same(out, right, of->len, "hash: another digest", len, of->len);
    expect_marks(by_type, of->len, len > 0, "hash by type: marks", len, of->len);
    expect_same(by_type, right, of->len, "hash by type: another digest", len, of->len);
    free(message), free(hidden), free(right), free(out), free(by_type);
}

/* A secret message and a secret hash of so many bytes, which differs from the right one at one place, or nowhere if that
 * is behind it. Only the answer is made known. A length that isn't the hash's decides it, so that it may lack marks. */
static void match(const kind *of, size_t len, size_t hash_len, size_t place) {
    uint8_t *hidden = bytes(len, 13), *right = bytes(LONGEST, 14), *hash = bytes(hash_len, 14), *matches = bytes(1, 15);
    if (of->own_call(hidden, len, right) != CERBERUS_ACCEPTED)
        fail(of->name, len, of->len);
    memcpy(hash, right, hash_len < of->len ? hash_len : of->len);
    if (place < hash_len)
        hash[place] ^= 0x10;
    VALGRIND_MAKE_MEM_UNDEFINED(hidden, len);
    VALGRIND_MAKE_MEM_UNDEFINED(hash, hash_len);
    if (cerberus_hash_matches(of->type, hidden, len, hash, hash_len, matches) != CERBERUS_ACCEPTED)
        fail("comparison of a hash refused", len, hash_len);
    if (hash_len == of->len)
        expect_marks(matches, 1, 1, "comparison of a hash: marks", len, hash_len);
    VALGRIND_MAKE_MEM_DEFINED(matches, 1);
    if (*matches != (hash_len == of->len && place >= of->len))
        fail("comparison of a hash", len, hash_len);
    comparisons++;
    free(hidden), free(right), free(hash), free(matches);
}

/* The right hash, one that differs at each place in turn, and other lengths. */
static void matches(const kind *of, size_t len) {
    const size_t others[OTHER_LENGTHS] = {0, of->len - 1, of->len + 1, 32, 48, 64};
    for (size_t place = 0; place <= of->len; place++)
        match(of, len, of->len, place);
    for (size_t i = 0; i < OTHER_LENGTHS; i++)
        match(of, len, others[i], LONGEST + 1);
}

static void mac(size_t key_len, size_t text_len) {
    uint8_t *key = bytes(key_len, 4), *hidden_key = secret(key_len, 4), *text = bytes(text_len, 5);
    uint8_t *hidden_text = secret(text_len, 5), *right = bytes(MAC_LEN, 6), *out = bytes(MAC_LEN, 7);
    if (cerberus_hmac_sha256(key, key_len, text, text_len, right) != CERBERUS_ACCEPTED
        || cerberus_hmac_sha256(hidden_key, key_len, hidden_text, text_len, out) != CERBERUS_ACCEPTED)
        fail("HMAC refused", key_len, text_len);
    expect_marks(out, MAC_LEN, key_len + text_len > 0, "HMAC: marks", key_len, text_len);
    expect_same(out, right, MAC_LEN, "HMAC: another MAC", key_len, text_len);
    free(key), free(hidden_key), free(text), free(hidden_text), free(right), free(out);
}

static void pairing(size_t len) {
    uint8_t *key = bytes(len, 8), *hidden = secret(len, 8), *right = bytes(MAC_LEN, 9), *out = bytes(MAC_LEN, 10);
    if (cerberus_pairing_key(key, len, right, MAC_LEN) != CERBERUS_ACCEPTED
        || cerberus_pairing_key(hidden, len, out, MAC_LEN) != CERBERUS_ACCEPTED)
        fail("pairing key refused", len, MAC_LEN);
    expect_marks(out, MAC_LEN, len > 0, "pairing key: marks", len, MAC_LEN);
    expect_same(out, right, MAC_LEN, "pairing key: another key", len, MAC_LEN);
    free(key), free(hidden), free(right), free(out);
}

/* Two secret MACs that differ at one place, or nowhere if that is MAC_LEN. Only the answer is made known. */
static void compare(size_t place, int (*same)(const uint8_t *, const uint8_t *, size_t)) {
    uint8_t *a = bytes(MAC_LEN, 11), *b = bytes(MAC_LEN, 11);
    if (place < MAC_LEN)
        b[place] ^= 0x10;
    VALGRIND_MAKE_MEM_UNDEFINED(a, MAC_LEN);
    VALGRIND_MAKE_MEM_UNDEFINED(b, MAC_LEN);
    int answer = same(a, b, MAC_LEN);
    VALGRIND_MAKE_MEM_DEFINED(&answer, sizeof answer);
    if (answer != (place == MAC_LEN))
        fail("comparison of MACs", place, MAC_LEN);
    free(a), free(b);
}

static int same_leaving_early(const uint8_t *a, const uint8_t *b, size_t len) {
    for (size_t i = 0; i < len; i++)
        if (a[i] != b[i])
            return 0;
    return 1;
}

static int same_by_table(const uint8_t *a, const uint8_t *b, size_t len) {
    static uint8_t table[256];
    uint8_t difference = 0;
    for (size_t i = 0; i < 256; i++)
        table[i] = (uint8_t)(i ^ 0x5a);
    for (size_t i = 0; i < len; i++)
        difference |= table[a[i]] ^ table[b[i]];
    return difference == 0;
}

static void all_calls(void) {
    for (size_t i = 0; i < LENGTHS; i++) {
        for (size_t of = 0; of < KINDS; of++) {
            hash(&kinds[of], lengths[i]);
            matches(&kinds[of], lengths[i]);
        }
        pairing(lengths[i]);
        for (size_t j = 0; j < LENGTHS; j++)
            mac(lengths[i], lengths[j]);
    }
    for (size_t place = 0; place <= MAC_LEN; place++)
        compare(place, same_bytes);
    printf("%u calls on secret bytes, %u comparisons of secret hashes, %d of secret MACs\n", calls, comparisons, MAC_LEN + 1);
}

int main(int argc, char **argv) {
    const char *mode = argc == 2 ? argv[1] : "";
    if (!RUNNING_ON_VALGRIND) {
        fprintf(stderr, "memcheck: not under valgrind\n");
        return 2;
    }
    if (strcmp(mode, "calls") == 0)
        all_calls();
    else if (strcmp(mode, "control-branch") == 0)
        compare(MAC_LEN / 2, same_leaving_early);
    else if (strcmp(mode, "control-index") == 0)
        compare(MAC_LEN / 2, same_by_table);
    else
        return 2;
    return 0;
}
