/* The controller calls from C: a measurement log with three events, whose buffer another hand writes to
 * and a replay repairs, and which is compared with another card's; a manifest that comes in by Cerberus
 * messages and is then asked for its version id; a firmware image that is checked by a hash of each type
 * that manifests have; and a card that is bound to its chassis.
 * The status is 1 if a call answers something that it shouldn't. */
#include "cerberus.h"
#include "same_bytes.h"

#include <stdio.h>
#include <stdlib.h>
#include <string.h>

static void print_answer(FILE *to, uint8_t answer) {
    uint8_t text[80];
    size_t text_len = 0;
    if (answer == CERBERUS_ACCEPTED)
        fprintf(to, "accepted");
    else if (cerberus_meaning(answer, text, sizeof text, &text_len) == CERBERUS_ACCEPTED)
        fprintf(to, "refused %u (%.*s)", answer, (int)text_len, (const char *)text);
    else
        fprintf(to, "%u, which is no refusal number", answer);
}

/* Stops unless a call answered what it should. */
static void expect(uint8_t answer, uint8_t right, const char *step) {
    if (answer == right)
        return;
    fprintf(stderr, "%s: ", step);
    print_answer(stderr, answer);
    fprintf(stderr, ", not %u\n", right);
    exit(1);
}

static void print_bytes(const uint8_t *bytes, size_t len) {
    for (size_t i = 0; i < len; i++)
        printf("%02x", bytes[i]);
    printf("\n");
}

/* ---- the measurement log */

static uint8_t log_buffer[CERBERUS_LOG_BUFFER_LEN];

static void record(cerberus_log *log, uint8_t *buffer, uint8_t pmr, uint32_t event_type, const char *firmware) {
    uint8_t digest[32];
    uint8_t answer = cerberus_sha256((const uint8_t *)firmware, strlen(firmware), digest);
    expect(answer, CERBERUS_ACCEPTED, "hash");
    answer = cerberus_log_record(log, pmr, event_type, digest, buffer, CERBERUS_LOG_BUFFER_LEN);
    expect(answer, CERBERUS_ACCEPTED, "record");
    printf("  recorded \"%s\" in PMR%u, event type %u: %llu entries\n", firmware, pmr, event_type,
           (unsigned long long)log->count);
}

static void show_register(const cerberus_log *log, uint8_t pmr) {
    uint8_t value[32];
    uint8_t answer = cerberus_log_register(log, pmr, log_buffer, sizeof log_buffer, value);
    expect(answer, CERBERUS_ACCEPTED, "register");
    if (memcmp(value, log->pmrs[pmr].value, sizeof value) != 0) {
        fprintf(stderr, "the register isn't the state's\n");
        exit(1);
    }
    printf("  PMR%u ", pmr);
    print_bytes(value, sizeof value);
}

/* Whether the buffer is what the state says. */
static void check(const cerberus_log *log, uint8_t right) {
    uint8_t answer = cerberus_log_check(log, log_buffer, sizeof log_buffer);
    expect(answer, right, "check");
    printf("  check: ");
    print_answer(stdout, answer);
    printf("\n");
}

/* A replay of a log's text makes that log again, its state and its buffer, whatever both hold. */
static void replay(cerberus_log *log, const uint8_t *text, size_t text_len) {
    expect(cerberus_log_replay(log, text, text_len, log_buffer, sizeof log_buffer), CERBERUS_ACCEPTED, "replay");
    printf("  replayed the text that was read out: %llu entries\n", (unsigned long long)log->count);
    check(log, CERBERUS_ACCEPTED);
}

/* Another hand writes to the buffer. A register read doesn't see it, for the state keeps the registers; the check does. */
static void damage_and_repair(cerberus_log *log) {
    static uint8_t text[CERBERUS_LOG_BUFFER_LEN];
    const cerberus_log right = *log;
    size_t text_len;
    expect(cerberus_log_read_out(log, log_buffer, sizeof log_buffer, &text_len), CERBERUS_ACCEPTED, "read-out");
    memcpy(text, log_buffer, text_len);
    printf("  read out: %zu bytes\n", text_len);
    log_buffer[CERBERUS_LOG_ENTRY_LEN + 21] ^= 1;
    printf("  another hand changes a byte of the buffer\n");
    check(log, CERBERUS_UNSOUND_STATE);
    show_register(log, 0);
    memset(log, 0xff, sizeof *log);
    printf("  the state is lost too\n");
    check(log, CERBERUS_UNSOUND_STATE);
    replay(log, text, text_len);
    if (memcmp(log, &right, sizeof right) != 0 || memcmp(log_buffer, text, sizeof text) != 0) {
        fprintf(stderr, "the replayed log differs\n");
        exit(1);
    }
}

static void show_comparison(const cerberus_pmr_comparison comparison[CERBERUS_PMRS]) {
    for (uint8_t pmr = 0; pmr < CERBERUS_PMRS; pmr++) {
        const cerberus_pmr_comparison *found = &comparison[pmr];
        printf("  PMR%u %u and %u records, ", pmr, found->left_records, found->right_records);
        if (found->agree)
            printf("the same digests\n");
        else
            printf("digests first differ at place %u\n", found->differ_at);
    }
}

/* Another card recorded the same boot loader and frame memory, in another order, and newer controller firmware. */
static void compare(const cerberus_log *log) {
    static uint8_t other_buffer[CERBERUS_LOG_BUFFER_LEN];
    cerberus_pmr_comparison comparison[CERBERUS_PMRS];
    cerberus_log other;
    printf("another card's log, compared\n");
    expect(cerberus_log_reset(&other, other_buffer, sizeof other_buffer), CERBERUS_ACCEPTED, "reset");
    record(&other, other_buffer, 3, 10, "frame-memory firmware");
    record(&other, other_buffer, 0, 8, "boot loader");
    record(&other, other_buffer, 0, 1, "newer controller firmware");
    uint8_t answer = cerberus_log_compare(log_buffer, log->count * CERBERUS_LOG_ENTRY_LEN, other_buffer,
                                          other.count * CERBERUS_LOG_ENTRY_LEN, comparison);
    expect(answer, CERBERUS_ACCEPTED, "compare");
    show_comparison(comparison);
    if (comparison[0].agree || comparison[0].differ_at != 1 || !comparison[3].agree || !comparison[3].same_register) {
        fprintf(stderr, "the comparison isn't right\n");
        exit(1);
    }
}

static void measure(void) {
    cerberus_log log;
    printf("measurement log\n");
    expect(cerberus_log_reset(&log, log_buffer, sizeof log_buffer), CERBERUS_ACCEPTED, "reset");
    printf("  reset: %llu entries\n", (unsigned long long)log.count);
    record(&log, log_buffer, 0, 8, "boot loader");
    record(&log, log_buffer, 0, 1, "controller firmware");
    record(&log, log_buffer, 3, 10, "frame-memory firmware");
    for (uint8_t pmr = 0; pmr < CERBERUS_PMRS; pmr++)
        show_register(&log, pmr);
    check(&log, CERBERUS_ACCEPTED);
    damage_and_repair(&log);
    compare(&log);
}

/* ---- the manifest slot */

enum { MAGIC = 0x1029, HEADER_LEN = 12, SIGNATURE_LEN = 16, MANIFEST_LEN = 48, FIRST_PIECE = 20 };

static uint8_t pending[CERBERUS_SLOT_BUFFER_LEN], active[CERBERUS_SLOT_BUFFER_LEN];

/* A manifest with version id 0x01020304; its body and signature are filler. */
static void make_manifest(uint8_t manifest[MANIFEST_LEN]) {
    static const uint8_t header[HEADER_LEN] = {
        MANIFEST_LEN, 0, MAGIC & 0xff, MAGIC >> 8, 0x04, 0x03, 0x02, 0x01, SIGNATURE_LEN, 0, 0, 0,
    };
    memset(manifest, 0x5a, MANIFEST_LEN);
    memcpy(manifest, header, sizeof header);
}

/* Has one message carried out and prints the response, if there is one. */
static void command(cerberus_slot *slot, const char *name, uint8_t code, const uint8_t *body, size_t body_len,
                    uint8_t right) {
    uint8_t message[64] = {0x7e, 0x14, 0x14, 0x00, code}, response[10];
    size_t written = 0;
    if (body_len > 0)
        memcpy(message + 5, body, body_len);
    /* The board judged the manifest's signature to be good; only Activate PCD asks for it. */
    uint8_t answer = cerberus_command(slot, 1, message, 5 + body_len, pending, sizeof pending, active, sizeof active,
                                      response, sizeof response, &written);
    expect(answer, right, name);
    printf("  %-13s ", name);
    print_answer(stdout, answer);
    if (answer == CERBERUS_ACCEPTED && written > 0) {
        printf(", response ");
        print_bytes(response, written);
    } else if (slot->receiving) {
        printf(", received %llu of %llu bytes\n", (unsigned long long)slot->received, (unsigned long long)slot->total);
    } else {
        printf(", no transfer under way\n");
    }
}

static void transfer(void) {
    cerberus_slot slot;
    uint8_t manifest[MANIFEST_LEN];
    static const uint8_t total[4] = {MANIFEST_LEN, 0, 0, 0};
    printf("manifest slot\n");
    make_manifest(manifest);
    expect(cerberus_slot_open(&slot, MAGIC, pending, sizeof pending, active, sizeof active), CERBERUS_ACCEPTED, "open");
    printf("  opened with magic 0x%04llx\n", (unsigned long long)slot.magic);
    command(&slot, "Get PCD Id", 0x62, NULL, 0, CERBERUS_ACCEPTED);
    command(&slot, "Prepare PCD", 0x63, total, sizeof total, CERBERUS_ACCEPTED);
    command(&slot, "Update PCD", 0x64, manifest, FIRST_PIECE, CERBERUS_ACCEPTED);
    command(&slot, "Activate PCD", 0x65, NULL, 0, CERBERUS_OUT_OF_STEP);
    command(&slot, "Update PCD", 0x64, manifest + FIRST_PIECE, MANIFEST_LEN - FIRST_PIECE, CERBERUS_ACCEPTED);
    command(&slot, "Activate PCD", 0x65, NULL, 0, CERBERUS_ACCEPTED);
    command(&slot, "Get PCD Id", 0x62, NULL, 0, CERBERUS_ACCEPTED);
    if (slot.active_id != 0x01020304 || slot.active_length != MANIFEST_LEN || memcmp(active, manifest, MANIFEST_LEN) != 0) {
        fprintf(stderr, "the active manifest isn't the one that was sent\n");
        exit(1);
    }
    printf("  active: %llu bytes, version id 0x%08llx\n", (unsigned long long)slot.active_length,
           (unsigned long long)slot.active_id);
}

/* ---- firmware hashes */

/* Whether this is the image's hash. */
static void check_image(uint8_t hash_type, const uint8_t *image, size_t image_len, const uint8_t *hash, size_t hash_len,
                        uint8_t right) {
    uint8_t matches;
    uint8_t answer = cerberus_hash_matches(hash_type, image, image_len, hash, hash_len, &matches);
    expect(answer, CERBERUS_ACCEPTED, "hash matches");
    if (matches != right) {
        fprintf(stderr, "hash type %u: the match isn't right\n", hash_type);
        exit(1);
    }
}

/* An image, which is filler, has the hash that was made of it, and with one bit changed it hasn't. */
static void check_by_type(uint8_t hash_type, size_t hash_len) {
    uint8_t image[1000], hash[64];
    memset(image, 0xc3, sizeof image);
    expect(cerberus_hash(hash_type, image, sizeof image, hash, hash_len), CERBERUS_ACCEPTED, "hash");
    printf("  type %u ", hash_type);
    print_bytes(hash, hash_len);
    check_image(hash_type, image, sizeof image, hash, hash_len, 1);
    image[500] ^= 1;
    check_image(hash_type, image, sizeof image, hash, hash_len, 0);
    printf("  the image has it, and with one bit changed it hasn't\n");
}

static void check_firmware(void) {
    printf("firmware hashes of the types that manifests have\n");
    check_by_type(CERBERUS_HASH_SHA256, 32);
    check_by_type(CERBERUS_HASH_SHA384, 48);
    check_by_type(CERBERUS_HASH_SHA512, 64);
}

/* ---- device binding */

/* What the slot mask of the card's challenge response says. */
static void show_slots(uint8_t mask) {
    uint8_t count, lowest;
    expect(cerberus_certificate_slots(mask, &count, &lowest), CERBERUS_ACCEPTED, "certificate slots");
    printf("  slot mask 0x%02x: %u certificate chains", mask, count);
    if (lowest == CERBERUS_NO_CHAIN)
        printf("\n");
    else
        printf(", the lowest in slot %u\n", lowest);
}

/* One side's pairing key, and its MAC under the session's MAC key, by which the other side knows it. */
static void pair(const uint8_t session_key[32], const uint8_t mac_key[32], uint8_t mac[32]) {
    uint8_t pairing_key[CERBERUS_PAIRING_KEY_LEN];
    uint8_t answer = cerberus_pairing_key(session_key, 32, pairing_key, sizeof pairing_key);
    expect(answer, CERBERUS_ACCEPTED, "pairing key");
    expect(cerberus_hmac_sha256(mac_key, 32, pairing_key, sizeof pairing_key, mac), CERBERUS_ACCEPTED, "HMAC");
}

/* Card and chassis share the keys of one session, so that their pairing keys have the same MAC. */
static void bind_to_chassis(void) {
    uint8_t session_key[32], mac_key[32], card[32], chassis[32], too_long[CERBERUS_PAIRING_KEY_LEN + 1];
    printf("device binding\n");
    show_slots(0x0c);
    show_slots(0x00);
    memset(session_key, 0x11, sizeof session_key);
    memset(mac_key, 0x22, sizeof mac_key);
    pair(session_key, mac_key, card);
    pair(session_key, mac_key, chassis);
    printf("  MAC of the pairing key ");
    print_bytes(card, sizeof card);
    if (!same_bytes(card, chassis, sizeof card)) {
        fprintf(stderr, "card and chassis have different pairing keys\n");
        exit(1);
    }
    uint8_t answer = cerberus_pairing_key(session_key, sizeof session_key, too_long, sizeof too_long);
    expect(answer, CERBERUS_WRONG_BUFFER, "pairing key");
    printf("  into %zu bytes: ", sizeof too_long);
    print_answer(stdout, answer);
    printf("\n");
}

int main(void) {
    measure();
    transfer();
    check_firmware();
    bind_to_chassis();
    return 0;
}
