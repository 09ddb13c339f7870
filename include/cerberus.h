/* The controller calls of a Project Cerberus root of trust, for C.
 *
 * Each call takes any numbers, any bytes and any lengths below 2^63, ends, and
 * touches no memory but what it is lent and its stack. It answers 0 where it is
 * accepted, or one refusal number; a refused call changes nothing that it was
 * lent, neither states nor buffers nor answers. "Refuses" below lists a call's
 * numbers in the order in which they are asked: the first that applies is given.
 * Numbers of several bytes in messages, logs and elements are little-endian.
 *
 * The caller sees to this, which no call can check:
 * - A pointer that goes with a length points to that many bytes, and the length
 *   is below 2^63, as memory's always is. (A slice in Rattle has fewer than 2^63
 *   bytes; the proofs and the compiler count on it.)
 * - No pointer is NULL, not even one whose length is 0: that one may be any
 *   other address.
 * - Pointers to size_t, uint32_t and cerberus_slot are aligned as C aligns
 *   these. Pointers to bytes, to cerberus_pmr_comparison, which is made of bytes,
 *   and to cerberus_log, which is read and written as bytes, may lie anywhere as
 *   far as the calls are concerned.
 * - What a call writes, be it a buffer, a state or an answer, overlaps nothing
 *   else that the call is lent. What it only reads may overlap.
 * - Nothing else writes to what a call is lent, nor reads what it writes, until
 *   it returns. The library has no state of its own, so that threads may make
 *   calls at the same time where each writes to its own states and buffers.
 *
 * The library needs memcpy, memset and under 3 KiB of stack, and nothing else:
 * no heap, no input or output, no start-up. It is x86-64 code that uses the SSE2
 * registers and the 128 bytes below the stack pointer, as the System V ABI has it.
 *
 * Time: in cerberus_sha256, _sha384, _sha512, _hash, _hash_matches,
 * cerberus_hmac_sha256 and cerberus_pairing_key no branch and no address depends
 * on the bytes of message, hash, key or text, only on their lengths and on
 * hash_type (tests/memcheck shows it of the library as built; no proof does). Of
 * a message and a hash that are compared *matches tells whether they fit, and the
 * time nothing more.
 * A caller that compares MACs reads them to their ends (examples/c/same_bytes.h).
 *
 * Memory: these calls wipe nothing. The key, the key with its pad, the
 * inner digest, the end of the message and the result are left on the stack
 * below the caller's frame, and parts of them in registers. A caller to whom this
 * matters wipes that part of the stack after the call, or makes the call on a
 * stack of its own and wipes that.
 */
#ifndef CERBERUS_H
#define CERBERUS_H

#include <stddef.h>
#include <stdint.h>

#ifdef __cplusplus
extern "C" {
#endif

enum {
    CERBERUS_ACCEPTED = 0,
    CERBERUS_FOREIGN_HEADER = 1,      /* the header is short or isn't ours */
    CERBERUS_BAD_LENGTH = 2,          /* the body, payload, log text or message to hash has a length that isn't permitted */
    CERBERUS_WRONG_BUFFER = 3,        /* a lent buffer has the wrong length */
    CERBERUS_UNSOUND_STATE = 4,       /* a state or log outside the rules of its section */
    CERBERUS_OUT_OF_RANGE = 5,        /* a number out of its range */
    CERBERUS_OUT_OF_STEP = 6,         /* out of step */
    CERBERUS_LOG_FULL = 7,            /* log full */
    CERBERUS_BAD_MANIFEST_HEADER = 8, /* manifest header breaks its rules */
    CERBERUS_STALE_VERSION = 9,       /* version id doesn't go forward */
    CERBERUS_BAD_SIGNATURE = 10,      /* the signature was judged bad */
    CERBERUS_NOT_OFFERED = 11,        /* known, but not offered */
    CERBERUS_MALFORMED_ELEMENT = 12   /* malformed element */
};

/* ---- the refusals' meaning */

/* Puts the meaning of a refusal number, in ASCII, to the front of text and its
 * length into *meaning_len; other bytes of text stay.
 * Refuses: 3 text has under 80 bytes; 5 number is not 1 to 12. */
uint8_t cerberus_meaning(uint8_t number, uint8_t *text, size_t text_len, size_t *meaning_len);

/* ---- hashes (FIPS 180-4) */

/* The digest of a message. Refuses: 2 the message has 2^61 bytes or more. */
uint8_t cerberus_sha256(const uint8_t *message, size_t message_len, uint8_t digest[32]);

/* The digest of a message. They refuse nothing: no length below 2^63 is too long. */
uint8_t cerberus_sha384(const uint8_t *message, size_t message_len, uint8_t digest[48]);
uint8_t cerberus_sha512(const uint8_t *message, size_t message_len, uint8_t digest[64]);

/* The hash types of manifests and their elements: hashes of 32, 48 and 64 bytes. */
#define CERBERUS_HASH_SHA256 0
#define CERBERUS_HASH_SHA384 1
#define CERBERUS_HASH_SHA512 2

/* The hash of this type of a message.
 * Refuses: 12 hash_type above 2; 3 hash has not exactly the type's 32, 48 or 64
 * bytes; 2 hash_type is 0 and the message has 2^61 bytes or more. */
uint8_t cerberus_hash(uint8_t hash_type, const uint8_t *message, size_t message_len, uint8_t *hash, size_t hash_len);

/* *matches becomes 1 if the hash_len bytes of hash are the hash of this type of
 * the message, else 0: so also where hash_type is above 2, hash_len isn't the
 * type's, or the message has no such hash (hash_type 0, 2^61 bytes or more).
 * Refuses nothing. */
uint8_t cerberus_hash_matches(uint8_t hash_type, const uint8_t *message, size_t message_len,
                              const uint8_t *hash, size_t hash_len, uint8_t *matches);

/* ---- HMAC-SHA-256 */

/* The MAC of a text under a key (FIPS 198-1).
 * Refuses: 2 the key has 2^61 bytes or more, or the text 2^61 - 64 or more. */
uint8_t cerberus_hmac_sha256(const uint8_t *key, size_t key_len, const uint8_t *text, size_t text_len, uint8_t mac[32]);

/* ---- device binding */

#define CERBERUS_PAIRING_KEY_LEN 32

/* The pairing key that two devices derive from their session key: NIST SP
 * 800-108, counter mode, with HMAC-SHA-256, the label "pairing", no context and
 * 256 bits out; the counter and the length have 32 bits, high byte first.
 * Refuses: 3 pairing_key has not exactly 32 bytes; 2 the session key has 2^61
 * bytes or more. */
uint8_t cerberus_pairing_key(const uint8_t *session_key, size_t session_key_len,
                             uint8_t *pairing_key, size_t pairing_key_len);

/* ---- certificate slots */

#define CERBERUS_NO_CHAIN 255

/* What the slot mask of a challenge response says, in which slot 0 is the bit
 * worth 1: *count becomes the number of slots that hold a certificate chain,
 * and *lowest the lowest of them, or CERBERUS_NO_CHAIN if none does.
 * Refuses nothing. */
uint8_t cerberus_certificate_slots(uint8_t mask, uint8_t *count, uint8_t *lowest);

/* ---- the measurement log
 *
 * A log is a state and a buffer, and the caller keeps both. The state holds the
 * five registers, so that a register read hashes nothing and a record hashes
 * once, whatever the buffer holds. cerberus_log_check tells whether the buffer is
 * still what the state says. Event types, and the order between PMRs, are in no
 * register: a buffer in which another hand changed these alone, to what records
 * would have written, passes.
 *
 * To a caller that kept the state of earlier versions, one size_t that counted
 * the entries: the calls keep their names, but take a pointer to a cerberus_log.
 * Change every caller and compile it again. One that still lends its size_t has
 * 208 bytes written over its 8; a C compiler may only warn of it, and a linker
 * sees nothing.
 * Where a log is to live on and its count is at most 64 (any other was refused
 * with 4 before), copy the first 89 times count bytes of its buffer elsewhere and
 * replay that copy into the buffer: cerberus_log_replay works the registers out
 * and makes the state, or refuses with 4 entries that no run of records writes.
 * It clears what stood behind the entries; a byte there that wasn't zero was 4
 * before, so look first where that matters. Setting count alone makes no state:
 * its PMRs' numbers don't add up to it.
 * Record and register read no longer look at what the buffer holds: a caller that
 * relied on their 4 for a damaged buffer asks cerberus_log_check. */

#define CERBERUS_LOG_ENTRY_LEN 89
#define CERBERUS_LOG_CAPACITY 64
#define CERBERUS_LOG_BUFFER_LEN 5696
#define CERBERUS_PMRS 5

/* One PMR in a log's state. */
typedef struct {
    uint8_t value[32]; /* its register */
    uint64_t entries;  /* how many of the log's entries are its own */
} cerberus_pmr;

/* The state of a log: count in bytes 0 to 7, then PMR0 to PMR4 in 40 bytes each,
 * 32 of its register and 8 of its number of entries; 208 bytes, none of them
 * padding. Numbers have their low byte first. Any bytes may be handed in: they
 * are a state where the five PMRs' entries add up to count and count is at most
 * 64, whatever the registers are; a call that reads a state refuses any other
 * with 4. Read-out, its companion and check hold the registers against the
 * buffer. */
typedef struct {
    uint64_t count; /* the log's entries */
    cerberus_pmr pmrs[CERBERUS_PMRS];
} cerberus_log;

/* An empty log: buffer becomes zero, and *log, which is not read, the state of
 * an empty log.
 * Refuses: 3 buffer has not exactly 5,696 bytes. */
uint8_t cerberus_log_reset(cerberus_log *log, uint8_t *buffer, size_t buffer_len);

/* One more entry, made from the PMR's register and number in *log and put into
 * buffer at 89 times count, whatever buffer holds; its other bytes stay. *log
 * becomes the next state: count and the PMR's entries one more, its register
 * SHA-256 of the old one followed by digest. digest lies outside *log.
 * Refuses: 3 buffer length; 4 *log is not a state; 5 pmr above 4; 7 64 entries
 * present. */
uint8_t cerberus_log_record(cerberus_log *log, uint8_t pmr, uint32_t event_type, const uint8_t digest[32],
                            uint8_t *buffer, size_t buffer_len);

/* A register's 32 bytes, those of *log, whatever buffer holds. value lies outside
 * *log.
 * Refuses: 3; 4; 5, as record. */
uint8_t cerberus_log_register(const cerberus_log *log, uint8_t pmr, const uint8_t *buffer, size_t buffer_len,
                              uint8_t value[32]);

/* The log's text: the first *text_len bytes of buffer.
 * Refuses: 3 buffer length; 4 *log is not a state, or buffer isn't what records
 * from a reset write, or their registers or numbers aren't those of *log. */
uint8_t cerberus_log_read_out(const cerberus_log *log, const uint8_t *buffer, size_t buffer_len, size_t *text_len);

/* The number that cerberus_log_read_out answers for the same *log and buffer. */
uint8_t cerberus_log_read_out_verdict(const cerberus_log *log, const uint8_t *buffer, size_t buffer_len);

/* Whether buffer is what *log says: answers as cerberus_log_read_out_verdict. */
uint8_t cerberus_log_check(const cerberus_log *log, const uint8_t *buffer, size_t buffer_len);

/* A new run from a recorded text: buffer becomes the text and then zeros,
 * whatever it held, and *log, which is not read, the state of the text's records.
 * Refuses: 3 buffer length; 2 text_len not a multiple of 89 or above 5,696;
 * 4 no run of records from a reset writes the text. */
uint8_t cerberus_log_replay(cerberus_log *log, const uint8_t *text, size_t text_len, uint8_t *buffer, size_t buffer_len);

/* ---- recorded logs, read without a buffer */

/* Whether a replay takes the text.
 * Refuses: 2; 4, as cerberus_log_replay. */
uint8_t cerberus_log_text_verdict(const uint8_t *text, size_t text_len);

/* What the texts of two logs say of one PMR. */
typedef struct {
    uint8_t left_records;  /* the PMR's records in the left text, 0 to 64 */
    uint8_t right_records; /* and in the right text */
    uint8_t same_register; /* 1 if the register is the same after both texts, else 0 */
    uint8_t agree;         /* 1 if the digests are the same, in the same order, else 0 */
    uint8_t differ_at;     /* the place, among the PMR's records and from 0, where they first differ; 0 if they agree */
} cerberus_pmr_comparison;

/* Compares the texts of two logs: comparison[p] becomes what they say of PMR p.
 * Where one has fewer records of a PMR, its end counts as a difference; event
 * types and the order between PMRs aren't compared.
 * Refuses: 2; 4, as cerberus_log_replay, for the left text; then 2; 4 for the
 * right one. cerberus_log_text_verdict of the left text tells which of the two
 * was refused: where it answers 0, the right one. */
uint8_t cerberus_log_compare(const uint8_t *left, size_t left_len, const uint8_t *right, size_t right_len,
                             cerberus_pmr_comparison comparison[CERBERUS_PMRS]);

/* ---- the manifest slot */

#define CERBERUS_SLOT_BUFFER_LEN 4096

/* The state of a slot. Idle has receiving, total and received 0. Any other
 * numbers than the ranges given here are not a state (refusal 4). */
typedef struct {
    uint64_t magic;         /* 0 to 65,535: the manifests' magic number */
    uint64_t active_length; /* 0 for none, else 13 to 4,096 */
    uint64_t active_id;     /* the active manifest's version id, 32 bits; 0 for none */
    uint64_t receiving;     /* 1 while a transfer is under way, else 0 */
    uint64_t total;         /* of the transfer: 13 to 4,096 */
    uint64_t received;      /* so far: at most total */
} cerberus_slot;

/* Opens a slot: both buffers become zero, and *slot, which is not read, the
 * idle state with no active manifest.
 * Refuses: 3 pending or active has not exactly 4,096 bytes. */
uint8_t cerberus_slot_open(cerberus_slot *slot, uint16_t magic, uint8_t *pending, size_t pending_len,
                           uint8_t *active, size_t active_len);

/* Begins a transfer of total bytes, and drops one under way.
 * Refuses: 3 buffers' lengths; 4 *slot is not a state; 5 total outside 13 to 4,096. */
uint8_t cerberus_slot_prepare(cerberus_slot *slot, uint32_t total, const uint8_t *pending, size_t pending_len,
                              const uint8_t *active, size_t active_len);

/* The next bytes of the transfer go into pending behind those received.
 * Refuses: 3; 4; 2 payload_len is 0; 5 more than is still to come; 6 idle. */
uint8_t cerberus_slot_update(cerberus_slot *slot, const uint8_t *payload, size_t payload_len,
                             uint8_t *pending, size_t pending_len, const uint8_t *active, size_t active_len);

/* The pending manifest becomes the active one: active becomes its bytes and
 * then zeros, and the slot is idle. signature_good is the board's verdict on
 * its signature: 1 for good, any other number for bad.
 * Refuses: 3; 4; 6 idle or incomplete; 8 the manifest header breaks its rules;
 * 9 its version id isn't above the active one's; 10 signature bad. */
uint8_t cerberus_slot_activate(cerberus_slot *slot, uint8_t signature_good, const uint8_t *pending, size_t pending_len,
                               uint8_t *active, size_t active_len);

#define CERBERUS_ROLE_ACTIVE 0
#define CERBERUS_ROLE_PENDING 1

/* The manifest of a role: the first *length bytes of active or of pending.
 * Refuses: 3; 4; 5 role is neither 0 nor 1. */
uint8_t cerberus_slot_manifest(const cerberus_slot *slot, uint8_t role, const uint8_t *pending, size_t pending_len,
                               const uint8_t *active, size_t active_len, size_t *length);

/* ---- Cerberus messages */

/* Whether a message is ours and offered, by its first five bytes.
 * Refuses: 1 short, another type or vendor, integrity flag or a reserved bit
 * set; 11 request type or crypt set, or a command other than 0x62 to 0x65. */
uint8_t cerberus_header(const uint8_t *message, size_t message_len);

/* Carries out a PCD command on a slot and its buffers. Get PCD Id writes ten
 * bytes to the front of response and sets *written to 10; the others write
 * nothing and set it to 0. signature_good is used by Activate PCD alone.
 * Refuses: 3 a slot buffer's length, or response_len under 10; 4 *slot is not a
 * state; 1 and 11, as cerberus_header; 11 Get PCD Id with the one byte 0x01
 * (platform id); 2 the body's length; 5 Get PCD Id with another byte than 0x00;
 * then as the slot call that the command stands for. */
uint8_t cerberus_command(cerberus_slot *slot, uint8_t signature_good, const uint8_t *message, size_t message_len,
                         uint8_t *pending, size_t pending_len, uint8_t *active, size_t active_len,
                         uint8_t *response, size_t response_len, size_t *written);

/* ---- manifest elements: readers refuse 12 alone, writers 12 and then 3 for
 * a buffer that hasn't exactly the element's length */

/* A flash region, 8 bytes; end is the last valid address. */
uint8_t cerberus_region_read(const uint8_t *element, size_t element_len, uint32_t *start, uint32_t *end);
uint8_t cerberus_region_write(uint32_t start, uint32_t end, uint8_t *buffer, size_t buffer_len);

/* An R/W region, 12 bytes; operation 0 nothing, 1 restore, 2 erase, 3 reserved
 * (a writer refuses a number above 3 with 12). */
uint8_t cerberus_rw_region_read(const uint8_t *element, size_t element_len, uint8_t *operation, uint32_t *start, uint32_t *end);
uint8_t cerberus_rw_region_write(uint8_t operation, uint32_t start, uint32_t end, uint8_t *buffer, size_t buffer_len);

/* A signed image; hash_type 0, 1, 2 for hashes of 32, 48, 64 bytes. The hash is
 * the *hash_len bytes of element from 4 on, the regions are all behind it.
 * must_validate is 0 or 1 (a writer refuses another number with 12). */
uint8_t cerberus_signed_image_read(const uint8_t *element, size_t element_len, uint8_t *hash_type, uint8_t *region_count,
                                   uint8_t *must_validate, size_t *hash_len);
/* Region index, from 0; 12 also where there is no such region. Each call judges
 * the whole element. To walk all regions, read the image once: region k is then
 * what cerberus_region_read gives of the 8 bytes of element from
 * 4 + *hash_len + 8 * k on. */
uint8_t cerberus_signed_image_region(const uint8_t *element, size_t element_len, size_t index, uint32_t *start, uint32_t *end);
uint8_t cerberus_signed_image_write(uint8_t hash_type, uint8_t must_validate, const uint8_t *hash, size_t hash_len,
                                    const uint8_t *regions, size_t regions_len, uint8_t *buffer, size_t buffer_len);

/* Root CAs; the hash type is the caller's. The hashes are the *hash_len bytes
 * each, *count of them, of element from 4 on. */
uint8_t cerberus_root_cas_read(uint8_t hash_type, const uint8_t *element, size_t element_len, uint8_t *count, size_t *hash_len);
/* Hash index, from 0: the *hash_len bytes of element from *offset on; 12 also where there is no such hash. */
uint8_t cerberus_root_cas_hash(uint8_t hash_type, const uint8_t *element, size_t element_len, size_t index,
                               size_t *offset, size_t *hash_len);
uint8_t cerberus_root_cas_write(uint8_t hash_type, const uint8_t *hashes, size_t hashes_len, uint8_t *buffer, size_t buffer_len);

#ifdef __cplusplus
}
#endif
#endif
