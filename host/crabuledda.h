/* Crabuledda: Argon2 (RFC 9106) and its variable-length hash, proved, for a caller that lends the memory.
 *
 * Link with libcrabuledda.a. Nothing is allocated, kept or freed, and nothing is asked of the caller but that
 * each pointer leads to as many items as the length behind it says, and that what is written (words, out)
 * overlaps nothing else. A length of 0 allows any pointer. Every input is answered with one of the numbers
 * below. An answer other than CRABULEDDA_ACCEPTED leaves words and out as they were.
 */
#ifndef CRABULEDDA_H
#define CRABULEDDA_H

#include <stddef.h>
#include <stdint.h>

#ifdef __cplusplus
extern "C" {
#endif

/* Algorithms and versions. */
#define CRABULEDDA_ARGON2D UINT32_C(0)
#define CRABULEDDA_ARGON2I UINT32_C(1)
#define CRABULEDDA_ARGON2ID UINT32_C(2)
#define CRABULEDDA_VERSION_0X10 UINT32_C(16)
#define CRABULEDDA_VERSION_0X13 UINT32_C(19)

/* Limits: lanes 1 to 16, memory 8 for each lane to 1,048,576 (KiB), passes 1 to 2^32-1. */
#define CRABULEDDA_MAX_LANES UINT32_C(16)
#define CRABULEDDA_MAX_MEMORY UINT32_C(1048576)

/* For `configured`: no tag length is configured. */
#define CRABULEDDA_NOT_CONFIGURED UINT32_C(0)

/* The answers. The first that holds, in the order of their numbers, is given. */
enum crabuledda_answer {
    CRABULEDDA_ACCEPTED = 0,
    CRABULEDDA_ALGORITHM_INVALID = 1,  /* algorithm not 0, 1, 2 */
    CRABULEDDA_VERSION_INVALID = 2,    /* version not 16 or 19 */
    CRABULEDDA_THREADS_TOO_FEW = 3,    /* no lanes */
    CRABULEDDA_THREADS_TOO_MANY = 4,   /* more than 16 lanes */
    CRABULEDDA_MEMORY_TOO_SMALL = 5,   /* memory cost under 8 for each lane */
    CRABULEDDA_MEMORY_TOO_MUCH = 6,    /* memory cost over 1,048,576 */
    CRABULEDDA_TIME_TOO_SMALL = 7,     /* no passes */
    CRABULEDDA_TAG_TOO_SHORT = 8,      /* configured tag length under 4 */
    CRABULEDDA_AD_TOO_LONG = 9,        /* associated data over 32 bytes */
    CRABULEDDA_SECRET_TOO_LONG = 10,   /* secret over 2^32-1 bytes */
    CRABULEDDA_OUTPUT_TOO_SHORT = 11,  /* under the configured length, or under 4 with none */
    CRABULEDDA_OUTPUT_TOO_LONG = 12,   /* over the configured length, or over 2^32-1 with none */
    CRABULEDDA_PWD_TOO_LONG = 13,      /* password over 2^32-1 bytes */
    CRABULEDDA_SALT_TOO_SHORT = 14,    /* salt under 8 bytes */
    CRABULEDDA_SALT_TOO_LONG = 15,     /* salt over 2^32-1 bytes */
    CRABULEDDA_MEMORY_TOO_LITTLE = 16  /* fewer words lent than crabuledda_words gives */
};

/* The words that a memory cost and a number of lanes need: 128 for each of p * 4 * floor(m / 4p) blocks.
 * Lending more is allowed: the words after these are never changed. */
static inline size_t crabuledda_words(uint32_t memory, uint32_t lanes) {
    return lanes == 0 ? 0 : (size_t)128 * lanes * 4 * (memory / ((uint64_t)4 * lanes));
}

/* The whole hash: the tag of out_len bytes is written to out. words is the lent memory; what it held before
 * does not matter, and afterwards it holds the filled blocks. configured is a tag length that out_len has to
 * equal, or CRABULEDDA_NOT_CONFIGURED. No secret and an empty secret are the same. */
uint32_t crabuledda_hash(uint32_t algorithm, uint32_t version, uint32_t memory, uint32_t passes,
                         uint32_t lanes, uint32_t configured, const uint8_t *password, size_t password_len,
                         const uint8_t *salt, size_t salt_len, const uint8_t *secret, size_t secret_len,
                         const uint8_t *data, size_t data_len, uint64_t *words, size_t words_len,
                         uint8_t *out, size_t out_len);

/* The filling alone, with tag length 0 in the initial hash. Answers 11 and 12 are not given. */
uint32_t crabuledda_fill_memory(uint32_t algorithm, uint32_t version, uint32_t memory, uint32_t passes,
                                uint32_t lanes, uint32_t configured, const uint8_t *password, size_t password_len,
                                const uint8_t *salt, size_t salt_len, const uint8_t *secret, size_t secret_len,
                                const uint8_t *data, size_t data_len, uint64_t *words, size_t words_len);

/* The variable-length hash of RFC 9106, 3.3: out_len bytes, 1 to 2^32-1. Gives 11 for none and 12 over that. */
uint32_t crabuledda_blake2b_long(const uint8_t *input, size_t input_len, uint8_t *out, size_t out_len);

#ifdef __cplusplus
}
#endif

#endif
