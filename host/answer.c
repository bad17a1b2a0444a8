/* answer: cases on standard input, a line each, in the protocol of oracle/README.md; writes an answer line for each. */
#define _POSIX_C_SOURCE 200809L /* getline */
#include "common.h"
#include <stdlib.h>
#include <string.h>

enum { DIGEST = 32, NUMBERS = 5, TEXTS = 4, LOOKED_AT = 65536 };

/* The next field as a number; the fields are parted by spaces. */
static size_t next_number(int *good) {
    char *field = strtok(NULL, " \n"), *end;
    size_t n;
    if (field == NULL) return *good = 0;
    n = strtoul(field, &end, 10);
    if (end == field || *end != 0) *good = 0;
    return n;
}

/* The next field as bytes: hex, "-" for none, or z and a count for so many zeros. */
static struct bytes next_bytes(int *good) {
    struct bytes bytes = {NULL, 0};
    char *field = strtok(NULL, " \n");
    if (field == NULL) {
        *good = 0;
    } else if (*field == 'z') {
        bytes.count = strtoul(field + 1, NULL, 10);
        bytes.at = calloc(bytes.count + 1, 1);
    } else if (!from_hex(field, &bytes)) {
        *good = 0;
    }
    if (bytes.at == NULL) *good = 0;
    return bytes;
}

/* An output before the call: byte i is the low byte of the pattern's word i. */
static uint8_t *lend_output(size_t count, uint64_t seed) {
    uint8_t *out = calloc(count + 1, 1);
    size_t i;
    for (i = 0; out != NULL && count <= LOOKED_AT && i < count; i++) out[i] = (uint8_t)pattern(seed, i);
    return out;
}

/* The answer and the output: hex if accepted, "-" if refused and unchanged, "touched" if refused and changed. */
static void print_output(uint32_t answer, const uint8_t *out, size_t count, uint64_t seed) {
    size_t i;
    printf("%u ", (unsigned)answer);
    if (answer == CRABULEDDA_ACCEPTED && count > 0) {
        print_hex(stdout, out, count);
        return;
    }
    for (i = 0; count <= LOOKED_AT && i < count; i++)
        if (out[i] != (uint8_t)pattern(seed, i)) {
            printf("touched");
            return;
        }
    putchar('-');
}

/* The words after the call: 32 bytes of the variable-length hash of their bytes, little-endian. */
static void print_digest(const uint64_t *words, size_t count) {
    uint8_t digest[DIGEST], *bytes = malloc(8 * count + 1);
    size_t i;
    int k;
    if (bytes == NULL) {
        printf(" no-memory\n");
        return;
    }
    for (i = 0; i < count; i++)
        for (k = 0; k < 8; k++) bytes[8 * i + k] = (uint8_t)(words[i] >> (8 * k));
    crabuledda_blake2b_long(bytes, 8 * count, digest, DIGEST);
    putchar(' ');
    print_hex(stdout, digest, DIGEST);
    putchar('\n');
    free(bytes);
}

/* A whole hash, or a filling where it has no output. */
static int answer_job(int whole) {
    uint32_t n[NUMBERS], configured, answer;
    size_t tag, words_len;
    uint64_t seed, *words;
    struct bytes s[TEXTS];
    uint8_t *out;
    char *field;
    int i, good = 1;

    for (i = 0; i < NUMBERS; i++) n[i] = (uint32_t)next_number(&good);
    field = strtok(NULL, " \n");
    if (field == NULL) return 0;
    configured = strcmp(field, "-") == 0 ? CRABULEDDA_NOT_CONFIGURED : (uint32_t)strtoul(field, NULL, 10);
    if (strcmp(field, "0") == 0) return 0; /* a configured length of 0 cannot be said at the C boundary */
    tag = next_number(&good);
    words_len = next_number(&good);
    seed = next_number(&good);
    for (i = 0; i < TEXTS; i++) s[i] = next_bytes(&good);
    words = good ? lend(words_len, seed) : NULL;
    out = good ? lend_output(whole ? tag : 0, seed) : NULL;
    good = words != NULL && out != NULL;
    if (good && whole) {
        answer = crabuledda_hash(n[0], n[1], n[2], n[3], n[4], configured, s[0].at, s[0].count, s[1].at, s[1].count,
                                 s[2].at, s[2].count, s[3].at, s[3].count, words, words_len, out, tag);
        print_output(answer, out, tag, seed);
    } else if (good) {
        answer = crabuledda_fill_memory(n[0], n[1], n[2], n[3], n[4], configured, s[0].at, s[0].count, s[1].at,
                                        s[1].count, s[2].at, s[2].count, s[3].at, s[3].count, words, words_len);
        printf("%u -", (unsigned)answer);
    }
    if (good) print_digest(words, words_len);
    free(words);
    free(out);
    for (i = 0; i < TEXTS; i++) free(s[i].at);
    return good;
}

/* The variable-length hash. */
static int answer_long(void) {
    int good = 1;
    size_t count = next_number(&good);
    uint64_t seed = next_number(&good);
    struct bytes input = next_bytes(&good);
    uint8_t *out = good ? lend_output(count, seed) : NULL;
    good = out != NULL;
    if (good) {
        print_output(crabuledda_blake2b_long(input.at, input.count, out, count), out, count, seed);
        printf(" -\n");
    }
    free(input.at);
    free(out);
    return good;
}

int main(void) {
    char *line = NULL, *kind;
    size_t room = 0;
    while (getline(&line, &room, stdin) > 0) {
        int done = 0;
        kind = strtok(line, " \n");
        if (kind != NULL && strcmp(kind, "hash") == 0) done = answer_job(1);
        else if (kind != NULL && strcmp(kind, "fill") == 0) done = answer_job(0);
        else if (kind != NULL && strcmp(kind, "long") == 0) done = answer_long();
        if (!done) printf("skip - -\n");
        fflush(stdout);
    }
    return 0;
}
