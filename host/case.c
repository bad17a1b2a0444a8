/* case BLOCKS [FILE]: one case of document 01's program on standard input, through the archive, with so many blocks
 * of memory that hold a pattern before the call. Writes the program's line; FILE receives the lent words after the
 * call, little-endian. */
#include "common.h"

enum { NUMBERS = 7, SECTIONS = 4, MOST_TAG = 256, MOST_BYTES = 255, WORDS_IN_BLOCK = 128 };

static const uint64_t SEED = 20260101;

static uint32_t number(const uint8_t *at) {
    return at[0] | (uint32_t)at[1] << 8 | (uint32_t)at[2] << 16 | (uint32_t)at[3] << 24;
}

/* The seven numbers and the four sections of a case; the first section that is bad, or 0. */
static int parse(struct bytes input, uint32_t *numbers, struct bytes *sections) {
    size_t at = 4 + 4 * NUMBERS;
    int k;
    if (input.count < at || number(input.at) != NUMBERS) return 1;
    for (k = 0; k < NUMBERS; k++) numbers[k] = number(input.at + 4 + 4 * k);
    if (numbers[NUMBERS - 1] > MOST_TAG) return 1;
    for (k = 0; k < SECTIONS; k++) {
        size_t count;
        if (input.count - at < 4) return k + 2;
        count = number(input.at + at);
        at += 4;
        if (count > MOST_BYTES || input.count - at < count) return k + 2;
        sections[k].at = input.at + at;
        sections[k].count = count;
        at += count;
    }
    return at < input.count ? SECTIONS + 2 : 0;
}

/* Writes words to a file, little-endian. */
static int save(const char *name, const uint64_t *words, size_t count) {
    FILE *file = fopen(name, "wb");
    size_t i;
    int k;
    if (file == NULL) return 0;
    for (i = 0; i < count; i++) {
        uint8_t bytes[8];
        for (k = 0; k < 8; k++) bytes[k] = (uint8_t)(words[i] >> (8 * k));
        if (fwrite(bytes, 1, 8, file) != 8) return 0;
    }
    return fclose(file) == 0;
}

int main(int argc, char **argv) {
    uint32_t blocks, n[NUMBERS], answer;
    struct bytes input, s[SECTIONS];
    uint8_t tag[MOST_TAG];
    uint64_t *words;
    size_t words_len;
    int bad;

    if (argc < 2 || argc > 3 || !from_decimal(argv[1], &blocks)) {
        fputs("case: BLOCKS [FILE]\n", stderr);
        return 2;
    }
    words_len = (size_t)blocks * WORDS_IN_BLOCK;
    words = lend(words_len, SEED);
    if (words == NULL || !read_all(stdin, &input)) {
        fputs("case: no memory to lend, or no input\n", stderr);
        return 2;
    }
    bad = parse(input, n, s);
    if (bad != 0) {
        printf("bad input %d\n", bad);
    } else {
        answer = crabuledda_hash(n[0], n[1], n[2], n[3], n[4], n[5], s[0].at, s[0].count, s[1].at, s[1].count,
                                 s[2].at, s[2].count, s[3].at, s[3].count, words, words_len, tag, n[6]);
        if (answer == CRABULEDDA_ACCEPTED) {
            printf("tag ");
            print_hex(stdout, tag, n[6]);
            putchar('\n');
        } else {
            printf("refused %u\n", (unsigned)answer);
        }
    }
    if (argc == 3 && !save(argv[2], words, words_len)) {
        fputs("case: the memory cannot be written\n", stderr);
        return 2;
    }
    return 0;
}
