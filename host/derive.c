/* derive ALGORITHM VERSION MEMORY PASSES LANES LENGTH SALT SECRET DATA: the front door's hash. The first six are
 * numbers, the last three hex ("-" for none); the password is standard input. Writes the tag in hex, or "refused N"
 * with status 1; any other failure has status 2. */
#include "common.h"
#include <stdlib.h>

enum { NUMBERS = 6, TEXTS = 3 };

static int fail(const char *what) {
    fprintf(stderr, "derive: %s\n", what);
    return 2;
}

int main(int argc, char **argv) {
    uint32_t n[NUMBERS], answer;
    struct bytes text[TEXTS], password;
    size_t words_len;
    uint64_t *words;
    uint8_t *tag;
    int i;

    if (argc != 1 + NUMBERS + TEXTS) return fail("nine words are wanted");
    for (i = 0; i < NUMBERS; i++)
        if (!from_decimal(argv[1 + i], &n[i])) return fail("a number of 32 bits is wanted");
    for (i = 0; i < TEXTS; i++)
        if (!from_hex(argv[1 + NUMBERS + i], &text[i])) return fail("hex is wanted");
    if (!read_all(stdin, &password)) return fail("the password cannot be read");
    words_len = n[2] > CRABULEDDA_MAX_MEMORY || n[4] > CRABULEDDA_MAX_LANES ? 0 : crabuledda_words(n[2], n[4]);
    words = lend(words_len, 0);
    tag = malloc((size_t)n[5] + 1);
    if (words == NULL || tag == NULL) return fail("no memory to lend");
    answer = crabuledda_hash(n[0], n[1], n[2], n[3], n[4], CRABULEDDA_NOT_CONFIGURED, password.at, password.count,
                             text[0].at, text[0].count, text[1].at, text[1].count, text[2].at, text[2].count,
                             words, words_len, tag, n[5]);
    if (answer != CRABULEDDA_ACCEPTED) {
        printf("refused %u\n", (unsigned)answer);
        return 1;
    }
    print_hex(stdout, tag, n[5]);
    putchar('\n');
    return 0;
}
