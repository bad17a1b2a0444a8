/* What a controller does on the hour: lend memory, derive the key of the link to the historian, look at the
 * answer, and clear the password. The memory is allocated once, touched before the pumps run, and kept. */
#include "crabuledda.h"
#include <stdio.h>
#include <stdlib.h>
#include <string.h>

enum { MEMORY = 1024, PASSES = 3, LANES = 4, KEY = 32 };

/* Clears bytes so that the compiler may not leave it out. */
static void clear(volatile uint8_t *bytes, size_t count) {
    while (count > 0) bytes[--count] = 0;
}

int main(void) {
    static const char link[] = "station 7, line 2";
    uint8_t password[] = "correct horse battery staple";
    uint8_t salt[16] = {1, 2, 3, 4, 5, 6, 7, 8, 9, 10, 11, 12, 13, 14, 15, 16};
    uint8_t key[KEY];
    size_t words_len = crabuledda_words(MEMORY, LANES);
    uint64_t *words = malloc(words_len * sizeof *words);
    uint32_t answer;
    size_t i;

    if (words == NULL) {
        fputs("controller: no memory to lend\n", stderr);
        return 1;
    }
    for (i = 0; i < words_len; i++) words[i] = 0; /* the pages are there before the first call */
    answer = crabuledda_hash(CRABULEDDA_ARGON2ID, CRABULEDDA_VERSION_0X13, MEMORY, PASSES, LANES,
                             CRABULEDDA_NOT_CONFIGURED, password, sizeof password - 1, salt, sizeof salt,
                             NULL, 0, (const uint8_t *)link, strlen(link), words, words_len, key, sizeof key);
    clear(password, sizeof password);
    free(words);
    if (answer != CRABULEDDA_ACCEPTED) {
        fprintf(stderr, "controller: refused %u\n", (unsigned)answer);
        return 1;
    }
    printf("key ");
    for (i = 0; i < sizeof key; i++) printf("%02x", (unsigned)key[i]);
    putchar('\n');
    clear(key, sizeof key);
    return 0;
}
