#include "common.h"
#include <stdlib.h>
#include <string.h>

void print_hex(FILE *file, const uint8_t *bytes, size_t count) {
    size_t i;
    for (i = 0; i < count; i++) fprintf(file, "%02x", (unsigned)bytes[i]);
}

static int digit(char c) {
    if (c >= '0' && c <= '9') return c - '0';
    if (c >= 'a' && c <= 'f') return c - 'a' + 10;
    if (c >= 'A' && c <= 'F') return c - 'A' + 10;
    return -1;
}

int from_hex(const char *text, struct bytes *bytes) {
    size_t i, digits = strcmp(text, "-") == 0 ? 0 : strlen(text);
    if (digits % 2 != 0) return 0;
    bytes->count = digits / 2;
    bytes->at = malloc(bytes->count + 1);
    if (bytes->at == NULL) return 0;
    for (i = 0; i < bytes->count; i++) {
        int high = digit(text[2 * i]), low = digit(text[2 * i + 1]);
        if (high < 0 || low < 0) return 0;
        bytes->at[i] = (uint8_t)(16 * high + low);
    }
    return 1;
}

int read_all(FILE *file, struct bytes *bytes) {
    size_t room = 4096, got;
    bytes->count = 0;
    bytes->at = malloc(room);
    while (bytes->at != NULL) {
        got = fread(bytes->at + bytes->count, 1, room - bytes->count, file);
        bytes->count += got;
        if (got == 0) return !ferror(file);
        if (bytes->count == room) bytes->at = realloc(bytes->at, room *= 2);
    }
    return 0;
}

int from_decimal(const char *text, uint32_t *number) {
    uint64_t sum = 0;
    const char *at = text;
    for (; *at >= '0' && *at <= '9'; at++) {
        sum = 10 * sum + (uint64_t)(*at - '0');
        if (sum > UINT32_MAX) return 0;
    }
    *number = (uint32_t)sum;
    return at != text && *at == 0;
}

uint64_t pattern(uint64_t seed, size_t i) {
    uint64_t z;
    if (seed == 0) return 0;
    z = seed + ((uint64_t)i + 1) * 0x9e3779b97f4a7c15u;
    z = (z ^ (z >> 30)) * 0xbf58476d1ce4e5b9u;
    z = (z ^ (z >> 27)) * 0x94d049bb133111ebu;
    return z ^ (z >> 31);
}

uint64_t *lend(size_t count, uint64_t seed) {
    uint64_t *words = calloc(count + 1, sizeof *words);
    size_t i;
    if (words != NULL && seed != 0)
        for (i = 0; i < count; i++) words[i] = pattern(seed, i);
    return words;
}
