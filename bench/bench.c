/* Measures the proved functions. Each line of standard input is a command; each answer is one line of nanoseconds.
 *   hash       processor time of one whole hash, memory cleared before it
 *   compress   processor time of one compression, of a thousand chained ones
 *   pause      time that a caller waits for one whole hash over memory that was never touched
 *   steps      the same for start and for each step: the longest, the median, and how many there were
 */
#define _GNU_SOURCE
#include "../host/crabuledda.h"
#include <stdio.h>
#include <stdlib.h>
#include <string.h>
#include <sys/mman.h>
#include <time.h>

enum { PASSES = 3, LANES = 4, TAG = 32, MEMORY = 65536, CHAIN = 1000, JOB = 64 };

uint64_t bench_compress(uint64_t n);
uint32_t bench_start(uint32_t memory, uint32_t passes, uint32_t lanes, uint64_t *words, size_t words_len, uint64_t *job, size_t job_len);
uint32_t bench_step(uint64_t *words, size_t words_len, uint64_t *job, size_t job_len, uint32_t lane);

static uint64_t now(clockid_t clock) {
    struct timespec t;
    clock_gettime(clock, &t);
    return (uint64_t)t.tv_sec * 1000000000u + (uint64_t)t.tv_nsec;
}

/* Memory that no one has touched yet. */
static uint64_t *untouched(size_t words) {
    void *at = mmap(NULL, words * sizeof(uint64_t), PROT_READ | PROT_WRITE, MAP_PRIVATE | MAP_ANONYMOUS, -1, 0);
    if (at == MAP_FAILED) exit(2);
    return at;
}

static void hash(uint64_t *words, size_t words_len) {
    static const uint8_t password[] = "password", salt[] = "somesalt";
    uint8_t tag[TAG];
    if (crabuledda_hash(CRABULEDDA_ARGON2ID, CRABULEDDA_VERSION_0X13, MEMORY, PASSES, LANES, CRABULEDDA_NOT_CONFIGURED,
                        password, 8, salt, 8, NULL, 0, NULL, 0, words, words_len, tag, TAG) != CRABULEDDA_ACCEPTED)
        exit(2);
}

static int by_size(const void *a, const void *b) {
    uint64_t x = *(const uint64_t *)a, y = *(const uint64_t *)b;
    return (x > y) - (x < y);
}

/* Start and every step, each timed; lanes take turns. */
static void steps(uint64_t *words, size_t words_len) {
    size_t room = (size_t)PASSES * MEMORY + 1, taken = 0;
    uint64_t job[JOB], *times = malloc(room * sizeof *times), began;
    uint32_t lane = 0, answer;
    if (times == NULL) exit(2);
    began = now(CLOCK_MONOTONIC);
    if (bench_start(MEMORY, PASSES, LANES, words, words_len, job, JOB) != CRABULEDDA_ACCEPTED) exit(2);
    times[taken++] = now(CLOCK_MONOTONIC) - began;
    for (;;) {
        began = now(CLOCK_MONOTONIC);
        answer = bench_step(words, words_len, job, JOB, lane);
        if (answer == 18) break;
        if (answer == 0 && taken < room) times[taken++] = now(CLOCK_MONOTONIC) - began;
        lane = (lane + 1) % LANES;
    }
    qsort(times, taken, sizeof *times, by_size);
    printf("%llu %llu %llu\n", (unsigned long long)times[taken - 1], (unsigned long long)times[taken / 2], (unsigned long long)taken);
    free(times);
}

int main(void) {
    size_t words_len = crabuledda_words(MEMORY, LANES);
    uint64_t *kept = untouched(words_len), *fresh, began;
    char line[32];
    while (fgets(line, sizeof line, stdin) != NULL) {
        if (strcmp(line, "hash\n") == 0) {
            memset(kept, 0, words_len * sizeof *kept);
            began = now(CLOCK_PROCESS_CPUTIME_ID);
            hash(kept, words_len);
            printf("%llu\n", (unsigned long long)(now(CLOCK_PROCESS_CPUTIME_ID) - began));
        } else if (strcmp(line, "compress\n") == 0) {
            began = now(CLOCK_PROCESS_CPUTIME_ID);
            kept[0] = bench_compress(CHAIN);
            printf("%llu\n", (unsigned long long)(now(CLOCK_PROCESS_CPUTIME_ID) - began) / CHAIN);
        } else {
            fresh = untouched(words_len);
            if (strcmp(line, "pause\n") == 0) {
                began = now(CLOCK_MONOTONIC);
                hash(fresh, words_len);
                printf("%llu\n", (unsigned long long)(now(CLOCK_MONOTONIC) - began));
            } else {
                steps(fresh, words_len);
            }
            munmap(fresh, words_len * sizeof *fresh);
        }
        fflush(stdout);
    }
    return 0;
}
