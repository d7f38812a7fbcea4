/*
 * Refuses memory at each allocation in turn, and says what the library answers.
 *
 * usage: refuse chain|certificate|final|transaction|effects STAKE,STAKE,.. < GOOD
 *
 * It is linked with malloc, realloc and free wrapped. The n-th allocation is refused,
 * alone and then with all that follow, for each n until none is; each time the code is
 * 1 or 0, and all memory is given back. It writes how many allocations there are and
 * how often each code came, and ends with status 1 where that does not hold.
 */
#include <stdio.h>
#include <stdlib.h>
#include <string.h>

#include "kothaysu.h"

#define MOST 65536

void *__real_malloc(size_t size);
void *__real_realloc(void *at, size_t size);
void __real_free(void *at);

static long calls, refused_from, alive;
static int and_later;

static int is_refused(void)
{
    calls++;
    return refused_from && (calls == refused_from || (and_later && calls > refused_from));
}

void *__wrap_malloc(size_t size)
{
    void *at = is_refused() ? NULL : __real_malloc(size);
    alive += at != NULL;
    return at;
}

void *__wrap_realloc(void *at, size_t size)
{
    void *moved = is_refused() ? NULL : __real_realloc(at, size);
    alive += at == NULL && moved != NULL;
    return moved;
}

void __wrap_free(void *at)
{
    alive -= at != NULL;
    __real_free(at);
}

static uint32_t ask(const char *what, const uint32_t *stakes, size_t members, const uint8_t *input, size_t length)
{
    kothaysu_answer answer;
    kothaysu_bytes32 secret, digest;
    kothaysu_final found;

    memset(secret.bytes, 0x5a, sizeof secret.bytes);
    if (strcmp(what, "chain") == 0)
        return kothaysu_check_chain_keyed(stakes, members, input, length, &secret, &answer);
    if (strcmp(what, "certificate") == 0)
        return kothaysu_check_certificate_keyed(stakes, members, input, length, &secret, &digest, &answer);
    if (strcmp(what, "final") == 0)
        return kothaysu_check_final_keyed(stakes, members, input, length, &secret, &found, &answer);
    if (strcmp(what, "transaction") == 0)
        return kothaysu_transaction_digest(input, length, &digest, &answer);
    return kothaysu_effects_digest(input, length, &digest, &answer);
}

int main(int count, char **words)
{
    static uint8_t input[MOST];
    uint32_t stakes[64];
    size_t members = 0;
    long codes[2] = {0, 0}, most = 0;
    int bad = 0;

    if (count != 3) {
        fprintf(stderr, "usage: refuse chain|certificate|final|transaction|effects STAKE,STAKE,.. < GOOD\n");
        return 2;
    }
    for (char *word = strtok(words[2], ","); word && members < 64; word = strtok(NULL, ","))
        stakes[members++] = (uint32_t)strtoul(word, NULL, 10);
    size_t length = fread(input, 1, sizeof input, stdin);
    for (and_later = 0; and_later < 2; and_later++)
        for (refused_from = 1;; refused_from++) {
            long before = alive;
            calls = 0;
            uint32_t code = ask(words[1], stakes, members, input, length);
            bad |= code > 1 || alive != before;
            if (calls < refused_from) {
                bad |= code != 0;
                most = calls;
                break;
            }
            codes[code & 1]++;
        }
    refused_from = 0;
    printf("allocations %ld whole %ld refused %ld\n", most, codes[0], codes[1]);
    return bad || codes[1] == 0;
}
