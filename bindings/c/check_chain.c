/*
 * Whether a file holds a certified chain, and in which checkpoint a transaction
 * stands.
 *
 * usage: check_chain STAKE,STAKE,.. DIGEST < CHAIN
 *
 * The seals are the keyed ones of the program `committee`, whose secret is 32
 * bytes of hexadecimal 5a. It says what `committee check` says, and ends with its status.
 */
#include <stdio.h>
#include <stdlib.h>
#include <string.h>

#include "kothaysu.h"

static int read_stakes(char *text, uint32_t *stakes)
{
    int count = 0;
    for (char *word = strtok(text, ","); word && count < 64; word = strtok(NULL, ","))
        stakes[count++] = (uint32_t)strtoul(word, NULL, 10);
    return count;
}

static int read_digest(const char *text, kothaysu_bytes32 *digest)
{
    for (int i = 0; i < 32; i++) {
        unsigned byte;
        if (sscanf(text + 2 * i, "%2x", &byte) != 1)
            return 0;
        digest->bytes[i] = (uint8_t)byte;
    }
    return text[64] == 0;
}

int main(int count, char **words)
{
    static uint8_t chain[KOTHAYSU_MOST_BYTES + 1];
    uint32_t stakes[64];
    kothaysu_bytes32 tx, effects, secret;
    kothaysu_answer answer;

    if (count != 3 || strlen(words[2]) != 64 || !read_digest(words[2], &tx)) {
        fprintf(stderr, "usage: check_chain STAKE,STAKE,.. DIGEST < CHAIN\n");
        return 2;
    }
    memset(secret.bytes, 0x5a, sizeof secret.bytes);
    int members = read_stakes(words[1], stakes);
    size_t length = fread(chain, 1, sizeof chain, stdin);
    switch (kothaysu_check_chain_keyed(stakes, (size_t)members, chain, length, &secret, &answer)) {
    case KOTHAYSU_OK:
        printf("certified %llu ", (unsigned long long)answer.first);
        if (kothaysu_find_transaction(chain, length, &tx, &effects, &answer) == KOTHAYSU_OK)
            printf("included in %llu\n", (unsigned long long)answer.first);
        else
            printf("not included\n");
        return 0;
    case KOTHAYSU_TOO_LARGE:
        printf("refused too large\n");
        return 8;
    case KOTHAYSU_MALFORMED:
        printf("refused malformed at %llu why %u\n", (unsigned long long)answer.first, answer.cause);
        return 8;
    case KOTHAYSU_BAD_LINK:
        printf("refused link %llu cause %u\n", (unsigned long long)answer.first, answer.cause);
        return 8;
    case KOTHAYSU_NO_COMMITTEE:
        fprintf(stderr, "the stakes are not a committee\n");
        return 2;
    default:
        return 7;
    }
}
