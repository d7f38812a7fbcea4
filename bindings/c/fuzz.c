/*
 * Alters an input in every place and says what the library answers.
 *
 * usage: fuzz chain|certificate|final|transaction|object|effects STAKE,STAKE,.. < GOOD
 *        fuzz blame FILE < GOOD
 *
 * The input, as it is, with each of its bytes altered in six ways, and cut at each
 * place, is put in front of a page that nobody may touch, and so is each output
 * buffer. Of each one line is written: the place, the byte that stands there now
 * or -1 for a cut, and the code, cause, first and second of the answer. Where
 * seals are checked that is the answer of the keyed form, and behind it stands the
 * code of the form by a set that has every seal which the input lists.
 *
 * It ends with status 1 where an output is written at a code other than 0.
 */
#define _DEFAULT_SOURCE
#include <stdio.h>
#include <stdlib.h>
#include <string.h>
#include <sys/mman.h>
#include <unistd.h>

#include "kothaysu.h"

#define MOST 65536

static uint32_t stakes[64];
static size_t members;
static kothaysu_bytes32 secret;
static uint8_t other[MOST];
static size_t other_length;
static int bad;

/* So many bytes that end where a page without access begins. */
static void *at_the_end(size_t length)
{
    size_t page = (size_t)sysconf(_SC_PAGESIZE);
    size_t room = (length + page) / page * page;
    uint8_t *at = mmap(NULL, room + page, PROT_READ | PROT_WRITE, MAP_PRIVATE | MAP_ANONYMOUS, -1, 0);
    if (at == MAP_FAILED || mprotect(at + room, page, PROT_NONE) != 0) {
        perror("mmap");
        exit(2);
    }
    return at + room - length;
}

static void give_back(void *at, size_t length)
{
    size_t page = (size_t)sysconf(_SC_PAGESIZE);
    size_t room = (length + page) / page * page;
    munmap((uint8_t *)at + length - room, room + page);
}

/* Whether bytes are all 0xee, as they were before the call. */
static int untouched(const uint8_t *bytes, size_t length)
{
    for (size_t i = 0; i < length; i++)
        if (bytes[i] != 0xee)
            return 0;
    return 1;
}

typedef uint32_t listing(const uint8_t *, size_t, kothaysu_seal *, size_t, uint8_t *, size_t, kothaysu_answer *);

/* The seals that an input has, in buffers of exactly the room that is wanted. */
static kothaysu_seal *list(listing *call, const uint8_t *input, size_t length, uint8_t **statements, kothaysu_answer *wanted)
{
    kothaysu_answer answer;
    kothaysu_seal *rows = at_the_end(0);
    *statements = at_the_end(0);
    call(input, length, rows, 0, *statements, 0, wanted);
    give_back(rows, 0);
    give_back(*statements, 0);
    if (wanted->code != KOTHAYSU_SHORT_BUFFER && wanted->code != KOTHAYSU_OK)
        wanted->first = wanted->second = 0;
    size_t rows_size = (size_t)wanted->first * sizeof *rows;
    rows = at_the_end(rows_size);
    *statements = at_the_end((size_t)wanted->second);
    call(input, length, rows, (size_t)wanted->first, *statements, (size_t)wanted->second, &answer);
    if (answer.code == KOTHAYSU_SHORT_BUFFER || (wanted->code == KOTHAYSU_SHORT_BUFFER && answer.code != KOTHAYSU_OK))
        bad = 1;
    return rows;
}

static uint32_t ask_chain(const uint8_t *input, size_t length, kothaysu_answer *answer)
{
    kothaysu_answer wanted, by_set;
    uint8_t *statements;
    kothaysu_seal *rows = list(kothaysu_chain_seals, input, length, &statements, &wanted);
    kothaysu_check_chain(stakes, members, input, length, rows, (size_t)wanted.first, statements, (size_t)wanted.second, &by_set);
    kothaysu_check_chain_keyed(stakes, members, input, length, &secret, answer);
    give_back(rows, (size_t)wanted.first * sizeof *rows);
    give_back(statements, (size_t)wanted.second);
    return by_set.code;
}

static uint32_t ask_certificate(const uint8_t *input, size_t length, kothaysu_answer *answer)
{
    kothaysu_answer wanted, by_set;
    kothaysu_bytes32 *tx = at_the_end(sizeof *tx);
    uint8_t *statements;
    kothaysu_seal *rows = list(kothaysu_certificate_seals, input, length, &statements, &wanted);
    kothaysu_check_certificate(stakes, members, input, length, rows, (size_t)wanted.first, statements, (size_t)wanted.second, tx, &by_set);
    memset(tx, 0xee, sizeof *tx);
    kothaysu_check_certificate_keyed(stakes, members, input, length, &secret, tx, answer);
    bad |= answer->code != KOTHAYSU_OK && !untouched(tx->bytes, sizeof *tx);
    give_back(rows, (size_t)wanted.first * sizeof *rows);
    give_back(statements, (size_t)wanted.second);
    give_back(tx, sizeof *tx);
    return by_set.code;
}

static uint32_t ask_final(const uint8_t *input, size_t length, kothaysu_answer *answer)
{
    kothaysu_answer wanted, by_set;
    kothaysu_final *found = at_the_end(sizeof *found);
    uint8_t *statements;
    kothaysu_seal *rows = list(kothaysu_final_seals, input, length, &statements, &wanted);
    kothaysu_check_final(stakes, members, input, length, rows, (size_t)wanted.first, statements, (size_t)wanted.second, found, &by_set);
    memset(found, 0xee, sizeof *found);
    kothaysu_check_final_keyed(stakes, members, input, length, &secret, found, answer);
    bad |= answer->code != KOTHAYSU_OK && !untouched((uint8_t *)found, sizeof *found);
    give_back(rows, (size_t)wanted.first * sizeof *rows);
    give_back(statements, (size_t)wanted.second);
    give_back(found, sizeof *found);
    return by_set.code;
}

typedef uint32_t digesting(const uint8_t *, size_t, kothaysu_bytes32 *, kothaysu_answer *);

static uint32_t ask_digest(digesting *call, const uint8_t *input, size_t length, kothaysu_answer *answer)
{
    kothaysu_bytes32 *digest = at_the_end(sizeof *digest);
    memset(digest, 0xee, sizeof *digest);
    call(input, length, digest, answer);
    bad |= answer->code != KOTHAYSU_OK && !untouched(digest->bytes, sizeof *digest);
    give_back(digest, sizeof *digest);
    return answer->code;
}

static uint32_t ask_blame(const uint8_t *input, size_t length, kothaysu_answer *answer)
{
    kothaysu_object_version version;
    uint32_t *found = at_the_end(0);
    kothaysu_blame(other, other_length, input, length, found, 0, &version, answer);
    give_back(found, 0);
    if (answer->code != KOTHAYSU_SHORT_BUFFER)
        return answer->code;
    size_t room = (size_t)answer->first;
    found = at_the_end(room * sizeof *found);
    kothaysu_blame(other, other_length, input, length, found, room, &version, answer);
    give_back(found, room * sizeof *found);
    return answer->code;
}

static uint32_t ask(const char *what, const uint8_t *input, size_t length, kothaysu_answer *answer)
{
    if (strcmp(what, "chain") == 0)
        return ask_chain(input, length, answer);
    if (strcmp(what, "certificate") == 0)
        return ask_certificate(input, length, answer);
    if (strcmp(what, "final") == 0)
        return ask_final(input, length, answer);
    if (strcmp(what, "transaction") == 0)
        return ask_digest(kothaysu_transaction_digest, input, length, answer);
    if (strcmp(what, "object") == 0)
        return ask_digest(kothaysu_object_digest, input, length, answer);
    if (strcmp(what, "effects") == 0)
        return ask_digest(kothaysu_effects_digest, input, length, answer);
    return ask_blame(input, length, answer);
}

/* One input: the good one with a byte altered, or cut there (-1), or as it is (-2). */
static void try_one(const char *what, const uint8_t *good, size_t length, size_t place, int byte)
{
    kothaysu_answer answer = {99, 0, 0, 0};
    size_t size = byte == -1 ? place : length;
    uint8_t *input = at_the_end(size);
    memcpy(input, good, size);
    if (byte >= 0)
        input[place] = (uint8_t)byte;
    uint32_t by_set = ask(what, input, size, &answer);
    printf("%zu %d %u %u %llu %llu %u\n", place, byte, answer.code, answer.cause, (unsigned long long)answer.first,
           (unsigned long long)answer.second, by_set);
    give_back(input, size);
}

static void read_words(int count, char **words)
{
    memset(secret.bytes, 0x5a, sizeof secret.bytes);
    if (count == 3 && strcmp(words[1], "blame") == 0) {
        FILE *file = fopen(words[2], "rb");
        if (!file) {
            perror(words[2]);
            exit(2);
        }
        other_length = fread(other, 1, sizeof other, file);
        fclose(file);
    } else if (count == 3) {
        for (char *word = strtok(words[2], ","); word && members < 64; word = strtok(NULL, ","))
            stakes[members++] = (uint32_t)strtoul(word, NULL, 10);
    } else {
        fprintf(stderr, "usage: fuzz chain|certificate|final|transaction|object|effects STAKE,STAKE,.. < GOOD\n"
                        "       fuzz blame FILE < GOOD\n");
        exit(2);
    }
}

int main(int count, char **words)
{
    static uint8_t good[MOST];
    static const int ways[] = {0x01, 0x02, 0x04, 0x10, 0x80, 0xff};

    read_words(count, words);
    size_t length = fread(good, 1, sizeof good, stdin);
    try_one(words[1], good, length, 0, -2);
    for (size_t place = 0; place < length; place++) {
        for (size_t way = 0; way < sizeof ways / sizeof *ways; way++)
            try_one(words[1], good, length, place, good[place] ^ ways[way]);
        try_one(words[1], good, length, place, -1);
    }
    return bad;
}
