/*
 * kothaysu.h: the light client. It checks bytes for a caller who trusts only
 * the stakes of a committee and the seals that it accepts itself.
 *
 * Who owns what: every pointer is the caller's. Inputs are read during the call
 * and not after it; outputs are written during the call and not after it. The
 * library keeps nothing between calls, so calls may run on any threads at once.
 * It takes memory by malloc and gives all of it back before it returns.
 *
 * What a caller owes: no pointer is NULL, even if the length beside it is 0
 * (then any address will do); a pointer is aligned as its type asks; so many
 * items as its length says are there; and no output overlaps another output or
 * an input. Of the bytes of inputs nothing is asked.
 *
 * Each call fills a kothaysu_answer and returns its code. Outputs other than the
 * answer are written only if the code is KOTHAYSU_OK.
 *
 * Of a chain, a certificate or a list at most 16,777,216 bytes are read; more
 * are KOTHAYSU_TOO_LARGE. How values are written as bytes: docs/FORMATS.md.
 */
#ifndef KOTHAYSU_H
#define KOTHAYSU_H

#include <stddef.h>
#include <stdint.h>

#ifdef __cplusplus
extern "C" {
#endif

/* 10,000 for each major version, 100 for each minor one, 1 for each patch. */
#define KOTHAYSU_VERSION 100

/* The bytes of one input, at most. */
#define KOTHAYSU_MOST_BYTES 16777216

/* The codes of an answer, with what its numbers mean. */
enum kothaysu_code {
    KOTHAYSU_OK = 0,
    /* Memory was refused. The same call may be made again. */
    KOTHAYSU_OUT_OF_MEMORY = 1,
    KOTHAYSU_TOO_LARGE = 2,
    /* first: the offset of the first wrong byte; cause: 1 the input ends
     * inside the item, 2 a bool byte is neither 0 nor 1, 3 a ULEB128 of more
     * than one byte ends in a zero byte, 4 the fifth byte of a ULEB128 is above
     * 0x0f, 5 a length is above 2147483647, 6 there is no variant of this
     * number, 7 bytes are left over. */
    KOTHAYSU_MALFORMED = 3,
    /* cause: 1 there are no stakes, 2 there are more than 64, 3 a stake is
     * zero, which is that of the member in first. */
    KOTHAYSU_NO_COMMITTEE = 4,
    /* first: the first bad link, counted from 0; cause: 1 another number,
     * 2 another parent, 3 another epoch, 4 members that do not ascend or are not
     * known, 5 no quorum, 6 a seal that is not accepted. */
    KOTHAYSU_BAD_LINK = 5,
    KOTHAYSU_NOT_INCLUDED = 6,
    /* cause: the fault of the transaction's shape, 1 to 12, or 13 if there is
     * not one origin for each object (docs/REPORTS.md). */
    KOTHAYSU_SHAPE = 7,
    /* The members do not ascend, repeat, or are not known. */
    KOTHAYSU_ORDER = 8,
    /* first: the stake of the members; second: that of all. */
    KOTHAYSU_SHORT_STAKE = 9,
    /* first: the first member whose seal is not accepted. */
    KOTHAYSU_BAD_SEAL = 10,
    /* first: the first statement that is not an acknowledgement, counted
     * from 0. */
    KOTHAYSU_NO_ACKNOWLEDGEMENT = 11,
    /* first: the first member; second: the first other one that acknowledges
     * something else. */
    KOTHAYSU_DIFFER = 12,
    /* The certificates are not of two transactions of one epoch that consume
     * one version. */
    KOTHAYSU_NO_RIVALS = 13,
    /* A buffer has too little room; first, and second for the second buffer,
     * say what is wanted. */
    KOTHAYSU_SHORT_BUFFER = 14
};

typedef struct {
    uint32_t code;
    uint32_t cause;
    uint64_t first;
    uint64_t second;
} kothaysu_answer;

/* A digest, a seal or a secret. */
typedef struct {
    uint8_t bytes[32];
} kothaysu_bytes32;

/* A seal of a member on a statement: so many bytes from an offset on in the
 * statements beside the rows. What lies beyond their end is not there. */
typedef struct {
    uint64_t at;
    uint64_t length;
    uint32_t member;
    uint8_t seal[32];
} kothaysu_seal;

typedef struct {
    uint64_t epoch;
    kothaysu_bytes32 tx;
    kothaysu_bytes32 effects;
} kothaysu_final;

typedef struct {
    kothaysu_bytes32 id;
    uint64_t version;
} kothaysu_object_version;

/* KOTHAYSU_VERSION of the header that belongs to the library. */
uint32_t kothaysu_version(void);

/*
 * The seals that bytes have, to be verified one by one by the caller. Code 0:
 * the buffers begin with rows and with the statements that they name; first is
 * the number of rows, second that of the statements' bytes. Called without
 * room (of 0) it answers KOTHAYSU_SHORT_BUFFER with both numbers, unless there
 * are no seals. Also KOTHAYSU_TOO_LARGE and KOTHAYSU_MALFORMED.
 */
uint32_t kothaysu_chain_seals(const uint8_t *chain, size_t chain_length, kothaysu_seal *seals, size_t seals_room,
                              uint8_t *statements, size_t statements_room, kothaysu_answer *answer);
uint32_t kothaysu_certificate_seals(const uint8_t *certificate, size_t certificate_length, kothaysu_seal *seals,
                                    size_t seals_room, uint8_t *statements, size_t statements_room,
                                    kothaysu_answer *answer);
/* The same of a list of sealed statements. */
uint32_t kothaysu_final_seals(const uint8_t *acknowledgements, size_t acknowledgements_length, kothaysu_seal *seals,
                              size_t seals_room, uint8_t *statements, size_t statements_room,
                              kothaysu_answer *answer);

/*
 * Whether a chain of checkpoints is certified by the committee of these stakes.
 * A seal is accepted if it is among the accepted ones: those of the rows that
 * kothaysu_chain_seals gave which the caller has verified. In that order a
 * look-up costs one step. Code 0: first is the number of links. Also
 * KOTHAYSU_NO_COMMITTEE, KOTHAYSU_TOO_LARGE, KOTHAYSU_MALFORMED and
 * KOTHAYSU_BAD_LINK.
 */
uint32_t kothaysu_check_chain(const uint32_t *stakes, size_t members, const uint8_t *chain, size_t chain_length,
                              const kothaysu_seal *accepted, size_t accepted_count, const uint8_t *statements,
                              size_t statements_length, kothaysu_answer *answer);
/* The same, if the keyed seal under a secret is what is accepted. */
uint32_t kothaysu_check_chain_keyed(const uint32_t *stakes, size_t members, const uint8_t *chain, size_t chain_length,
                                    const kothaysu_bytes32 *secret, kothaysu_answer *answer);

/*
 * The first checkpoint of a chain that lists a transaction. Code 0: first is
 * its number, and effects is the digest of the transaction's effects there. It
 * does not tell whether the chain is certified. Also KOTHAYSU_TOO_LARGE,
 * KOTHAYSU_MALFORMED and KOTHAYSU_NOT_INCLUDED.
 */
uint32_t kothaysu_find_transaction(const uint8_t *chain, size_t chain_length, const kothaysu_bytes32 *tx,
                                   kothaysu_bytes32 *effects, kothaysu_answer *answer);

/*
 * Whether a certificate is valid for the committee of these stakes. Code 0:
 * first is its epoch, and tx is the digest of its transaction. Also
 * KOTHAYSU_NO_COMMITTEE, KOTHAYSU_TOO_LARGE, KOTHAYSU_MALFORMED, KOTHAYSU_SHAPE,
 * KOTHAYSU_ORDER, KOTHAYSU_SHORT_STAKE and KOTHAYSU_BAD_SEAL.
 */
uint32_t kothaysu_check_certificate(const uint32_t *stakes, size_t members, const uint8_t *certificate,
                                    size_t certificate_length, const kothaysu_seal *accepted, size_t accepted_count,
                                    const uint8_t *statements, size_t statements_length, kothaysu_bytes32 *tx,
                                    kothaysu_answer *answer);
uint32_t kothaysu_check_certificate_keyed(const uint32_t *stakes, size_t members, const uint8_t *certificate,
                                          size_t certificate_length, const kothaysu_bytes32 *secret,
                                          kothaysu_bytes32 *tx, kothaysu_answer *answer);

/*
 * What a quorum of the committee acknowledges in a list of sealed statements,
 * whose members ascend. Code 0: found is filled. Also KOTHAYSU_NO_COMMITTEE,
 * KOTHAYSU_TOO_LARGE, KOTHAYSU_MALFORMED, KOTHAYSU_NO_ACKNOWLEDGEMENT,
 * KOTHAYSU_ORDER, KOTHAYSU_SHORT_STAKE, KOTHAYSU_DIFFER and KOTHAYSU_BAD_SEAL.
 */
uint32_t kothaysu_check_final(const uint32_t *stakes, size_t members, const uint8_t *acknowledgements,
                              size_t acknowledgements_length, const kothaysu_seal *accepted, size_t accepted_count,
                              const uint8_t *statements, size_t statements_length, kothaysu_final *found,
                              kothaysu_answer *answer);
uint32_t kothaysu_check_final_keyed(const uint32_t *stakes, size_t members, const uint8_t *acknowledgements,
                                    size_t acknowledgements_length, const kothaysu_bytes32 *secret,
                                    kothaysu_final *found, kothaysu_answer *answer);

/*
 * The digest of a transaction, an object, or the effects of a transaction. Code
 * 0: digest is filled. Also KOTHAYSU_TOO_LARGE and KOTHAYSU_MALFORMED.
 */
uint32_t kothaysu_transaction_digest(const uint8_t *bytes, size_t length, kothaysu_bytes32 *digest,
                                     kothaysu_answer *answer);
uint32_t kothaysu_object_digest(const uint8_t *bytes, size_t length, kothaysu_bytes32 *digest,
                                kothaysu_answer *answer);
uint32_t kothaysu_effects_digest(const uint8_t *bytes, size_t length, kothaysu_bytes32 *digest,
                                 kothaysu_answer *answer);

/*
 * Who sealed two certificates of two transactions of one epoch that consume one
 * version. Code 0: members begins with the members who sealed both, first is
 * their number, and version is the first version that both consume. It does not
 * tell whether the certificates are valid; if both are, none of these members is
 * honest, unless a seal is forged or digests collide. Also KOTHAYSU_TOO_LARGE, KOTHAYSU_MALFORMED (of the
 * first certificate, and then of the second), KOTHAYSU_NO_RIVALS and
 * KOTHAYSU_SHORT_BUFFER.
 */
uint32_t kothaysu_blame(const uint8_t *one, size_t one_length, const uint8_t *other, size_t other_length,
                        uint32_t *members, size_t members_room, kothaysu_object_version *version,
                        kothaysu_answer *answer);

#ifdef __cplusplus
}
#endif

#endif
