/*
 * mb_library.h: signatures of LMS and HSS (RFC 8554, SHA-256), and chains of certificates, verified by proved code.
 *
 * Each call answers exactly what its comment says, for all bytes at its pointers: crates/mb_library has the contracts.
 * No proof covers the caller. Of each call it guarantees:
 *
 * - Pointers. A pointer with a length names that many bytes, and one to an array or to a struct the whole of it. They
 *   can be read, and those that are not const written; nobody else writes them during the call, not even a device. No
 *   pointer is null, not even with length 0, and no length reaches 2^63. What is written overlaps nothing else that the
 *   call is given. Bytes may stand at any address, and a struct is aligned.
 * - Stack. 8 KiB for signatures, and 64 KiB for those of chains. Nothing checks that it is there.
 * - Calling convention. That of the System V ABI for x86-64: so the stack is aligned to 16 bytes, and the code may keep
 *   values in the 128 bytes below the stack pointer, the red zone. A system that serves interrupts on the stack which
 *   they interrupt must not serve any during a call. Code that is built with `--backend rattle` keeps nothing there.
 * - Processor. The archive mb_library is built for x86-64-v2 (SSE4.2), and mb_library_v3, which is faster, for x86-64-v3
 *   (AVX2, BMI2). Neither checks for it. Built with `--cpu x86-64`, mb_library runs on any x86-64. All use SSE registers,
 *   and mb_library_v3 AVX registers, so what has no operating system enables them first.
 * - Memory. Calls for chains take memory by rattle_alloc, rattle_realloc and rattle_dealloc, and have given all of it
 *   back when they return. The archive has these three over malloc, realloc and free, which come from one
 *   allocator and align to 16. A program without malloc defines the three itself: examples/library has them. So these
 *   calls stand in no signal handler, and in no forked child of a process with threads.
 * - Threads. Nothing is kept from one call to the next, so any number of calls may run at once.
 *
 * Of a C library the calls need memcpy, memmove and memset alone, beside that heap. Calls for signatures take no memory:
 * to link a program that makes no other without the heap, add -Wl,--gc-sections.
 *
 * No call takes the same time for all inputs. That tells nothing, since all that they are given is public.
 */
#ifndef MB_LIBRARY_H
#define MB_LIBRARY_H

#include <stdbool.h>
#include <stddef.h>
#include <stdint.h>

#if defined(__GNUC__)
#define MB_MUST_USE __attribute__((warn_unused_result))
#else
#define MB_MUST_USE
#endif

#ifdef __cplusplus
extern "C" {
#endif

/* The version of the library of which this header is. */
#define MB_LIBRARY_VERSION "0.2.0"

/* The length of a public key of LMS and of HSS, and the most bytes of a chain and of a policy. */
#define MB_LMS_KEY_LENGTH 56
#define MB_HSS_KEY_LENGTH 60
#define MB_FILE_LIMIT 4194304

/* What a call answers. */
enum mb_code {
    MB_ACCEPTED = 0,      /* the signature verifies, the chain is accepted, or the policy allows what it says */
    MB_NO_KEY = 1,        /* the bytes of the key spell no key */
    MB_BAD_SIGNATURE = 2, /* the signature is not one of the text under the key */
    MB_TOO_LONG = 3,      /* the chain or the policy has more than MB_FILE_LIMIT bytes */
    MB_NO_MEMORY = 4,     /* an allocation failed; it may come in place of any other code but 1 and 3 */
    MB_NO_ROOM = 5,       /* the chain is accepted, and there is no room for its listing */
    MB_BAD_POLICY = 6,    /* the text of the policy is none */
    MB_DENIED = 7,        /* the chain is accepted, and the policy denies a configuration */

    /* the chain is not accepted: the first check that fails, in this order; 21 to 23 for one entry after another */
    MB_CHAIN_FORM = 20,              /* the bytes are no chain */
    MB_CHAIN_SIGNATURE = 21,         /* an entry is not signed by the key in charge */
    MB_CHAIN_ORDER = 22,             /* an entry is not in its place */
    MB_CHAIN_RULES = 23,             /* an entry breaks the rules of the log */
    MB_CHAIN_KEY_UNKNOWN = 24,       /* no entry makes the key */
    MB_CHAIN_STATEMENT = 25,         /* the statement is not signed by the key */
    MB_CHAIN_STATEMENT_NUMBER = 26,  /* the statement is of another configuration than the chain's last */
    MB_CHAIN_NOT_ALIVE = 27          /* there is a statement, and the key has ended */
};

/* What a call tells beside its code. It writes every field: 0, unless the code is one of those that the field names. */
struct mb_details {
    size_t listing;         /* MB_ACCEPTED of mb_chain_verify, MB_NO_ROOM: the length of the listing */
    uint32_t offset;        /* MB_CHAIN_FORM: of the first field that is wrong, or of the first byte after the last */
    uint32_t entry;         /* MB_CHAIN_SIGNATURE, MB_CHAIN_ORDER, MB_CHAIN_RULES: its index, from 0 */
    uint32_t named;         /* MB_CHAIN_STATEMENT_NUMBER: the configuration number that the statement names */
    uint32_t last;          /* MB_CHAIN_STATEMENT_NUMBER: the configuration number at the chain's end */
    uint32_t line;          /* MB_BAD_POLICY: the number of the first line that is wrong, from 1 */
    uint32_t configuration; /* MB_DENIED: the number of the first configuration that is denied */
};

/* What the statement of a chain says. */
enum mb_saying {
    MB_SAYS_NOTHING = 0, /* the chain has no statement, or is not accepted */
    MB_SAYS_MESSAGE = 1, /* a message, which the host of the device chose */
    MB_SAYS_ANSWER = 2   /* what the code of the key's layer answered to an input, in a call */
};

/* What mb_chain_said tells of the statement. It writes every field: 0 where none is named. */
struct mb_stated {
    uint32_t kind;      /* an mb_saying */
    uint32_t length;    /* of the message or the answer */
    uint8_t input[32];  /* MB_SAYS_ANSWER: the SHA-256 of the input */
    uint8_t bytes[128]; /* the message or the answer, and zeros */
};

/*
 * Whether the signature is one of the text under the LMS key that the 56 bytes spell (RFC 8554, section 5.4.2), for all
 * twenty pairs of types. Bytes that spell no key have no signatures.
 */
MB_MUST_USE bool mb_lms_verify(const uint8_t key[MB_LMS_KEY_LENGTH], const uint8_t *text, size_t text_length,
                               const uint8_t *signature, size_t signature_length);

/*
 * The same for key bytes of any length, with the reason: MB_ACCEPTED, MB_NO_KEY or MB_BAD_SIGNATURE.
 */
MB_MUST_USE uint32_t mb_lms_verdict(const uint8_t *key, size_t key_length, const uint8_t *text, size_t text_length,
                                    const uint8_t *signature, size_t signature_length);

/*
 * Whether the signature is one of the text under the HSS key that the 60 bytes spell, of 1 to 8 levels (RFC 8554,
 * section 6.3). Bytes that spell no key have no signatures.
 */
MB_MUST_USE bool mb_hss_verify(const uint8_t key[MB_HSS_KEY_LENGTH], const uint8_t *text, size_t text_length,
                               const uint8_t *signature, size_t signature_length);

/*
 * Whether the chain is accepted under the maker's key, and what it says of the key with the number `key`: at MB_ACCEPTED
 * the listing stands at the front of `listing`, and its length in details->listing; at any other code nothing is written
 * there. MB_NO_ROOM tells the length that is needed. The other codes are 1, 3, 4 and 20 to 27.
 *
 * Its last line is `statement MESSAGE` for a message, and `called INPUT ANSWER` for the answer of a call: so a program
 * that looks for `statement` takes no answer for a message, and finds no statement in a chain with an answer.
 */
MB_MUST_USE uint32_t mb_chain_verify(const uint8_t maker[MB_LMS_KEY_LENGTH], const uint8_t *chain, size_t chain_length,
                                     uint32_t key, uint8_t *listing, size_t listing_room, struct mb_details *details);

/*
 * Whether the chain is accepted under the maker's key for the key with the number `key`, and what its statement says:
 * MB_ACCEPTED, and it is told in `stated`. At any other code nothing is said there. They are 1, 3, 4 and 20 to 27.
 */
MB_MUST_USE uint32_t mb_chain_said(const uint8_t maker[MB_LMS_KEY_LENGTH], const uint8_t *chain, size_t chain_length,
                                   uint32_t key, struct mb_stated *stated, struct mb_details *details);

/*
 * Whether the chain is accepted under the maker's key, and the policy allows each configuration in which the key with
 * the number `key` lived: MB_ACCEPTED. The other codes are 1, 3, 4, 6, 7 and 20 to 27. The policy is read before the
 * chain is verified. The test `statement` holds of a message and of an answer; `called` tells them apart.
 */
MB_MUST_USE uint32_t mb_trust(const uint8_t maker[MB_LMS_KEY_LENGTH], const uint8_t *chain, size_t chain_length,
                              uint32_t key, const uint8_t *policy, size_t policy_length, struct mb_details *details);

#ifdef __cplusplus
}
#endif

#endif
