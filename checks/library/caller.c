/*
 * Calls the library on values of another program: caller FOLDER, the folder of vectors. Prints a line for each kind of
 * call, with how many answers were as they should be, and each that was not; ends with status 1 if there is one.
 */
#define _POSIX_C_SOURCE 200809L
#include "mb_library.h"

#include <stdio.h>
#include <stdlib.h>
#include <string.h>

_Static_assert(sizeof(struct mb_stated) == 168 && offsetof(struct mb_stated, bytes) == 40, "as crates/mb_library has it");
_Static_assert(sizeof(struct mb_details) == 32 && offsetof(struct mb_details, offset) == 8, "as crates/mb_library has it");

static const char *folder;
static long right, wrong;

/* Counts an answer. */
static void expect(const char *what, int line, int holds)
{
    if (holds) {
        right++;
    } else {
        wrong++;
        printf("wrong: %s, line %d\n", what, line);
    }
}

/* Tells how many answers there were since the last call. */
static void tell(const char *what)
{
    static long told;
    printf("%s: %ld answers\n", what, right + wrong - told);
    told = right + wrong;
}

static FILE *open_vectors(const char *name)
{
    char path[4096];
    snprintf(path, sizeof path, "%s/%s", folder, name);
    FILE *file = fopen(path, "rb");
    if (!file) {
        perror(path);
        exit(2);
    }
    return file;
}

/* A whole file, in a block of its very length, so that a read beyond it is seen. */
static uint8_t *whole(const char *name, size_t *length)
{
    FILE *file = open_vectors(name);
    fseek(file, 0, SEEK_END);
    *length = (size_t)ftell(file);
    rewind(file);
    uint8_t *bytes = malloc(*length);
    if (!bytes || fread(bytes, 1, *length, file) != *length) {
        exit(2);
    }
    fclose(file);
    return bytes;
}

/* The bytes of a hexadecimal word, in a block of their very number, or of one byte if there is none. */
static uint8_t *bytes_of(const char *word, size_t *length)
{
    *length = strcmp(word, "-") == 0 ? 0 : strlen(word) / 2;
    uint8_t *bytes = malloc(*length ? *length : 1);
    for (size_t i = 0; i < *length; i++) {
        unsigned value;
        sscanf(word + 2 * i, "%2x", &value);
        bytes[i] = (uint8_t)value;
    }
    return bytes;
}

struct signed_text {
    uint8_t *key, *text, *signature;
    size_t key_length, text_length, signature_length;
};

static struct signed_text read_words(void)
{
    struct signed_text it;
    it.key = bytes_of(strtok(NULL, " \n"), &it.key_length);
    it.text = bytes_of(strtok(NULL, " \n"), &it.text_length);
    it.signature = bytes_of(strtok(NULL, " \n"), &it.signature_length);
    return it;
}

static void free_words(struct signed_text *it)
{
    free(it->key);
    free(it->text);
    free(it->signature);
}

static bool lms(const struct signed_text *it)
{
    return mb_lms_verify(it->key, it->text, it->text_length, it->signature, it->signature_length);
}

static uint32_t verdict(const struct signed_text *it, size_t key_length, size_t signature_length)
{
    return mb_lms_verdict(it->key, key_length, it->text, it->text_length, it->signature, signature_length);
}

/* No signature stays one if a bit of these bytes is changed, in every so many bytes. */
static void change(const char *what, int line, const struct signed_text *it, uint8_t *bytes, size_t length, size_t step)
{
    for (size_t i = 0; i < length; i += step) {
        bytes[i] ^= (uint8_t)(1 << i % 8);
        expect(what, line, !lms(it));
        bytes[i] ^= (uint8_t)(1 << i % 8);
    }
}

static void try_lms(void)
{
    FILE *file = open_vectors("lms.txt");
    char *text = NULL;
    size_t room = 0;
    for (int line = 1; getline(&text, &room, file) > 0; line++) {
        if (text[0] == '#') {
            continue;
        }
        strtok(text, " ");
        struct signed_text it = read_words();
        expect("a signature", line, lms(&it));
        expect("its verdict", line, verdict(&it, 56, it.signature_length) == MB_ACCEPTED);
        expect("a key without its last byte", line, verdict(&it, 55, it.signature_length) == MB_NO_KEY);
        expect("no key", line, verdict(&it, 0, it.signature_length) == MB_NO_KEY);
        expect("a signature without its last byte", line, verdict(&it, 56, it.signature_length - 1) == MB_BAD_SIGNATURE);
        expect("no signature", line, verdict(&it, 56, 0) == MB_BAD_SIGNATURE);
        it.key[3] ^= 64;
        expect("a key of no type", line, verdict(&it, 56, it.signature_length) == MB_NO_KEY && !lms(&it));
        it.key[3] ^= 64;
        change("a bit of a key", line, &it, it.key, it.key_length, 1);
        change("a bit of a text", line, &it, it.text, it.text_length, 1);
        change("a bit of a signature", line, &it, it.signature, it.signature_length, 41);
        free_words(&it);
    }
    free(text);
    fclose(file);
    tell("LMS");
}

static void try_hss(void)
{
    FILE *file = open_vectors("hss.txt");
    char *text = NULL;
    size_t room = 0;
    for (int line = 1; getline(&text, &room, file) > 0; line++) {
        if (text[0] == '#') {
            continue;
        }
        bool verifies = strcmp(strtok(text, " "), "1") == 0;
        struct signed_text it = read_words();
        expect("an HSS signature", line,
               mb_hss_verify(it.key, it.text, it.text_length, it.signature, it.signature_length) == verifies);
        for (size_t i = 0; i < it.signature_length && verifies; i += 97) {
            it.signature[i] ^= 1;
            expect("a bit of an HSS signature", line,
                   !mb_hss_verify(it.key, it.text, it.text_length, it.signature, it.signature_length));
            it.signature[i] ^= 1;
        }
        free_words(&it);
    }
    free(text);
    fclose(file);
    tell("HSS");
}

/* Whether details tell nothing but what is given. */
static bool tells(const struct mb_details *details, size_t listing, uint32_t offset, uint32_t entry)
{
    return details->listing == listing && details->offset == offset && details->entry == entry && !details->named
        && !details->last && !details->line && !details->configuration;
}

static void try_chains(void)
{
    size_t maker_length, length, listing_length;
    uint8_t *maker = whole("maker", &maker_length), *chain = whole("chain", &length);
    uint8_t *listing = whole("listing", &listing_length), *out = malloc(listing_length);
    struct mb_details details;

    memset(&details, 0xEE, sizeof details);
    expect("a chain", 0, mb_chain_verify(maker, chain, length, 1, out, listing_length, &details) == MB_ACCEPTED);
    expect("its listing", 0, tells(&details, listing_length, 0, 0) && memcmp(out, listing, listing_length) == 0);
    memset(out, 0xEE, listing_length);
    expect("too little room", 0, mb_chain_verify(maker, chain, length, 1, out, listing_length - 1, &details) == MB_NO_ROOM);
    expect("how much is needed", 0, tells(&details, listing_length, 0, 0) && out[0] == 0xEE);
    expect("another key", 0, mb_chain_verify(maker, chain, length, 999, out, listing_length, &details) == MB_CHAIN_KEY_UNKNOWN);
    expect("nothing of it", 0, tells(&details, 0, 0, 0) && out[0] == 0xEE);
    maker[7] ^= 64;
    expect("no maker's key", 0, mb_chain_verify(maker, chain, length, 1, out, listing_length, &details) == MB_NO_KEY);
    maker[7] ^= 64;
    maker[55] ^= 1;
    expect("another maker", 0, mb_chain_verify(maker, chain, length, 1, out, listing_length, &details) == MB_CHAIN_SIGNATURE);
    expect("its first entry", 0, tells(&details, 0, 0, 0));
    maker[55] ^= 1;
    expect("an empty chain", 0, mb_chain_verify(maker, chain, 0, 1, out, listing_length, &details) == MB_CHAIN_FORM);
    expect("its offset", 0, tells(&details, 0, 0, 0));
    expect("a byte less", 0, mb_chain_verify(maker, chain, length - 1, 1, out, listing_length, &details) == MB_CHAIN_FORM);
    for (size_t i = 6; i < length; i += 59) {
        chain[i] ^= (uint8_t)(1 << i % 8);
        uint32_t code = mb_chain_verify(maker, chain, length, 1, out, listing_length, &details);
        expect("a bit of a chain", (int)i, code >= MB_CHAIN_FORM && code <= MB_CHAIN_NOT_ALIVE && out[0] == 0xEE);
        chain[i] ^= (uint8_t)(1 << i % 8);
    }
    uint8_t *zeros = calloc(1, MB_FILE_LIMIT + 1);
    expect("a long chain", 0, mb_chain_verify(maker, zeros, MB_FILE_LIMIT + 1, 1, out, 0, &details) == MB_TOO_LONG);
    expect("one of the limit", 0, mb_chain_verify(maker, zeros, MB_FILE_LIMIT, 1, out, 0, &details) == MB_CHAIN_FORM);
    expect("a long policy", 0, mb_trust(maker, chain, length, 1, zeros, MB_FILE_LIMIT + 1, &details) == MB_TOO_LONG);
    free(zeros);
    free(out);
    free(listing);
    free(chain);
    free(maker);
    tell("chains");
}

/* Whether all of the bytes are 0. */
static bool are_zeros(const uint8_t *bytes, size_t length)
{
    for (size_t i = 0; i < length; i++) {
        if (bytes[i]) {
            return false;
        }
    }
    return true;
}

/* Whether a statement says nothing, in any field. */
static bool says_nothing(const struct mb_stated *stated)
{
    return stated->kind == MB_SAYS_NOTHING && !stated->length && are_zeros(stated->input, sizeof stated->input)
        && are_zeros(stated->bytes, sizeof stated->bytes);
}

/* Whether a statement says these bytes, which zeros follow. */
static bool says(const struct mb_stated *stated, uint32_t kind, const char *bytes)
{
    size_t length = strlen(bytes);
    return stated->kind == kind && stated->length == length && memcmp(stated->bytes, bytes, length) == 0
        && are_zeros(stated->bytes + length, sizeof stated->bytes - length);
}

static uint32_t said(const uint8_t *maker, const uint8_t *chain, size_t length, uint32_t key, struct mb_stated *stated)
{
    struct mb_details details;
    memset(&details, 0xEE, sizeof details);
    memset(stated, 0xEE, sizeof *stated);
    uint32_t code = mb_chain_said(maker, chain, length, key, stated, &details);
    expect("what is told of the listing", (int)code, !details.listing && !details.line && !details.configuration);
    return code;
}

static void try_statements(void)
{
    static const char input[] = "4fddb6e92a8333684779335007eda9426ddd8ea849ce4ab7c8340016d9d9d89a";
    size_t ignored, length, message_length, answer_length, input_length;
    uint8_t *plain_maker = whole("maker", &ignored), *chain = whole("chain", &length);
    uint8_t *maker = whole("said_maker", &ignored), *message = whole("said_message", &message_length);
    uint8_t *answer = whole("said_answer", &answer_length), *hash = bytes_of(input, &input_length);
    struct mb_stated stated;

    expect("no statement", 0, said(plain_maker, chain, length, 1, &stated) == MB_ACCEPTED && says_nothing(&stated));
    expect("a message", 0, said(maker, message, message_length, 1, &stated) == MB_ACCEPTED);
    expect("its bytes", 0, says(&stated, MB_SAYS_MESSAGE, "hello") && are_zeros(stated.input, sizeof stated.input));
    expect("an answer", 0, said(maker, answer, answer_length, 1, &stated) == MB_ACCEPTED);
    expect("its bytes", 0, says(&stated, MB_SAYS_ANSWER, "abc") && memcmp(stated.input, hash, sizeof stated.input) == 0);
    expect("another key", 0, said(maker, answer, answer_length, 2, &stated) == MB_CHAIN_KEY_UNKNOWN && says_nothing(&stated));
    expect("no chain", 0, said(maker, answer, 0, 1, &stated) == MB_CHAIN_FORM && says_nothing(&stated));
    expect("another maker", 0, said(plain_maker, answer, answer_length, 1, &stated) == MB_CHAIN_SIGNATURE);
    expect("nothing of it", 0, says_nothing(&stated));
    maker[7] ^= 64;
    expect("no maker's key", 0, said(maker, answer, answer_length, 1, &stated) == MB_NO_KEY && says_nothing(&stated));
    maker[7] ^= 64;
    for (size_t i = answer_length - 2385; i < answer_length; i += 37) {
        answer[i] ^= (uint8_t)(1 << i % 8);
        uint32_t code = said(maker, answer, answer_length, 1, &stated);
        expect("a bit of a statement", (int)i,
               (code == MB_CHAIN_FORM || code == MB_CHAIN_STATEMENT) && says_nothing(&stated));
        answer[i] ^= (uint8_t)(1 << i % 8);
    }
    free(hash);
    free(answer);
    free(message);
    free(maker);
    free(chain);
    free(plain_maker);
    tell("statements");
}

static void try_policy(const uint8_t *maker, uint8_t *chain, size_t length, const char *policy, uint32_t code, uint32_t place,
                       int line)
{
    struct mb_details details;
    memset(&details, 0xEE, sizeof details);
    size_t policy_length = strlen(policy);
    uint8_t *bytes = malloc(policy_length ? policy_length : 1);
    memcpy(bytes, policy, policy_length);
    expect("a policy", line, mb_trust(maker, chain, length, 1, bytes, policy_length, &details) == code);
    expect("its place", line,
           !details.listing && !details.offset && !details.entry && !details.named && !details.last
               && details.line == (code == MB_BAD_POLICY ? place : 0)
               && details.configuration == (code == MB_DENIED ? place : 0));
    if (code != MB_BAD_POLICY) {
        chain[length / 2] ^= 1;
        uint32_t other = mb_trust(maker, chain, length, 1, bytes, policy_length, &details);
        expect("a changed chain", line, other >= MB_CHAIN_FORM && other <= MB_CHAIN_NOT_ALIVE);
        chain[length / 2] ^= 1;
    }
    free(bytes);
}

static void try_policies(void)
{
    size_t maker_length, length, room = 0;
    uint8_t *maker = whole("maker", &maker_length), *chain = whole("chain", &length);
    FILE *file = open_vectors("policies.txt");
    char *text = NULL, policy[32768] = "";
    unsigned code = 0, place = 0;
    int line = 1, begun = 0;
    for (; getline(&text, &room, file) > 0; line++) {
        if (line == 1) {
            continue;
        }
        if (strncmp(text, "= ", 2) == 0) {
            if (begun) {
                try_policy(maker, chain, length, policy, code, place, begun);
            }
            sscanf(text + 2, "%u %u", &code, &place);
            policy[0] = 0;
            begun = line;
        } else {
            strcat(policy, text);
        }
    }
    try_policy(maker, chain, length, policy, code, place, begun);
    free(text);
    fclose(file);
    free(chain);
    free(maker);
    tell("policies");
}

int main(int count, char **words)
{
    if (count != 2) {
        return 2;
    }
    folder = words[1];
    try_lms();
    try_hss();
    try_chains();
    try_statements();
    try_policies();
    printf("%ld right, %ld wrong\n", right, wrong);
    return wrong != 0;
}
