/*
 * Makes each allocation of mb_chain_verify, of mb_trust and of mb_chain_said fail in turn: failing MAKER CHAIN
 * STATED_MAKER STATED_CHAIN, where the second chain has a statement. The heap is here, over malloc. With one failing
 * allocation a call answers MB_NO_MEMORY, writes nothing but that nothing is told, and has given all memory back. Prints
 * a line for each call, with the number of its allocations and the most memory that it had; ends with status 1 if any
 * answer was another.
 */
#include "mb_library.h"

#include <malloc.h>
#include <stdio.h>
#include <stdlib.h>
#include <string.h>

/* What the first two answer: whether there is memory, and then where. */
struct tried {
    uint64_t is_there;
    void *place;
};

static long calls, failing = -1, blocks;
static size_t held, most;
static char nothing;

static struct tried keep(void *place, size_t before)
{
    if (!place) {
        return (struct tried){0, &nothing};
    }
    held += malloc_usable_size(place) - before;
    most = held > most ? held : most;
    return (struct tried){1, place};
}

struct tried rattle_alloc(size_t length, size_t alignment)
{
    if (calls++ == failing) {
        return (struct tried){0, &nothing};
    }
    blocks++;
    return keep(malloc(length ? length : alignment), 0);
}

struct tried rattle_realloc(void *place, size_t kept, size_t length, size_t alignment)
{
    (void)kept;
    if (calls++ == failing) {
        return (struct tried){0, &nothing};
    }
    size_t before = malloc_usable_size(place);
    return keep(realloc(place, length ? length : alignment), before);
}

void rattle_dealloc(void *place)
{
    blocks--;
    held -= malloc_usable_size(place);
    free(place);
}

static uint8_t *whole(const char *name, size_t *length)
{
    FILE *file = fopen(name, "rb");
    if (!file || fseek(file, 0, SEEK_END)) {
        exit(2);
    }
    *length = (size_t)ftell(file);
    rewind(file);
    uint8_t *bytes = malloc(*length);
    if (!bytes || fread(bytes, 1, *length, file) != *length) {
        exit(2);
    }
    fclose(file);
    return bytes;
}

static uint8_t *maker, *chain, *stated_maker, *stated_chain, out[4096];
static size_t length, stated_length;
static const char policy[] =
    "set known f191e625176e7514249870c60bc24622131b04927a418001d1969c9cecd260f1\n"
    "deny dead not alive\n"
    "allow all or code 1 known not code 1 known\n";

static uint32_t verify(struct mb_details *details)
{
    return mb_chain_verify(maker, chain, length, 1, out, sizeof out, details);
}

static uint32_t trust(struct mb_details *details)
{
    return mb_trust(maker, chain, length, 1, (const uint8_t *)policy, sizeof policy - 1, details);
}

/* At MB_ACCEPTED the answer is told, and else nothing. */
static uint32_t said(struct mb_details *details)
{
    struct mb_stated stated, none = {0};
    memset(&stated, 0xEE, sizeof stated);
    uint32_t code = mb_chain_said(stated_maker, stated_chain, stated_length, 1, &stated, details);
    if (code == MB_ACCEPTED ? stated.kind == MB_SAYS_ANSWER : !memcmp(&stated, &none, sizeof none)) {
        return code;
    }
    return MB_CHAIN_STATEMENT;
}

static int try_each(const char *name, uint32_t (*call)(struct mb_details *))
{
    struct mb_details details, none = {0};
    calls = most = 0;
    failing = -1;
    uint32_t code = call(&details);
    long count = calls, other = code != MB_ACCEPTED || blocks;
    for (failing = 0; failing < count; failing++) {
        calls = 0;
        memset(&details, 0xEE, sizeof details);
        memset(out, 0xEE, sizeof out);
        code = call(&details);
        other += code != MB_NO_MEMORY || memcmp(&details, &none, sizeof none) || out[0] != 0xEE || blocks;
    }
    printf("%s: %ld allocations, at most %zu bytes; %ld wrong\n", name, count, most, other);
    return other != 0;
}

int main(int count, char **words)
{
    size_t key;
    if (count != 5) {
        return 2;
    }
    maker = whole(words[1], &key);
    chain = whole(words[2], &length);
    stated_maker = whole(words[3], &key);
    stated_chain = whole(words[4], &stated_length);
    int wrong = try_each("mb_chain_verify", verify) | try_each("mb_trust", trust) | try_each("mb_chain_said", said);
    free(maker);
    free(chain);
    free(stated_maker);
    free(stated_chain);
    return wrong;
}
