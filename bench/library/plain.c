#include "plain.h"

#include <openssl/sha.h>
#include <string.h>

long plain_hashes;

static uint32_t number_at(const uint8_t *bytes)
{
    return (uint32_t)bytes[0] << 24 | (uint32_t)bytes[1] << 16 | (uint32_t)bytes[2] << 8 | bytes[3];
}

static void put_number(uint8_t *out, uint32_t number)
{
    for (int i = 0; i < 4; i++) {
        out[i] = (uint8_t)(number >> (24 - 8 * i));
    }
}

static void finish(uint8_t *out, SHA256_CTX *hasher)
{
    plain_hashes++;
    SHA256_Final(out, hasher);
}

static void hash(uint8_t *out, const uint8_t *bytes, size_t length)
{
    SHA256_CTX hasher;
    SHA256_Init(&hasher);
    SHA256_Update(&hasher, bytes, length);
    finish(out, &hasher);
}

static int digit(const uint8_t *bytes, int at, int width)
{
    return bytes[at * width / 8] >> (8 - width - at * width % 8) & ((1 << width) - 1);
}

/* What the types of a key give (RFC 8554, sections 4.1 and 5.1). */
struct types {
    int height, width, count, shift;
};

static bool types_of(const uint8_t key[56], struct types *types)
{
    static const int heights[] = {5, 10, 15, 20, 25}, widths[] = {1, 2, 4, 8}, counts[] = {265, 133, 67, 34};
    static const int shifts[] = {7, 6, 4, 0};
    uint32_t tree = number_at(key), chains = number_at(key + 4);
    if (tree < 5 || tree > 9 || chains < 1 || chains > 4) {
        return false;
    }
    *types = (struct types){heights[tree - 5], widths[chains - 1], counts[chains - 1], shifts[chains - 1]};
    return true;
}

static size_t length_of(const struct types *types)
{
    return (size_t)(44 + 32 * types->count + 32 * types->height);
}

bool plain_lms_verify(const uint8_t key[56], const uint8_t *text, size_t text_length, const uint8_t *signature,
                      size_t signature_length)
{
    struct types types;
    if (!types_of(key, &types) || signature_length != length_of(&types)) {
        return false;
    }
    int height = types.height, width = types.width, count = types.count, last = (1 << width) - 1;
    const uint8_t *path = signature + 44 + 32 * count;
    if (memcmp(signature + 4, key + 4, 4) != 0 || memcmp(path - 4, key, 4) != 0
        || number_at(signature) >= 1u << height) {
        return false;
    }
    uint32_t leaf = number_at(signature);
    uint8_t head[22], digits[34], step[55], node[32], pair[86];
    SHA256_CTX hasher;
    memcpy(head, key + 8, 16);
    put_number(head + 16, leaf);
    head[20] = head[21] = 0x81;
    SHA256_Init(&hasher);
    SHA256_Update(&hasher, head, 22);
    SHA256_Update(&hasher, signature + 8, 32);
    SHA256_Update(&hasher, text, text_length);
    finish(digits, &hasher);
    uint32_t sum = 0;
    for (int i = 0; i < 256 / width; i++) {
        sum += (uint32_t)(last - digit(digits, i, width));
    }
    sum <<= types.shift;
    digits[32] = (uint8_t)(sum >> 8);
    digits[33] = (uint8_t)sum;

    head[20] = head[21] = 0x80;
    SHA256_Init(&hasher);
    SHA256_Update(&hasher, head, 22);
    memcpy(step, head, 20);
    for (int i = 0; i < count; i++) {
        step[20] = (uint8_t)(i >> 8);
        step[21] = (uint8_t)i;
        memcpy(step + 23, signature + 40 + 32 * i, 32);
        for (int at = digit(digits, i, width); at < last; at++) {
            step[22] = (uint8_t)at;
            hash(step + 23, step, 55);
        }
        SHA256_Update(&hasher, step + 23, 32);
    }
    finish(node, &hasher);

    uint32_t number = (1u << height) + leaf;
    memcpy(pair, key + 8, 16);
    put_number(pair + 16, number);
    pair[20] = pair[21] = 0x82;
    memcpy(pair + 22, node, 32);
    hash(node, pair, 54);
    pair[20] = pair[21] = 0x83;
    for (; number > 1; number /= 2, path += 32) {
        put_number(pair + 16, number / 2);
        memcpy(pair + 22, number % 2 ? path : node, 32);
        memcpy(pair + 54, number % 2 ? node : path, 32);
        hash(node, pair, 86);
    }
    return memcmp(node, key + 24, 32) == 0;
}

bool plain_hss_verify(const uint8_t key[60], const uint8_t *text, size_t text_length, const uint8_t *signature,
                      size_t signature_length)
{
    uint32_t levels = number_at(key);
    const uint8_t *end = signature + signature_length;
    if (levels < 1 || levels > 8 || signature_length < 4 || number_at(signature) != levels - 1) {
        return false;
    }
    key += 4;
    signature += 4;
    for (uint32_t level = 1; level < levels; level++) {
        struct types types;
        if (!types_of(key, &types) || (size_t)(end - signature) < length_of(&types) + 56) {
            return false;
        }
        const uint8_t *below = signature + length_of(&types);
        if (!plain_lms_verify(key, below, 56, signature, length_of(&types))) {
            return false;
        }
        key = below;
        signature = below + 56;
    }
    return plain_lms_verify(key, text, text_length, signature, (size_t)(end - signature));
}
