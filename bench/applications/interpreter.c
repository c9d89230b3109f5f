// A plain interpreter of application code (docs/use/formats.md), with which bench/applications.sh compares the program:
//
//     interpreter CODE INPUT STEPS [NAME HEX]
//
// runs the code of layer 3 in the file CODE on the bytes of INPUT, as `miniboot app` does, and prints the same line.
// Region 3 has at most the one secret NAME. It trusts its arguments.
#include <stdint.h>
#include <stdio.h>
#include <stdlib.h>
#include <string.h>

enum { VALUES = 256, PLACES = 64, MEMORY = 1024, OUTPUT = 4096, LONGEST = 4194304 };

static uint8_t code[LONGEST], input[LONGEST], memory[MEMORY], output[OUTPUT], secret[128];
static uint32_t stack[VALUES], returns[PLACES];
static uint32_t code_length, input_length, secret_length, depth, kept, emitted;
static const char *secret_name = "";

static uint32_t load(const char *name, uint8_t *bytes) {
    FILE *file = fopen(name, "rb");
    if (!file) exit(1);
    uint32_t length = fread(bytes, 1, LONGEST, file);
    fclose(file);
    return length;
}

static void say(const char *what) {
    printf("%s ", what);
    if (!emitted) printf("-");
    for (uint32_t i = 0; i < emitted; i++) printf("%02x", output[i]);
    printf("\n");
}

static void trap(int cause, uint32_t place) {
    char what[40];
    sprintf(what, "trap %d %u", cause, place);
    say(what);
    exit(7);
}

// The length of the instruction at a place, or 0.
static uint32_t length_at(uint32_t place) {
    if (place >= code_length) return 0;
    uint32_t length = 1;
    switch (code[place]) {
    case 0x01: length = 5; break;
    case 0x20: case 0x21: case 0x22: length = 3; break;
    case 0x43:
        if (place + 1 >= code_length || code[place + 1] < 1 || code[place + 1] > 32) return 0;
        length = 2 + code[place + 1];
        break;
    case 0x00: case 0x02: case 0x03: case 0x04: case 0x05: case 0x10: case 0x11: case 0x12: case 0x13: case 0x14:
    case 0x15: case 0x16: case 0x17: case 0x18: case 0x19: case 0x23: case 0x30: case 0x31: case 0x40: case 0x41:
    case 0x42: break;
    default: return 0;
    }
    if (place + length > code_length) return 0;
    if (code[place] == 0x43)
        for (uint32_t i = 2; i < length; i++)
            if (code[place + i] < 0x21 || code[place + i] > 0x7e) return 0;
    return length;
}

static uint32_t takes(uint8_t byte) {
    switch (byte) {
    case 0x02: case 0x03: case 0x21: case 0x30: case 0x40: case 0x42: return 1;
    case 0x04: case 0x05: case 0x31: case 0x43: return 2;
    default: return byte >= 0x10 && byte <= 0x19 ? 2 : 0;
    }
}

static uint32_t leaves(uint8_t byte) {
    switch (byte) {
    case 0x01: case 0x30: case 0x40: case 0x41: case 0x43: return 1;
    case 0x03: case 0x04: return 2;
    case 0x05: return 3;
    default: return byte >= 0x10 && byte <= 0x19 ? 1 : 0;
    }
}

static uint32_t computed(uint8_t byte, uint32_t a, uint32_t b, uint32_t place) {
    if ((byte == 0x13 || byte == 0x14) && b == 0) trap(5, place);
    switch (byte) {
    case 0x10: return a + b;
    case 0x11: return a - b;
    case 0x12: return a * b;
    case 0x13: return a / b;
    case 0x14: return a % b;
    case 0x15: return a & b;
    case 0x16: return a | b;
    case 0x17: return a ^ b;
    case 0x18: return a == b;
    default: return a < b;
    }
}

static uint32_t got(uint32_t place, uint32_t address, uint32_t region) {
    if (region != 3) trap(6, place);
    if (strlen(secret_name) != code[place + 1] || memcmp(secret_name, code + place + 2, code[place + 1])) return UINT32_MAX;
    if ((uint64_t)address + secret_length > MEMORY) trap(4, place);
    memcpy(memory + address, secret, secret_length);
    return secret_length;
}

int main(int count, char **words) {
    if (count != 4 && count != 6) return 2;
    code_length = load(words[1], code);
    input_length = load(words[2], input);
    uint32_t steps = strtoul(words[3], 0, 10), place = 0;
    if (count == 6) {
        secret_name = words[4];
        for (const char *at = words[5]; at[0] && at[1]; at += 2) {
            char pair[3] = {at[0], at[1], 0};
            secret[secret_length++] = strtoul(pair, 0, 16);
        }
    }
    for (uint32_t done = 1; done <= steps; done++) {
        uint32_t length = length_at(place);
        if (!length) trap(1, place);
        uint8_t byte = code[place];
        if (depth < takes(byte)) trap(2, place);
        if (depth - takes(byte) + leaves(byte) > VALUES) trap(3, place);
        uint32_t next = place + length, operand = 0;
        if (byte != 0x43)
            for (uint32_t i = 1; i < length; i++) operand = operand << 8 | code[place + i];
        uint32_t *top = stack + depth, a = depth > 1 ? top[-2] : 0, b = depth > 0 ? top[-1] : 0;
        depth = depth - takes(byte) + leaves(byte);
        switch (byte) {
        case 0x00: {
            char what[40];
            sprintf(what, "halted %u", done);
            say(what);
            return 0;
        }
        case 0x01: top[0] = operand; break;
        case 0x02: break;
        case 0x03: top[0] = b; break;
        case 0x04: top[-2] = b; top[-1] = a; break;
        case 0x05: top[0] = a; break;
        case 0x20: next = operand; break;
        case 0x21: if (!b) next = operand; break;
        case 0x22:
            if (kept == PLACES) trap(8, place);
            returns[kept++] = next;
            next = operand;
            break;
        case 0x23:
            if (!kept) trap(8, place);
            next = returns[--kept];
            break;
        case 0x30:
            if (b >= MEMORY) trap(4, place);
            top[-1] = memory[b];
            break;
        case 0x31:
            if (b >= MEMORY) trap(4, place);
            memory[b] = a;
            break;
        case 0x40: top[-1] = b < input_length ? input[b] : 256; break;
        case 0x41: top[0] = input_length; break;
        case 0x42:
            if (emitted == OUTPUT) trap(7, place);
            output[emitted++] = b;
            break;
        case 0x43: top[-2] = got(place, a, b); break;
        default: top[-2] = computed(byte, a, b, place);
        }
        place = next;
    }
    say("out of steps");
    return 7;
}
