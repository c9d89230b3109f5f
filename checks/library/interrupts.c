/*
 * Verifies a signature of LMS while an interrupt is served on the same stack after each instruction: interrupts FILE, of
 * lines VERDICT KEY TEXT SIGNATURE. The processor traps after each instruction, and the handler writes over the 128 bytes
 * below the stack pointer, as what an interrupt pushes there would. The ABI of System V lets code keep values in them, so
 * code that does answers wrongly or ends by a signal. Takes the line whose signature has the fewest hashes. This file is
 * compiled with -mno-red-zone, and has what the library needs of a C library, so that the library alone is tried.
 */
#define _GNU_SOURCE
#include "mb_library.h"

#include <signal.h>
#include <stdio.h>
#include <stdlib.h>
#include <string.h>
#include <ucontext.h>

enum { RED_ZONE = 128, TRAP = 0x100, WIDTH_1 = 1 };

static volatile long interrupts;
static volatile uint8_t stack[1 << 16];

void *memmove(void *to, const void *from, size_t length)
{
    volatile uint8_t *out = to;
    const volatile uint8_t *in = from;
    for (size_t i = 0; i < length; i++) {
        size_t at = (uintptr_t)to < (uintptr_t)from ? i : length - 1 - i;
        out[at] = in[at];
    }
    return to;
}

void *memcpy(void *restrict to, const void *restrict from, size_t length)
{
    return memmove(to, from, length);
}

void *memset(void *to, int value, size_t length)
{
    for (size_t i = 0; i < length; i++) {
        ((volatile uint8_t *)to)[i] = (uint8_t)value;
    }
    return to;
}

static void serve(int number, siginfo_t *info, void *context)
{
    (void)number;
    (void)info;
    volatile uint8_t *below = (uint8_t *)(uintptr_t)((ucontext_t *)context)->uc_mcontext.gregs[REG_RSP];
    for (int i = 1; i <= RED_ZONE; i++) {
        below[-i] = 0xA5;
    }
    interrupts++;
}

static uint8_t *bytes_of(const char *word, size_t *length)
{
    *length = strlen(word) / 2;
    uint8_t *bytes = malloc(*length + 1);
    for (size_t i = 0; i < *length; i++) {
        unsigned value;
        sscanf(word + 2 * i, "%2x", &value);
        bytes[i] = (uint8_t)value;
    }
    return bytes;
}

int main(int count, char **words)
{
    FILE *file = count == 2 ? fopen(words[1], "r") : NULL;
    char *line = NULL;
    size_t room = 0, length, text_length, signature_length;
    while (file && getline(&line, &room, file) > 0) {
        if (line[0] != '1') {
            continue;
        }
        strtok(line, " ");
        uint8_t *key = bytes_of(strtok(NULL, " \n"), &length);
        uint8_t *text = bytes_of(strtok(NULL, " \n"), &text_length);
        uint8_t *signature = bytes_of(strtok(NULL, " \n"), &signature_length);
        if (length != MB_LMS_KEY_LENGTH || key[7] != WIDTH_1) {
            continue;
        }
        stack_t other = {.ss_sp = (void *)stack, .ss_size = sizeof stack};
        struct sigaction action = {.sa_sigaction = serve, .sa_flags = SA_SIGINFO | SA_ONSTACK};
        sigaltstack(&other, NULL);
        sigaction(SIGTRAP, &action, NULL);
        __builtin_ia32_writeeflags_u64(__builtin_ia32_readeflags_u64() | TRAP);
        bool verifies = mb_lms_verify(key, text, text_length, signature, signature_length);
        __builtin_ia32_writeeflags_u64(__builtin_ia32_readeflags_u64() & ~(unsigned long long)TRAP);
        printf("%s, with %ld interrupts\n", verifies ? "verifies" : "does not verify", interrupts);
        return verifies ? 0 : 1;
    }
    return 2;
}
