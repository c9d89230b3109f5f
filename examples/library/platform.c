/*
 * A board, which is here a process of Linux on x86-64: two system calls, and the three calls of a C library that compiled
 * code may use anywhere, that of the verifier too.
 */
#include "platform.h"

#include <stddef.h>

static long call(long number, long first, long second, long third)
{
    long result;
    __asm__ volatile("syscall" : "=a"(result) : "a"(number), "D"(first), "S"(second), "d"(third) : "rcx", "r11", "memory");
    return result;
}

void say(const char *text)
{
    size_t length = 0;
    while (text[length]) {
        length++;
    }
    call(1, 1, (long)text, (long)length);
}

_Noreturn void halt(int status)
{
    for (;;) {
        call(60, status, 0, 0);
    }
}

void *memcpy(void *restrict to, const void *restrict from, size_t length)
{
    for (size_t i = 0; i < length; i++) {
        ((char *)to)[i] = ((const char *)from)[i];
    }
    return to;
}

void *memset(void *to, int value, size_t length)
{
    for (size_t i = 0; i < length; i++) {
        ((char *)to)[i] = (char)value;
    }
    return to;
}

void *memmove(void *to, const void *from, size_t length)
{
    char *out = to;
    const char *in = from;
    if (out < in) {
        for (size_t i = 0; i < length; i++) {
            out[i] = in[i];
        }
    } else {
        while (length--) {
            out[length] = in[length];
        }
    }
    return to;
}
