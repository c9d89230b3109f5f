/* What the loader has of its board. */
#ifndef PLATFORM_H
#define PLATFORM_H

#include <stdint.h>

extern const uint8_t key[56], image[], image_end[], signature[], signature_end[];

void say(const char *text);
_Noreturn void halt(int status);

#endif
