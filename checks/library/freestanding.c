/*
 * The calls in a program without an operating system's start and without a C library: the chain of the vectors is
 * verified over the heap of examples/library/arena.c, and its listing printed. Built with SIGNATURES alone, it has no
 * heap, and asks of a signature of no bytes whether it is one.
 */
#include "mb_library.h"
#include "platform.h"

#ifdef SIGNATURES

static uint8_t key_of_no_type[56];

void loader(void)
{
    halt(mb_lms_verify(key_of_no_type, key_of_no_type, 0, key_of_no_type, 0)
        || mb_lms_verdict(key_of_no_type, 56, key_of_no_type, 0, key_of_no_type, 0) != MB_NO_KEY);
}

#else

void begin_arena(void *arena, size_t length);

static uint8_t arena[1 << 18] __attribute__((aligned(16))), listing[4096];

/* The chain stands where the loader's image would. */
void loader(void)
{
    struct mb_details details;
    begin_arena(arena, sizeof arena);
    uint32_t code = mb_chain_verify(key, image, (size_t)(image_end - image), 1, listing, sizeof listing - 1, &details);
    if (code == MB_ACCEPTED) {
        say((const char *)listing);
    }
    begin_arena(arena, sizeof arena);
    halt((int)code
        || mb_trust(key, image, (size_t)(image_end - image), 1, (const uint8_t *)"allow alive alive\n", 18, &details));
}

#endif
