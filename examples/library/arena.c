/*
 * The library's three calls of the heap without a C library, for a program without malloc: over an arena that is never
 * given back, begun anew before each call of mb_chain_verify or mb_trust. With 256 KiB a chain of 20 KB is verified.
 */
#include <stddef.h>
#include <stdint.h>

/* What the first two answer in two registers: whether there is memory, and then where; else any place. */
struct tried {
    uint64_t is_there;
    void *place;
};

static unsigned char *next, *end;

/* Begins the arena anew: `length` bytes at `arena`, which is aligned to 16. Whatever the library had is gone. */
void begin_arena(void *arena, size_t length)
{
    next = arena;
    end = next + length;
}

/* A block of at least `length` bytes, aligned to 16. Every alignment that is asked for divides 16. */
struct tried rattle_alloc(size_t length, size_t alignment)
{
    (void)alignment;
    size_t whole = (length + 15) & ~(size_t)15;
    if (whole > (size_t)(end - next)) {
        return (struct tried){0, next};
    }
    struct tried block = {1, next};
    next += whole;
    return block;
}

/* A block of `length` bytes that begins with the first `kept` bytes of the one at `place`; where it fails, that one is as
   it was. */
struct tried rattle_realloc(void *place, size_t kept, size_t length, size_t alignment)
{
    struct tried block = rattle_alloc(length, alignment);
    if (block.is_there) {
        for (size_t i = 0; i < kept && i < length; i++) {
            ((unsigned char *)block.place)[i] = ((unsigned char *)place)[i];
        }
    }
    return block;
}

void rattle_dealloc(void *place)
{
    (void)place;
}
