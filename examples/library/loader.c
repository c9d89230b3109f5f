/*
 * A loader that runs an image only if the maker signed it. It has no operating system and no C library: `key`, `image` and
 * `signature` stand in its memory (platform.S), `say` and `halt` are what the board gives (platform.c).
 */
#include "mb_library.h"
#include "platform.h"

void loader(void)
{
    if (!mb_lms_verify(key, image, (size_t)(image_end - image), signature, (size_t)(signature_end - signature))) {
        say("loader: the maker did not sign this image; it does not run\n");
        halt(1);
    }
    say("loader: the maker signed this image; it runs\n");
    ((void (*)(void))(uintptr_t)image)();
    halt(0);
}
